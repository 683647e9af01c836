//! Two type records become one, so that functions written over either can be taken together.

use crate::{exported_call::exported_merge_types, refusal::Refusal};

/// No merged record is longer: two sizes, kind and count of each of 4,096 types, and 16,384 parts.
const LONGEST: usize = 2 + 2 * 4096 + 16384;

/// One type record of two, or why they are refused: [`Refusal::BadTypes`] or
/// [`Refusal::MergedTooLarge`], never [`Refusal::ShortStore`], since the output is made here.
///
/// The types of the first keep their numbers. Those of the second move up by the first's count, and so
/// do the parts that are type numbers; discriminants stay. A function over the first has the same
/// statements over the merged record as it is, if its local types are the first's. So has one over the
/// second once its local types are moved: [`crate::Function::moved`].
///
/// ```
/// use hirvoksne::{ghost_statements, merge_types, Function, Open, Place, Types};
///
/// // The timer group: struct Timer { left: u64, next: u64 }, and fn arm(timer: &mut Timer).
/// let mut timers = Types::new();
/// let int = timers.opaque();
/// let timer = timers.structure(&[int, int]);
/// let timer = timers.mut_ref(timer);
/// let mut arm = Function::new(int, &[timer], &[]);
/// let start = arm.block();
/// arm.write(start, Open::new().used(&Place::local(1).deref().field(0)).ret());
///
/// // The bus group: enum Bus { Idle, Busy(Line) }, struct Line { irq: u32 }, and fn reset(bus: Bus).
/// let mut buses = Types::new();
/// let irq = buses.opaque();
/// let line = buses.structure(&[irq]);
/// let [idle, busy] = [buses.variant(0, &[]), buses.variant(1, &[line])];
/// let bus = buses.enumeration(&[idle, busy]);
/// let mut reset = Function::new(irq, &[bus], &[irq]);
/// let [start, done, end] = reset.blocks();
/// let (bus, kind) = (Place::local(1), Place::local(2));
/// let seen = Open::new().read(&bus).note(&kind).switch(&kind);
/// reset.write(start, seen.arm(1, done).otherwise(end));
/// let irq = bus.downcast(1).field(0).field(0);
/// reset.write(done, Open::new().used(&irq).goto(end));
/// reset.write(end, Open::new().ret());
///
/// // Linked: the timers keep their numbers, the buses stand behind them.
/// let (timers_alone, buses_alone) = (timers.record(), buses.record());
/// let types = merge_types(&timers_alone, &buses_alone)?;
/// let moved = reset.moved(timers.count());
///
/// let lines = |types: &[u32], function: &Function| {
///     ghost_statements(types, &function.record()).map(|statements| statements.to_string())
/// };
/// assert_eq!(lines(&types, &arm)?, lines(&timers_alone, &arm)?);
/// assert_eq!(lines(&types, &moved)?, lines(&buses_alone, &reset)?);
/// assert_eq!(lines(&types, &arm)?, "at 3 unfold _1.* 0\nat 4 fold _1.* -\n");
/// assert_eq!(lines(&types, &moved)?, "at 13 unfold _1.as1.0 2\nat 14 fold _1 -\nat 8 fold _1 -\n");
/// # Ok::<(), hirvoksne::Refusal>(())
/// ```
pub fn merge_types(first: &[u32], second: &[u32]) -> Result<Vec<u32>, Refusal> {
    // Of two records that pass, the sizes alone stand twice.
    let longest = (first.len() + second.len()).saturating_sub(2);
    let mut out = vec![0; longest.min(LONGEST)];
    let length = merge_types_into(first, second, &mut out)?;
    out.truncate(length);
    Ok(out)
}

/// The same in an output that the caller lends. Gives the length of the record: a type record has no word
/// behind it, so it is so many words of the output that the other calls take. Behind them are zeros, and
/// after a refusal zeros alone.
pub fn merge_types_into(first: &[u32], second: &[u32], out: &mut [u32]) -> Result<usize, Refusal> {
    match exported_merge_types(first, second, out) {
        0 => Ok(2 + 2 * out[0] as usize + out[1] as usize),
        number => Err(Refusal::from_number(number).expect("the contract: a refusal's number")),
    }
}
