//! One test case and its answer, as lines. A line is a name and decimal words:
//!
//! ```text
//! case NUMBER CALL NAME       NAME only in the kind `limits`
//! types W..  function W..     records, whole;  types2 W.. the second type record of merge_types
//! locals W..                  the local types of a call on states
//! count N  forms W..  whats W..        a state; the second is count2, forms2, whats2
//! ops W..  args W..           the items of a place
//! variant V                   of downcast;  in_mut_ref 0|1 of join_nodes
//! arg_count A                 of collect_folds_at_ret
//! room F W O N                lengths of the lent arrays: store forms, store whats, output, and the
//!                             numbers beside it; of crate_statements no N, of a collecting call, of
//!                             statement_items and of merge_types O alone
//! list W..                    a list of statements, of statement_items; count and records, of
//!                             crate_statements
//! input B..                   the bytes on standard input of `ghosts`
//! answer accepted W..  or  answer refused N
//! position P                  of crate_statements: the function refused, counted from 1, or 0
//! out W..                     the output
//! told W..                    of whole: the numbers beside it
//! share_forms J W..  share_whats J W..  the share of the J-th join point
//! after_count, after_forms, after_whats (and with a 2)   the state that a call gives
//! line TEXT                   a line that `ghosts` prints
//! end
//! ```
//!
//! The words after `accepted`: of `function` the number of join points; of `whole` and the
//! collecting calls statements and entries; of `statement_items` the number of items; of `projection`
//! 0 nothing, 1 fold, or 2 and the number of elements to record, and last the walk's number; of
//! `join` the flag; of `join_nodes` both flags; of `crate_statements` statements and entries of each
//! function; of `merge_types` the length of the record; of the others none.
//! State arrays, `out`, `told` and shares are written without the zeros at their end, and a share
//! that is all zero isn't written. After a refusal all that was lent is zero, and states are as they
//! came.

use std::fmt::{self, Display, Write};

use crate::{
    calls,
    env::ProjResult,
    function::Body,
    ghosts::ghosts,
    merge::merge_types,
    refusal::Refusal,
    state::{trimmed, State, MAX_NODES},
    statements::statement_items,
    types::Types,
    whole_crate::crate_statements,
};

#[derive(Clone, Copy, PartialEq, Eq, Debug)]
pub enum Call {
    /// Refusal 1 alone.
    Types,
    /// Refusals 1, 2 and 4 alone.
    Function,
    /// `calls::ghost_statements`.
    Whole,
    /// The text program.
    Ghosts,
    Projection,
    Downcast,
    Fold,
    Unfold,
    Join,
    JoinNodes,
    CollectFoldUnfolds,
    CollectUnfolds,
    CollectFoldsAtRet,
    /// `statements::statement_items`.
    StatementItems,
    /// `whole_crate::crate_statements`.
    CrateStatements,
    /// `merge::merge_types`.
    MergeTypes,
}

impl Call {
    pub const ON_STATES: [Call; 9] = [
        Call::Projection,
        Call::Downcast,
        Call::Fold,
        Call::Unfold,
        Call::Join,
        Call::JoinNodes,
        Call::CollectFoldUnfolds,
        Call::CollectUnfolds,
        Call::CollectFoldsAtRet,
    ];

    pub fn name(self) -> &'static str {
        match self {
            Call::Types => "types",
            Call::Function => "function",
            Call::Whole => "whole",
            Call::Ghosts => "ghosts",
            Call::Projection => "projection",
            Call::Downcast => "downcast",
            Call::Fold => "fold",
            Call::Unfold => "unfold",
            Call::Join => "join",
            Call::JoinNodes => "join_nodes",
            Call::CollectFoldUnfolds => "collect_fold_unfolds",
            Call::CollectUnfolds => "collect_unfolds",
            Call::CollectFoldsAtRet => "collect_folds_at_ret",
            Call::StatementItems => "statement_items",
            Call::CrateStatements => "crate_statements",
            Call::MergeTypes => "merge_types",
        }
    }

    pub fn has_place(self) -> bool {
        matches!(self, Call::Projection | Call::Downcast | Call::Fold | Call::Unfold)
    }

    pub fn has_two_states(self) -> bool {
        matches!(self, Call::Join | Call::JoinNodes | Call::CollectFoldUnfolds)
    }

    pub fn collects(self) -> bool {
        matches!(self, Call::CollectFoldUnfolds | Call::CollectUnfolds | Call::CollectFoldsAtRet)
    }
}

/// The input of a call. What the call doesn't take is empty.
#[derive(Clone, PartialEq, Eq, Debug)]
pub struct Case {
    pub call: Call,
    pub types: Vec<u32>,
    pub function: Vec<u32>,
    pub locals: Vec<u32>,
    pub states: Vec<State>,
    pub place_ops: Vec<u32>,
    pub place_args: Vec<u32>,
    /// The variant, `in_mut_ref` or A.
    pub number: u32,
    pub room: Vec<usize>,
    pub input: Vec<u8>,
    /// Statements; or the count and the records of a crate.
    pub list: Vec<u32>,
    /// The second type record.
    pub types2: Vec<u32>,
}

/// An answer: the refusal or the words after `accepted`, then the lines that follow.
pub struct Answer {
    pub result: Result<Vec<usize>, Refusal>,
    pub lines: String,
}

impl Case {
    pub fn new(call: Call) -> Case {
        Case {
            call,
            types: vec![],
            function: vec![],
            locals: vec![],
            states: vec![],
            place_ops: vec![],
            place_args: vec![],
            number: 0,
            room: vec![],
            input: vec![],
            list: vec![],
            types2: vec![],
        }
    }

    pub fn whole(types: Vec<u32>, function: Vec<u32>, room: [usize; 4]) -> Case {
        Case { types, function, room: room.to_vec(), ..Case::new(Call::Whole) }
    }

    pub fn ghosts(input: &[u8]) -> Case {
        Case { input: input.to_vec(), ..Case::new(Call::Ghosts) }
    }

    pub fn statement_items(list: Vec<u32>, room: usize) -> Case {
        Case { list, room: vec![room], ..Case::new(Call::StatementItems) }
    }

    pub fn crate_statements(types: Vec<u32>, list: Vec<u32>, room: [usize; 3]) -> Case {
        Case { types, list, room: room.to_vec(), ..Case::new(Call::CrateStatements) }
    }

    pub fn merge_types(types: Vec<u32>, types2: Vec<u32>, room: usize) -> Case {
        Case { types, types2, room: vec![room], ..Case::new(Call::MergeTypes) }
    }

    pub fn set_place(&mut self, items: &[(u32, u32)]) {
        (self.place_ops, self.place_args) = items.iter().copied().unzip();
    }

    /// The number of the refusal, 0 if accepted.
    pub fn refusal(&self) -> u32 {
        self.answer().result.err().map_or(0, Refusal::number)
    }

    pub fn answer(&self) -> Answer {
        match self.call {
            Call::Types => plain(Types::read(&self.types).map(|_| vec![])),
            Call::Function => plain(self.check_function().map(|joins| vec![joins])),
            Call::Whole => self.answer_whole(),
            Call::Ghosts => self.answer_ghosts(),
            Call::Projection => {
                let (result, after) = self.on_place(calls::projection);
                with_state(result.map(projection_words), &after)
            }
            Call::Fold => {
                let (result, after) = self.on_place(calls::fold);
                with_state(result.map(|()| vec![]), &after)
            }
            Call::Unfold => {
                let (result, after) = self.on_place(calls::unfold);
                with_state(result.map(|()| vec![]), &after)
            }
            Call::Downcast => {
                let (result, after) = self.on_place(|types, locals, state, ops, args| {
                    calls::downcast(types, locals, state, ops, args, self.number)
                });
                with_state(result.map(|()| vec![]), &after)
            }
            Call::Join => self.answer_join(),
            Call::JoinNodes => self.answer_join_nodes(),
            Call::CollectFoldUnfolds => self.answer_lent(|out| {
                let [first, second] = &self.states[..] else { panic!("two states") };
                calls::collect_fold_unfolds(&self.types, &self.locals, first, second, out)
                    .map(counted)
            }),
            Call::CollectUnfolds => self.answer_lent(|out| {
                calls::collect_unfolds(&self.types, &self.locals, &self.states[0], out).map(counted)
            }),
            Call::CollectFoldsAtRet => self.answer_lent(|out| {
                let args = self.number as usize;
                calls::collect_folds_at_ret(&self.types, &self.locals, args, &self.states[0], out)
                    .map(counted)
            }),
            Call::StatementItems => {
                self.answer_lent(|out| statement_items(&self.list, out).map(|count| vec![count]))
            }
            Call::CrateStatements => self.answer_crate(),
            Call::MergeTypes => self.answer_lent(|out| {
                merge_types(&self.types, &self.types2, out).map(|length| vec![length])
            }),
        }
    }

    fn check_function(&self) -> Result<usize, Refusal> {
        let genv = Types::read(&self.types)?;
        let body = Body::read(&genv, &self.function)?;
        body.check_places()?;
        Ok(body.join_points().count())
    }

    fn answer_whole(&self) -> Answer {
        let (result, lines) = self.answer_stored(|forms, whats, out, told| {
            calls::ghost_statements(&self.types, &self.function, forms, whats, out, told)
        });
        Answer { result: result.map(counted), lines }
    }

    fn answer_crate(&self) -> Answer {
        let (result, mut lines) = self.answer_stored(|forms, whats, out, _| {
            crate_statements(&self.types, &self.list, forms, whats, out)
        });
        let position = result.as_ref().err().map_or(0, |&(_, position)| position);
        push_line(&mut lines, "position", &[position]);
        let result = result.map(|counts| counts.into_iter().flat_map(counted).collect());
        Answer { result: result.map_err(|(refusal, _)| refusal), lines }
    }

    /// Of a call to which store and output are lent, and perhaps an array for the numbers. They hold
    /// other than zeros at first, so that what isn't written shows.
    fn answer_stored<A, E>(
        &self,
        call: impl FnOnce(&mut [u16], &mut [u16], &mut [u32], &mut [u32]) -> Result<A, E>,
    ) -> (Result<A, E>, String) {
        let mut forms = vec![0xaaaa; self.room[0]];
        let mut whats = vec![0xaaaa; self.room[1]];
        let mut out = vec![0xaaaa_aaaa; self.room[2]];
        let lent = self.room.get(3);
        let mut told = vec![0xaaaa_aaaa; lent.copied().unwrap_or(0)];
        let result = call(&mut forms, &mut whats, &mut out, &mut told);
        let mut lines = String::new();
        if result.is_ok() {
            push_line(&mut lines, "out", trimmed(&out));
            if lent.is_some() {
                push_line(&mut lines, "told", trimmed(&told));
            }
            for (name, store) in [("share_forms", &forms), ("share_whats", &whats)] {
                for (share, entries) in store.chunks(MAX_NODES).enumerate() {
                    if !trimmed(entries).is_empty() {
                        push_line(&mut lines, &format!("{name} {share}"), trimmed(entries));
                    }
                }
            }
        }
        (result, lines)
    }

    fn answer_ghosts(&self) -> Answer {
        let text = ghosts(&self.input);
        let refused = REFUSALS.iter().find(|r| text == format!("refused {}\n", r.number()));
        match refused {
            Some(&refusal) => plain(Err(refusal)),
            None => {
                let lines = text.lines().map(|line| format!("line {line}\n")).collect();
                Answer { result: Ok(vec![]), lines }
            }
        }
    }

    fn on_place<A>(&self, call: impl Fn(&[u32], &[u32], &State, &[u32], &[u32]) -> A) -> A {
        call(&self.types, &self.locals, &self.states[0], &self.place_ops, &self.place_args)
    }

    fn answer_join(&self) -> Answer {
        match calls::join(&self.types, &self.locals, &self.states[0], &self.states[1]) {
            Ok((after, flag)) => with_state(Ok(vec![usize::from(flag)]), &after),
            Err(refusal) => plain(Err(refusal)),
        }
    }

    fn answer_join_nodes(&self) -> Answer {
        let in_mut_ref = self.number != 0;
        let [first, second] = &self.states[..] else { panic!("two states") };
        match calls::join_nodes(&self.types, self.locals[0], in_mut_ref, first, second) {
            Ok((after, after2, flag1, flag2)) => {
                let flags = vec![usize::from(flag1), usize::from(flag2)];
                let mut answer = with_state(Ok(flags), &after);
                push_state(&mut answer.lines, "after_", "2", &after2);
                answer
            }
            Err(refusal) => plain(Err(refusal)),
        }
    }

    /// Of a call to which the output alone is lent.
    fn answer_lent(&self, call: impl FnOnce(&mut [u32]) -> Result<Vec<usize>, Refusal>) -> Answer {
        let mut out = vec![0xaaaa_aaaa; self.room[0]];
        let result = call(&mut out);
        let mut lines = String::new();
        if result.is_ok() {
            push_line(&mut lines, "out", trimmed(&out));
        }
        Answer { result, lines }
    }

    /// The lines of the input.
    pub fn input_lines(&self) -> String {
        let mut lines = String::new();
        let text = &mut lines;
        if self.call == Call::Ghosts {
            push_line(text, "input", &self.input);
            return lines;
        }
        if self.call == Call::StatementItems {
            push_line(text, "list", &self.list);
            push_line(text, "room", &self.room);
            return lines;
        }
        push_line(text, "types", &self.types);
        match self.call {
            Call::Types => {}
            Call::Function | Call::Whole => push_line(text, "function", &self.function),
            Call::CrateStatements => push_line(text, "list", &self.list),
            Call::MergeTypes => push_line(text, "types2", &self.types2),
            _ => push_line(text, "locals", &self.locals),
        }
        for (state, suffix) in self.states.iter().zip(["", "2"]) {
            push_state(text, "", suffix, state);
        }
        if self.call.has_place() {
            push_line(text, "ops", &self.place_ops);
            push_line(text, "args", &self.place_args);
        }
        match self.call {
            Call::Downcast => push_line(text, "variant", &[self.number]),
            Call::JoinNodes => push_line(text, "in_mut_ref", &[self.number]),
            Call::CollectFoldsAtRet => push_line(text, "arg_count", &[self.number]),
            _ => {}
        }
        if !self.room.is_empty() {
            push_line(text, "room", &self.room);
        }
        lines
    }
}

impl Display for Answer {
    fn fmt(&self, f: &mut fmt::Formatter<'_>) -> fmt::Result {
        match &self.result {
            Ok(words) => {
                write!(f, "answer accepted")?;
                words.iter().try_for_each(|word| write!(f, " {word}"))?;
                writeln!(f)?;
            }
            Err(refusal) => writeln!(f, "answer refused {}", refusal.number())?,
        }
        write!(f, "{}", self.lines)
    }
}

const REFUSALS: [Refusal; 10] = [
    Refusal::BadTypes,
    Refusal::BadFunction,
    Refusal::BadState,
    Refusal::BadPlace,
    Refusal::WrongStep,
    Refusal::OtherVariant,
    Refusal::BareVariant,
    Refusal::NoSuchValue,
    Refusal::StateFull,
    Refusal::ShortStore,
];

fn counted((statements, entries): calls::Counts) -> Vec<usize> {
    vec![statements, entries]
}

fn plain(result: Result<Vec<usize>, Refusal>) -> Answer {
    Answer { result, lines: String::new() }
}

/// A refusal leaves the state as it came, so it isn't written again.
fn with_state(result: Result<Vec<usize>, Refusal>, after: &State) -> Answer {
    let mut lines = String::new();
    if result.is_ok() {
        push_state(&mut lines, "after_", "", after);
    }
    Answer { result, lines }
}

fn projection_words((answer, passed): (ProjResult, usize)) -> Vec<usize> {
    match answer {
        ProjResult::None => vec![0, passed],
        ProjResult::Fold => vec![1, passed],
        ProjResult::Unfold(len) => vec![2, len, passed],
    }
}

fn push_state(text: &mut String, prefix: &str, suffix: &str, state: &State) {
    push_line(text, &format!("{prefix}count{suffix}"), &[state.count]);
    push_line(text, &format!("{prefix}forms{suffix}"), trimmed(&state.forms));
    push_line(text, &format!("{prefix}whats{suffix}"), trimmed(&state.whats));
}

fn push_line<W: Display>(text: &mut String, name: &str, words: &[W]) {
    text.push_str(name);
    for word in words {
        write!(text, " {word}").expect("a string takes all");
    }
    text.push('\n');
}
