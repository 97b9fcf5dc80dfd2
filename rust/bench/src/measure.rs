//! A row of the tables: one operation on one input, of the library and of what it is held against. First both
//! answer, and must agree; then each is measured.

use std::hint::black_box;

use crate::stack::{self, Depth};

/// How often an operation is called while its instructions are counted: so often that what is run once, before and after the
/// calls, is too little to be told. Each call has a state of its own that was made before, so that all calls are alike and
/// nothing is put back in between.
pub const CALLS: usize = 40;

/// An answer as numbers, with what was lent: what must be the same on both sides.
pub type Told = Vec<u64>;

/// One side of a row: the state before each call, the call, and what is told of both after it.
pub struct Side<State, Call, Tell> {
    pub state: State,
    pub call: Call,
    pub tell: Tell,
}

pub fn side<State, Answer, Call, Tell>(
    state: State,
    call: Call,
    tell: Tell,
) -> Side<State, Call, Tell>
where
    Call: Fn(&mut State) -> Answer,
    Tell: Fn(&State, &Answer) -> Told,
{
    Side { state, call, tell }
}

/// What is to be measured in this run.
#[derive(Clone, Copy, PartialEq, Eq)]
pub enum Purpose {
    /// Instructions, by callgrind: each side's calls stand between `row_begins` and `row_ends`.
    Instructions,
    Stack,
}

/// What a row is, and in a run for the stack how deep both sides went.
pub struct Row {
    pub group: &'static str,
    pub operation: String,
    pub input: String,
    pub depths: Option<[Depth; 2]>,
}

pub struct Measure {
    purpose: Purpose,
    /// Groups whose name does not begin so are left out.
    wanted: String,
    group: &'static str,
    pub rows: Vec<Row>,
}

impl Measure {
    pub fn new(purpose: Purpose, wanted: &str) -> Measure {
        Measure {
            purpose,
            wanted: wanted.to_owned(),
            group: "",
            rows: Vec::new(),
        }
    }

    /// The rows from here on are of this group.
    pub fn group(&mut self, name: &'static str) {
        self.group = name;
    }

    /// An operation whose answer is all that comes of it. Argument and answer are handed over outside of what is
    /// counted: from the operation's first instruction to its return.
    pub fn row<L, LA, S, SA>(
        &mut self,
        operation: &str,
        input: &str,
        library: Side<L, impl Fn(&mut L) -> LA, impl Fn(&L, &LA) -> Told>,
        second: Side<S, impl Fn(&mut S) -> SA, impl Fn(&S, &SA) -> Told>,
    ) where
        L: Clone,
        S: Clone,
    {
        if !self.group.starts_with(&self.wanted) {
            return;
        }
        assert_alike(operation, input, &library, &second);
        let depths = match self.purpose {
            Purpose::Instructions => {
                count(&library.state, &library.call);
                count(&second.state, &second.call);
                None
            }
            Purpose::Stack => Some([
                stack::depth(&library.state, &library.call),
                stack::depth(&second.state, &second.call),
            ]),
        };
        self.rows.push(Row {
            group: self.group,
            operation: operation.to_owned(),
            input: input.to_owned(),
            depths,
        });
    }

    /// An operation that is handed a state and hands it back. The library takes it by value and gives it by value, so
    /// here the copying in and out that its caller has to do is counted too; the second program changes it in place.
    pub fn row_of_state<L, LA, S, SA>(
        &mut self,
        operation: &str,
        input: &str,
        library: Side<L, impl Fn(&mut L) -> LA, impl Fn(&L, &LA) -> Told>,
        second: Side<S, impl Fn(&mut S) -> SA, impl Fn(&S, &SA) -> Told>,
    ) where
        L: Clone,
        S: Clone,
    {
        let Side { state, call, tell } = library;
        match self.purpose {
            Purpose::Instructions => {
                let call = |state: &mut L| apart(&call, state);
                self.row(operation, input, Side { state, call, tell }, second);
            }
            // The copies then stand in the frame above the one from which the depth is told.
            Purpose::Stack => self.row(operation, input, Side { state, call, tell }, second),
        }
    }
}

/// A ratio of instructions says something only of the same work.
fn assert_alike<L: Clone, LA, S: Clone, SA>(
    operation: &str,
    input: &str,
    library: &Side<L, impl Fn(&mut L) -> LA, impl Fn(&L, &LA) -> Told>,
    second: &Side<S, impl Fn(&mut S) -> SA, impl Fn(&S, &SA) -> Told>,
) {
    let mut state = library.state.clone();
    let answer = (library.call)(&mut state);
    let told = (library.tell)(&state, &answer);
    let mut state = second.state.clone();
    let answer = (second.call)(&mut state);
    let expected = (second.tell)(&state, &answer);
    assert_eq!(told, expected, "{operation}, {input}: the answers differ");
}

/// Calls as often before, so that what first calls do (the loader's search, the allocator's set-up) is not told.
fn count<State: Clone, Answer>(state: &State, call: &impl Fn(&mut State) -> Answer) {
    let mut states = vec![state.clone(); CALLS];
    repeated(&mut vec![state.clone(); CALLS], call);
    row_begins();
    repeated(&mut states, call);
    row_ends();
    black_box(&states);
}

/// What this function calls is what is counted; its own instructions are not.
#[inline(never)]
fn repeated<State, Answer>(states: &mut [State], call: &impl Fn(&mut State) -> Answer) {
    for state in states {
        black_box(&call(black_box(state)));
    }
}

/// A function of its own, with all that the call needs around the export.
#[inline(never)]
fn apart<State, Answer>(call: &impl Fn(&mut State) -> Answer, state: &mut State) -> Answer {
    call(state)
}

/// Callgrind knows both by name: it forgets what it counted when the first is called, and writes it out when the
/// second is.
#[no_mangle]
#[inline(never)]
extern "C" fn row_begins() {
    black_box("begins");
}

#[no_mangle]
#[inline(never)]
extern "C" fn row_ends() {
    black_box("ends");
}
