//! The state of a units text and some bytes, lent to both programs with a cutover, and every lent byte afterwards.

use crate::lent::Lender;
use crate::run::Run;
use answers::{CUTOVER_1582, Date, UnitsState};
use std::fmt::{Debug, Formatter};

const MOST_BYTES: usize = 6000;

/// A call of the archive that is lent a state and some bytes, and maybe looks at a cutover, its counterpart, and the number in an answer.
pub struct Calls<A> {
    pub archive: fn(&mut UnitsState, &[u8], Date) -> A,
    pub second: fn(&mut UnitsState, &[u8], Date) -> A,
    pub number: fn(&A) -> u32,
}

/// A state, and what is lent beside it or was answered.
#[derive(PartialEq)]
struct With<A>(UnitsState, A);

impl<A: Debug> Debug for With<A> {
    fn fmt(&self, out: &mut Formatter) -> std::fmt::Result {
        let UnitsState { count, ended, bytes } = self.0;
        write!(out, "{:?}, count {count}, ended {ended}, \"{}\"", self.1, bytes.escape_ascii())
    }
}

struct Shown<'a>(&'a [u8], Date);

impl Debug for Shown<'_> {
    fn fmt(&self, out: &mut Formatter) -> std::fmt::Result {
        write!(out, "\"{}\" {:?}", self.0.escape_ascii(), self.1)
    }
}

/// The comparison of calls one after the other: each is given the state that the one before should have left.
pub struct States<'a> {
    pub run: &'a mut Run,
    pub state: UnitsState,
    /// The cutover of each end.
    pub cutover: Date,
    lenders: [Lender; 2],
}

impl<'a> States<'a> {
    pub fn of(run: &'a mut Run) -> States<'a> {
        let lenders = [(); 2].map(|()| Lender::with_room(MOST_BYTES));
        States { run, state: UnitsState::default(), cutover: CUTOVER_1582, lenders }
    }

    /// Answers what the archive does.
    pub fn compare<A: Copy + PartialEq + Debug>(&mut self, kind: &'static str, calls: &Calls<A>, bytes: &[u8]) -> A {
        let [for_state, for_bytes] = &mut self.lenders;
        let state = for_state.lend(&[self.state], &mut self.run.random);
        let lent = for_bytes.lend(bytes, &mut self.run.random);
        let input = With(self.state, Shown(bytes, self.cutover));
        let answer = (calls.archive)(&mut state.buffer[0], lent.buffer, self.cutover);
        let second = (calls.second)(&mut self.state, bytes, self.cutover);
        let (ours, expected) = (With(state.buffer[0], answer), With(self.state, second));
        self.run.judge(kind, (calls.number)(&second), &input, ours, expected);
        let is_kept = *lent.buffer == *bytes && lent.is_intact();
        self.run.expect(kind, &input, is_kept, "the lent bytes or what lies beside them is changed");
        self.run.expect(kind, &input, state.is_intact(), "what lies beside the state is changed");
        answer
    }
}
