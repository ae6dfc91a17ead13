//! A datetime64 array lent to both programs, and every lent byte afterwards.

use crate::lent::Lender;
use crate::run::Run;
use answers::RunAnswer;
use std::fmt::{Debug, Formatter};

pub const MOST_BYTES: usize = 10_000;

pub type Call<A, B> = fn(&[u8], &[A], &mut [B]) -> RunAnswer;

/// What is lent to be read, and how many elements are lent to be written.
pub struct Input<'a, A> {
    pub identifier: &'a [u8],
    pub source: &'a [A],
    pub room: usize,
}

impl<A: Debug> Debug for Input<'_, A> {
    fn fmt(&self, out: &mut Formatter) -> std::fmt::Result {
        let start = &self.source[..self.source.len().min(16)];
        let (name, length) = (self.identifier.escape_ascii(), self.source.len());
        write!(out, "\"{name}\", {length} elements from {start:?} on, room for {}", self.room)
    }
}

/// The comparison of a call of the archive with its counterpart. Room is filled from random bits.
pub struct Arrays<'a, A, B> {
    pub run: &'a mut Run,
    archive: Call<A, B>,
    second: Call<A, B>,
    element: fn(u64) -> B,
    lenders: [Lender; 3],
}

impl<'a, A: Copy + Default + PartialEq + Debug, B: Copy + PartialEq> Arrays<'a, A, B> {
    pub fn of(run: &'a mut Run, archive: Call<A, B>, second: Call<A, B>, element: fn(u64) -> B) -> Arrays<'a, A, B> {
        let lenders = [(); 3].map(|()| Lender::with_room(MOST_BYTES));
        Arrays { run, archive, second, element, lenders }
    }

    /// Lends some elements before the array's, so that these may begin at any address. Answers what the room holds at the end.
    pub fn compare(&mut self, kind: &'static str, input: Input<A>) -> Vec<B> {
        let random = &mut self.run.random;
        let before = random.pick(&[0, 0, 0, 0, 1, 3, 4, 7]);
        let all = [&vec![A::default(); before], input.source].concat();
        let room: Vec<B> = (0..before + input.room).map(|_| (self.element)(random.bits())).collect();
        let [for_name, for_source, for_room] = &mut self.lenders;
        let name = for_name.lend(input.identifier, random);
        let source = for_source.lend(&all, random);
        let lent = for_room.lend(&room, random);
        let ours = (self.archive)(name.buffer, &source.buffer[before..], &mut lent.buffer[before..]);
        let mut expected = room;
        let second = (self.second)(input.identifier, input.source, &mut expected[before..]);
        self.run.judge(kind, second.number, &input, ours, second);
        let is_name_kept = *name.buffer == *input.identifier && name.is_intact();
        self.run.expect(kind, &input, is_name_kept, "the identifier or what lies beside it is changed");
        let is_source_kept = *source.buffer == all[..] && source.is_intact();
        self.run.expect(kind, &input, is_source_kept, "the source or what lies beside it is changed");
        self.run.expect(kind, &input, *lent.buffer == expected[..], "the room differs");
        self.run.expect(kind, &input, lent.is_intact(), "what lies beside the room is changed");
        expected.split_off(before)
    }
}
