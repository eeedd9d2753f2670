// The numbers that a give or a step goes by: m, r and the number of records. Of the records that the program schedule
// keeps a call is lent the first so many. Also ways to get the numbers wrong, and what is wrong with them.

use crate::random::Random;
use crate::table::Shape;
use crate::task::{give, step, Record};

pub type Kept = [Record; 16];

#[derive(Clone, Copy, PartialEq, Eq, Debug)]
pub struct Numbers {
    pub m: u32,
    pub r: u32,
    pub count: usize,
}

// What is wrong, in the order of the refusals.
pub const BAD_RANGE: &str = "m or r out of range";
pub const BAD_LENGTH: &str = "a table of another length";
pub const NO_RECORDS: &str = "no records";
pub const MANY_RECORDS: &str = "more than 16 records";
pub const NO_TASK: &str = "a task number not below the count";

impl Numbers {
    pub fn step(self, words: &mut [u16], kept: &mut Kept, task: usize) -> Result<(), u8> {
        self.lend(kept, |records| step(self.m, self.r, words, records, task))
    }

    pub fn give(self, key: u32, kept: &mut Kept, task: usize) -> Result<(), u8> {
        self.lend(kept, |records| give(self.m, self.r, key, records, task))
    }

    // Behind the sixteenth record any would do, since so many are refused.
    fn lend(self, kept: &mut Kept, call: impl FnOnce(&mut [Record]) -> Result<(), u8>) -> Result<(), u8> {
        let mut lent = kept.to_vec();
        lent.resize(self.count, Record::default());
        let done = call(&mut lent);
        kept.iter_mut().zip(lent).for_each(|(record, after)| *record = after);
        done
    }

    // The first thing that is wrong for a call with that task number; a give has no table.
    pub fn fault(self, table: Option<&[u16]>, task: usize) -> Option<&'static str> {
        let shape = match Shape::new(self.m, self.r) {
            Some(shape) => shape,
            None => return Some(BAD_RANGE),
        };
        if table.is_some_and(|words| words.len() != shape.words()) {
            return Some(BAD_LENGTH);
        }
        match self.count {
            0 => Some(NO_RECORDS),
            17.. => Some(MANY_RECORDS),
            count => (task >= count).then_some(NO_TASK),
        }
    }

    // Each number is kept, or is one at a limit or just outside, or any that two digits write.
    pub fn changed(self, random: &mut Random, task: usize) -> Numbers {
        let byte = random.below(256) as u32;
        let Numbers { mut m, mut r, mut count } = self;
        if random.once_in(3) {
            m = random.pick(&[0, 1, m - 1, m + 1, 14, 15, 20, 21, 255, byte]);
        }
        if random.once_in(3) {
            r = random.pick(&[0, 1, r - 1, r + 1, 12, 13, 255, byte]);
        }
        if random.once_in(2) {
            count = random.pick(&[0, task.min(255), (task + 1).min(255), 1, 16, 17, 255, byte as usize]);
        }
        Numbers { m, r, count }
    }

    // Numbers by which the call is refused.
    pub fn wrong(self, random: &mut Random, table: Option<&[u16]>, task: usize) -> Numbers {
        loop {
            let numbers = self.changed(random, task);
            if numbers.fault(table, task).is_some() {
                return numbers;
            }
        }
    }
}
