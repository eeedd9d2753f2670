// A schedule in the making: each action is played by the rules here and written down for the program schedule.
// Also a tally of what the steps and gives came to, so that nothing is left untried.

use crate::drive::{broken, Drive};
use crate::hex;
use crate::numbers::*;
use crate::schedule;
use crate::table::Shape;
use crate::task::Record;
use std::collections::BTreeSet;

pub struct Play {
    pub shape: Shape,
    pub first: Numbers,
    pub words: Vec<u16>,
    pub records: Kept,
    input: String,
}

impl Play {
    pub fn new(shape: Shape, words: Vec<u16>, count: usize) -> Play {
        let first = Numbers { m: shape.m, r: shape.r, count };
        let start = if words.iter().all(|&word| word == 0) { String::new() } else { hex::words(&words) };
        let input = digits(first) + "\n" + &start + "\n";
        Play { shape, first, words, records: [Record::default(); 16], input }
    }

    pub fn step(&mut self, task: usize) -> Result<(), u8> {
        self.input += &format!("{task:02X}\n");
        self.first.step(&mut self.words, &mut self.records, task)
    }

    pub fn give(&mut self, task: usize, key: u32) -> Result<(), u8> {
        self.input += &format!("{task:02X}{key:08X}\n");
        self.first.give(key, &mut self.records, task)
    }

    pub fn step_by(&mut self, numbers: Numbers, task: usize) -> Result<(), u8> {
        self.input += &format!("{task:02X}{}\n", digits(numbers));
        numbers.step(&mut self.words, &mut self.records, task)
    }

    pub fn give_by(&mut self, numbers: Numbers, task: usize, key: u32) -> Result<(), u8> {
        self.input += &format!("{task:02X}{key:08X}{}\n", digits(numbers));
        numbers.give(key, &mut self.records, task)
    }

    pub fn store(&mut self, task: usize, record: Record) {
        self.input += &format!("{task:02X}{}\n", schedule::digits(&record));
        if task < self.first.count {
            self.records[task] = record;
        }
    }

    // The record of a task, of so many.
    pub fn record(&self, task: usize, count: usize) -> Option<Record> {
        self.records.get(task).copied().filter(|_| task < count)
    }

    // A line that is no action.
    pub fn junk(&mut self, line: &str) {
        self.input += line;
        self.input += "\n";
    }

    pub fn resting(&self) -> bool {
        self.records.iter().all(|record| record.resting())
    }

    pub fn compare(&self, drive: &mut Drive, program: &str) {
        let expected = schedule::run(self.input.as_bytes());
        if !expected.ends_with(&(hex::words(&self.words) + "\n")) {
            broken("the written schedule is not the one that was played");
        }
        drive.compare(program, self.input.as_bytes(), &expected);
    }
}

fn digits(numbers: Numbers) -> String {
    format!("{:02X}{:02X}{:02X}", numbers.m, numbers.r, numbers.count)
}

// What became of steps: the phase, the refusal, the next phase, and what tells apart the ways of phases 7 and 10.
#[derive(Default)]
pub struct Tally {
    steps: BTreeSet<(u8, u8, u8, String)>,
    gives: BTreeSet<u8>,
    // Calls by wrong numbers: which call, what is wrong, and the refusal.
    wrong: BTreeSet<(&'static str, &'static str, u8)>,
}

impl Tally {
    pub fn step(&mut self, before: Option<Record>, result: Result<(), u8>, after: Option<Record>) {
        let (Some(before), Some(after)) = (before, after) else {
            self.steps.insert((0, result.err().unwrap_or(0), 0, "no task".to_string()));
            return;
        };
        let refusal = result.err().unwrap_or(0);
        let side = if after.hand == after.left { "left" } else { "right" };
        let detail = match (before.phase, refusal, after.phase) {
            (7, 0, 8) => format!("mark {} from {side}", after.mark),
            (7, 0, 11) => format!("answer {}", after.answer),
            (10, 0, 11) => format!("mark {}", before.mark),
            _ => String::new(),
        };
        self.steps.insert((before.phase.min(14), refusal, after.phase.min(14), detail));
    }

    pub fn give(&mut self, result: Result<(), u8>) {
        self.gives.insert(result.err().unwrap_or(0));
    }

    pub fn wrong(&mut self, call: &'static str, fault: &'static str, result: Result<(), u8>) {
        self.wrong.insert((call, fault, result.err().unwrap_or(0)));
    }

    // Every way through every phase must have been gone, and every refusal given.
    pub fn must_have_reached_all(&self) {
        self.must_have_reached_all_steps();
        if self.gives != BTreeSet::from([0, 2, 3, 4]) {
            broken(&format!("gives came to {:?}", self.gives));
        }
        let mut all = vec![("step", BAD_RANGE, 1), ("step", BAD_LENGTH, 1), ("give", BAD_RANGE, 1)];
        for fault in [NO_RECORDS, MANY_RECORDS, NO_TASK] {
            // a key out of range comes before the records
            all.extend([("step", fault, 3), ("give", fault, 2), ("give", fault, 3)]);
        }
        if self.wrong != all.into_iter().collect() {
            broken(&format!("calls by wrong numbers came to {:?}", self.wrong));
        }
    }

    fn must_have_reached_all_steps(&self) {
        let mut all = vec![(0, 3, 0, "no task".to_string()), (14, 3, 14, String::new())];
        let mut add = |phase: u8, refusal: u8, to: u8| all.push((phase, refusal, to, String::new()));
        for (phase, to) in [(1, 1), (1, 2), (1, 13), (2, 2), (2, 3), (3, 3), (3, 4), (4, 1), (4, 5)] {
            add(phase, 0, to);
        }
        for (phase, to) in [(5, 6), (5, 7), (6, 1), (8, 9), (8, 10), (9, 9), (9, 10), (11, 12), (12, 13)] {
            add(phase, 0, to);
        }
        for phase in 1..=12 {
            add(phase, 3, phase);
            add(phase, 6, phase);
        }
        add(0, 5, 0);
        add(13, 5, 13);
        for mark in 0..3 {
            all.push((10, 0, 11, format!("mark {mark}")));
            all.extend(["left", "right"].map(|side| (7, 0, 8, format!("mark {mark} from {side}"))));
        }
        all.extend([1, 3, 4].map(|answer| (7, 0, 11, format!("answer {answer}"))));
        if self.steps != all.iter().cloned().collect() {
            let missing: Vec<_> = all.iter().filter(|way| !self.steps.contains(way)).collect();
            broken(&format!("steps not reached: {missing:?}; all reached: {:?}", self.steps));
        }
    }
}
