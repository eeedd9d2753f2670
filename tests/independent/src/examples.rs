// Document 01's own examples, computed by this program's rules: they are right before anything is held against them.
// The paper's words are written here as the paper writes them.

use crate::drive::broken;
use crate::frame;
use crate::hex;
use crate::table::*;
use crate::task::{give, step, Record, DONE};

struct Checked(u64);

impl Checked {
    fn same<T: PartialEq + std::fmt::Debug>(&mut self, what: &str, got: T, paper: T) {
        self.0 += 1;
        if got != paper {
            broken(&format!("document 01's example {what}: {got:X?}, the paper has {paper:X?}"));
        }
    }
}

fn built(m: u32, r: u32, keys: &[u32]) -> Vec<u8> {
    let mut bytes = vec![0xAA; 2 * ((1 << m) + 2)];
    if build(m, r, &mut bytes, keys) != Ok(0) {
        broken("a build of document 01's examples is refused");
    }
    bytes
}

pub fn all() -> u64 {
    let mut checked = Checked(0);
    shape_three_four(&mut checked);
    lone_task(&mut checked);
    shape_one_one(&mut checked);
    let input = b"030402\n0000003500000031\n0000004C0000003800000035\n";
    let output = "0202\n020201\n00000000100110057008700C0000000000000000\n";
    checked.same("of the frame program", frame::run(input), output.to_string());
    checked.0
}

fn shape_three_four(checked: &mut Checked) {
    let four = built(3, 4, &[0x35, 0x31, 0x4C, 0x38]);
    let words = "00000000100110057008700C0000000000000000";
    checked.same("build of four", hex::words(&words_of(&four)), words.to_string());
    checked.same("build of four, otherwise", built(3, 4, &[0x38, 0x4C, 0x31, 0x35]), four.clone());
    let mut slots = [0; 5];
    checked.same("list", list(3, 4, &four, &mut slots), Ok(4));
    checked.same("list's keys", slots, [0x31, 0x35, 0x38, 0x4C, 0]);
    checked.same("find 34", find(3, 4, &four, 0x34), Ok(0));
    checked.same("find 38", find(3, 4, &four, 0x38), Ok(1));
    checked.same("fill figure", fill(3, 4, &four), Ok(400));
    let two = hex::words(&words_of(&built(3, 4, &[0x7F, 0x7E])));
    checked.same("build of 7F, 7E", two, "0000000000000000000000000000100E700F0000".to_string());
    checked.same("key 80", find(3, 4, &four, 0x80), Err(BAD_KEY));
    checked.same("build of nothing", built(3, 4, &[]), vec![0; 20]);
}

fn lone_task(checked: &mut Checked) {
    let mut words = words_of(&built(3, 4, &[0x35]));
    let mut records = [Record::default()];
    checked.same("give 31", give(3, 4, 0x31, &mut records, 0), Ok(()));
    for number in 1..=10 {
        checked.same("not done yet", records[0].phase == DONE, false);
        checked.same("step", step(3, 4, &mut words, &mut records, 0), Ok(()));
        match number {
            5 => checked.same("after the fifth", (words[3], words[5]), (0x8000, 0x8000)),
            7 => checked.same("after the seventh", words[3], 0x9001),
            _ => {}
        }
    }
    checked.same("done in ten", records[0].phase, DONE);
    checked.same("its table", bytes_of(&words), built(3, 4, &[0x35, 0x31]));
}

fn shape_one_one(checked: &mut Checked) {
    let both = built(1, 1, &[0, 1]);
    checked.same("build of 0, 1", hex::words(&words_of(&both)), "0000300050010000".to_string());
    checked.same("put 2", put(1, 1, &mut both.clone(), 2), Err(FULL));
    checked.same("put 1", put(1, 1, &mut both.clone(), 1), Ok(FOUND));
    let other = hex::words(&words_of(&built(1, 1, &[3, 2])));
    checked.same("build of 3, 2", other, "0000100070010000".to_string());
    let listed = |words: &[u16]| list(1, 1, &bytes_of(words), &mut [0; 4]);
    checked.same("equal remainders", listed(&[0, 0x3000, 0x5000, 0]), Err(UNSOUND));
    checked.same("a stray bit", listed(&[0, 0x2000, 0, 0]), Err(UNSOUND));
    checked.same("a lock", listed(&[0, 0x8000, 0, 0]), Err(LOCKED));
    checked.same("six bytes", listed(&[0, 0, 0]), Err(BAD_SHAPE));
}
