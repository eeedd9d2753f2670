// Document 01, "The frame program": from its whole input to its whole output.
// The stored cases of tests/frame are held against this, and the program frame against both.

use crate::hex;
use crate::table::Shape;
use crate::task::{give, step, Record, DONE};

const MOST_KEYS: usize = 512;

pub fn run(input: &[u8]) -> String {
    let lines = hex::lines(input);
    let Some((m, r, tasks)) = lines.first().and_then(|line| hex::heading(line)) else {
        return "EE\n".to_string();
    };
    let shape = Shape::new(m, r).expect("a heading's shape is in range");
    let mut words = vec![0; shape.words()];
    let mut records = vec![Record::default(); tasks];
    let mut output = String::new();
    for line in &lines[1..] {
        let Some(keys) = keys_of(shape, line) else {
            output.push_str("EE\n");
            continue;
        };
        let Some(answers) = answered(shape, &mut words, &mut records, &keys) else {
            output.push_str("EE\n");
            return output;
        };
        output.extend(answers.iter().map(|answer| format!("{answer:02X}")));
        output.push('\n');
    }
    output + &hex::words(&words) + "\n"
}

fn keys_of(shape: Shape, line: &[u8]) -> Option<Vec<u32>> {
    if line.len() % 8 != 0 || line.len() > 8 * MOST_KEYS {
        return None;
    }
    let keys: Option<Vec<u64>> = line.chunks(8).map(hex::number).collect();
    let keys = keys?;
    let good = keys.iter().all(|&key| key < shape.keys());
    good.then(|| keys.into_iter().map(|key| key as u32).collect())
}

// The rounds of one line. None if a key is still not answered when they are used up.
fn answered(shape: Shape, words: &mut [u16], records: &mut [Record], keys: &[u32]) -> Option<Vec<u8>> {
    let mut answers = vec![None; keys.len()];
    let mut holds = vec![0; records.len()];
    let mut taken = 0;
    for _ in 0..keys.len() * (8 * shape.words() + 66) {
        for task in 0..records.len() {
            if records[task].resting() {
                if taken < keys.len() {
                    give(shape.m, shape.r, keys[taken], records, task).expect("a resting task takes a good key");
                    holds[task] = taken;
                    taken += 1;
                }
                continue;
            }
            // A refused step leaves all as it was, and its key is then not answered.
            let _ = step(shape.m, shape.r, words, records, task);
            if records[task].phase == DONE {
                answers[holds[task]] = Some(records[task].answer);
            }
        }
        if answers.iter().all(|answer| answer.is_some()) {
            break;
        }
    }
    answers.into_iter().collect()
}
