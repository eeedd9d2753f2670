// The format of the program schedule, from its whole input to its whole output, and how to write such input.
// It plays any schedule on any table and any records, one action a line.

use crate::hex;
use crate::numbers::{Kept, Numbers};
use crate::table::Shape;
use crate::task::{Record, BAD_TASK};

pub fn run(input: &[u8]) -> String {
    let lines = hex::lines(input);
    let heading = lines.first().and_then(|line| hex::heading(line));
    let start = heading.and_then(|(m, r, _)| starting(Shape { m, r }, lines.get(1)?));
    let (Some((m, r, count)), Some(mut words)) = (heading, start) else {
        return "EE\n".to_string();
    };
    let mut kept = [Record::default(); 16];
    let mut output = String::new();
    for line in &lines[2..] {
        output += &match act(Numbers { m, r, count }, &mut words, &mut kept, line) {
            Some((refusal, record)) => format!("{refusal:02X}{}\n", digits(&record)),
            None => "EE\n".to_string(),
        };
    }
    output + &hex::words(&words) + "\n"
}

fn starting(shape: Shape, line: &[u8]) -> Option<Vec<u16>> {
    if line.is_empty() {
        return Some(vec![0; shape.words()]);
    }
    if line.len() != 4 * shape.words() {
        return None;
    }
    line.chunks(4).map(|word| hex::number(word).map(|number| number as u16)).collect()
}

// One action: its refusal number, 0 for accepted, and the record as it then stands. None for a malformed line.
fn act(first: Numbers, words: &mut [u16], kept: &mut Kept, line: &[u8]) -> Option<(u8, Record)> {
    let task = hex::number(line.get(..2)?)? as usize;
    let key = |digits: &[u8]| hex::number(digits).map(|number| number as u32);
    let done = match line.len() {
        2 => first.step(words, kept, task),
        8 => numbers_of(&line[2..])?.step(words, kept, task),
        10 => first.give(key(&line[2..])?, kept, task),
        16 => numbers_of(&line[10..])?.give(key(&line[2..10])?, kept, task),
        40 => {
            let record = record_of(&line[2..])?;
            kept[..first.count].get_mut(task).map(|place| *place = record).ok_or(BAD_TASK)
        }
        _ => return None,
    };
    Some((done.err().unwrap_or(0), kept[..first.count].get(task).copied().unwrap_or_default()))
}

// An action's own numbers, in range or not.
fn numbers_of(digits: &[u8]) -> Option<Numbers> {
    let number = hex::number(digits)?;
    let (m, r, count) = (number >> 16, number >> 8 & 255, number & 255);
    Some(Numbers { m: m as u32, r: r as u32, count: count as usize })
}

pub fn record_of(digits: &[u8]) -> Option<Record> {
    let field = |from: usize, to: usize| hex::number(&digits[from..to]).map(|number| number as u32);
    Some(Record {
        key: field(0, 8)?,
        phase: field(8, 10)? as u8,
        left: field(10, 16)?,
        right: field(16, 22)?,
        hand: field(22, 28)?,
        goal: field(28, 34)?,
        mark: field(34, 36)? as u8,
        answer: field(36, 38)? as u8,
    })
}

pub fn digits(record: &Record) -> String {
    let places = [record.left, record.right, record.hand, record.goal];
    let places: String = places.iter().map(|place| format!("{place:06X}")).collect();
    format!("{:08X}{:02X}{places}{:02X}{:02X}", record.key, record.phase, record.mark, record.answer)
}
