// Random records on random and damaged tables, for the program schedule: gives, steps, stores and lines of junk.
// Most records fit, many stand at the ends of a real cluster, and some have one field that does not fit.

use crate::drive::Drive;
use crate::play::{Play, Tally};
use crate::random::Random;
use crate::table::*;
use crate::tables;
use crate::task::Record;

// The nearest unoccupied places left and right of the home, as a task would find them.
fn gaps(shape: Shape, words: &[u16], home: usize) -> (u32, u32) {
    let left = (0..home).rev().find(|&place| !occupied(words[place])).unwrap_or(0);
    let right = (home + 1..=shape.right_guard()).find(|&place| !occupied(words[place]));
    (left as u32, right.unwrap_or(shape.right_guard()) as u32)
}

fn likely_record(random: &mut Random, shape: Shape, words: &[u16]) -> Record {
    let key = tables::any_key(random, shape, words);
    let key = if random.once_in(20) { key } else { (key as u64 % shape.keys()) as u32 };
    let home = ((key as u64 % shape.keys()) as u32 >> shape.r) + 1;
    let last = shape.homes() as u32;
    let (mut left, mut right) = gaps(shape, words, home as usize);
    if random.once_in(4) {
        left = random.below(home as u64) as u32;
        right = random.within(home as u64 + 1, last as u64 + 1) as u32;
    }
    let (low, high) = (left.max(1) as u64, right.min(last) as u64);
    let phase = random.below(14) as u8;
    let ends: Vec<u32> = [left, right].into_iter().filter(|place| (1..=last).contains(place)).collect();
    let mut hand = random.within(low, high) as u32;
    if phase == 8 && !ends.is_empty() {
        hand = random.pick(&ends);
    }
    let goal = match phase {
        10 => hand,
        _ => random.within(low, high) as u32,
    };
    Record { key, phase, left, right, hand, goal, mark: random.below(3) as u8, answer: random.below(5) as u8 }
}

// One field of the record is changed: by one, or to anything that the format can write.
fn spoil(random: &mut Random, shape: Shape, record: &mut Record) {
    let wide = random.below(1 << 24) as u32;
    let near = random.below(shape.words() as u64 + 2) as u32;
    let place = if random.once_in(3) { wide } else { near };
    match random.below(8) {
        0 => record.key = random.next() as u32,
        1 => record.phase = random.next() as u8,
        2 => record.phase = random.within(0, 15) as u8,
        3 => record.left = place,
        4 => record.right = place,
        5 => record.hand = place,
        6 => record.goal = place,
        _ => record.mark = random.pick(&[0, 1, 2, 3, 255]),
    }
}

fn starting(random: &mut Random, shape: Shape) -> Vec<u16> {
    let mut words = if random.once_in(3) { tables::sound(random, shape) } else { tables::any(random, shape) };
    if random.once_in(2) {
        // locks at many of the gaps, as if tasks held them
        for word in words.iter_mut().filter(|word| **word == 0) {
            *word = if random.once_in(3) { 0 } else { LOCK };
        }
    }
    words
}

const JUNK: [&str; 9] = ["", "0", "000", "0G", "000000001", "00 0000001", "0000000001G", "+1", "00\r"];

// One action. In a gentle run no record is stored that may spoil a cluster, so that tasks still find sound ones.
fn act(random: &mut Random, play: &mut Play, tally: &mut Tally, gentle: bool) {
    let count = play.first.count;
    let task = if random.once_in(40) { random.pick(&[count, 16, 255]) } else { random.place(count) };
    match random.below(22) {
        20 => step_by(random, play, tally, gentle),
        21 => give_by(random, play, tally),
        0..=2 => {
            let key = tables::any_key(random, play.shape, &play.words);
            tally.give(play.give(task, key));
        }
        3 if random.once_in(4) => play.junk(random.pick(&JUNK)),
        4 => {
            // a task with a key all to itself, perhaps until it is done
            let key = tables::any_key(random, play.shape, &play.words);
            tally.give(play.give(task, key));
            (0..random.within(1, 20)).for_each(|_| step(play, tally, task));
        }
        3..=8 => {
            let mut record = likely_record(random, play.shape, &play.words);
            if random.once_in(4) {
                spoil(random, play.shape, &mut record);
            }
            if gentle && (8..=10).contains(&record.phase) {
                record.phase = 7;
            }
            play.store(task, record);
            step(play, tally, task);
        }
        _ => step(play, tally, task),
    }
}

fn step(play: &mut Play, tally: &mut Tally, task: usize) {
    let count = play.first.count;
    let before = play.record(task, count);
    let result = play.step(task);
    tally.step(before, result, play.record(task, count));
}

// A task for a call by its own numbers, which may be one that the first line has not.
fn any_task(random: &mut Random, play: &Play) -> usize {
    match random.below(8) {
        0..=4 => random.place(play.first.count),
        5..=6 => random.place(16),
        _ => random.pick(&[15, 16, 255]),
    }
}

// A gentle run keeps to its r: remainders of a greater one would spoil a cluster.
fn step_by(random: &mut Random, play: &mut Play, tally: &mut Tally, gentle: bool) {
    let task = any_task(random, play);
    let mut numbers = play.first.changed(random, task);
    if gentle && (1..=12).contains(&numbers.r) {
        numbers.r = play.first.r;
    }
    let fault = numbers.fault(Some(&play.words), task);
    let before = play.record(task, numbers.count);
    let result = play.step_by(numbers, task);
    match fault {
        Some(fault) => tally.wrong("step", fault, result),
        None => tally.step(before, result, play.record(task, numbers.count)),
    }
}

fn give_by(random: &mut Random, play: &mut Play, tally: &mut Tally) {
    let task = any_task(random, play);
    let numbers = play.first.changed(random, task);
    let keys = Shape::new(numbers.m, numbers.r).map_or(0, |shape| shape.keys());
    let key = match random.below(4) {
        0 => random.next() as u32,
        1 => keys.saturating_sub(random.below(2)).min(u32::MAX as u64) as u32,
        _ => tables::any_key(random, play.shape, &play.words),
    };
    let fault = numbers.fault(None, task);
    let result = play.give_by(numbers, task, key);
    match fault {
        Some(fault) => tally.wrong("give", fault, result),
        None => tally.give(result),
    }
}

pub fn random(drive: &mut Drive, program: &str, seed: u64, runs: usize) -> u64 {
    let random = &mut Random::new(seed ^ 0x5EC0);
    let tally = &mut Tally::default();
    let mut actions = 0;
    for number in 0..runs {
        let most = if number % 20 == 0 { 14 } else { 5 };
        let shape = Shape { m: random.within(1, most) as u32, r: random.within(1, 12) as u32 };
        let words = starting(random, shape);
        let count = random.within(1, 16) as usize;
        let mut play = Play::new(shape, words, count);
        let turns = random.below(1000);
        let gentle = random.once_in(2);
        for _ in 0..turns {
            act(random, &mut play, tally, gentle);
        }
        play.compare(drive, program);
        actions += turns;
    }
    tally.must_have_reached_all();
    actions
}

// Lines that are no heading, no starting table or no action. Expected output by the rules for the format.
pub fn malformed(drive: &mut Drive, program: &str) {
    let table = "0000300050010000";
    let inputs = [
        String::new(),
        "\n".to_string(),
        "010101".to_string(),
        "010101\n".to_string(),
        "010101\n\n".to_string(),
        format!("010101\n{table}"),
        format!("010101\n{table}\n00"),
        format!("010101\n{table}0\n00\n"),
        format!("010101\n{}\n00\n", &table[1..]),
        format!("010101\n{}\n00\n", &table[4..]),
        format!("010101\n{table}0000\n00\n"),
        format!("010101\n{}\n00\n", table.replace('5', "g")),
        format!("010101\r\n{table}\n00\n"),
        format!("010101\n{table}\r\n00\n"),
        format!("010102\n{}\n0000000001\n00\n01\n02\n\n00\n", "00007aBc7AbC0000"),
        "000101\n\n".to_string(),
        "0F0101\n\n".to_string(),
        "010001\n\n".to_string(),
        "010D01\n\n".to_string(),
        "010100\n\n".to_string(),
        "010111\n\n".to_string(),
        format!("010101\n\n00{}\n01{}\n0{}\n", "f".repeat(38), "0".repeat(38), "0".repeat(40)),
        "010101\n\n00010101\n0001010\n000101010\n0001010g\n0g010101\n0000010101\n".to_string(),
        "010101\n\n0000000001010101\n000000000101010\n00000000010101010\n000000000101010g\n".to_string(),
    ];
    for input in inputs {
        let expected = crate::schedule::run(input.as_bytes());
        drive.compare(program, input.as_bytes(), &expected);
    }
}
