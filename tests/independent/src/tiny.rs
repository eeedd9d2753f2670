// All interleavings of two tasks on tiny shapes: every state that any of them reaches, from every sound table and with
// every two keys. Demand 3's claims hold at each end, and the program schedule makes every step that any of them makes.

use crate::claims::claims;
use crate::drive::{broken, Drive};
use crate::play::Play;
use crate::table::*;
use crate::task::{give, step, Record};
use std::collections::{BTreeMap, BTreeSet, HashSet, VecDeque};

// A table of at most four homes; the places behind its own right guard stay 0.
type Words = [u16; 6];

#[derive(Clone, Copy, PartialEq, Eq, Hash)]
struct State {
    words: Words,
    records: [Record; 2],
}

type Known = BTreeMap<Words, BTreeSet<[u32; 8]>>;

fn fields(record: &Record) -> [u32; 8] {
    let (phase, mark, answer) = (record.phase as u32, record.mark as u32, record.answer as u32);
    [record.key, phase, record.left, record.right, record.hand, record.goal, mark, answer]
}

fn record_of(fields: &[u32; 8]) -> Record {
    let [key, phase, left, right, hand, goal, mark, answer] = *fields;
    Record { key, phase: phase as u8, left, right, hand, goal, mark: mark as u8, answer: answer as u8 }
}

fn starts(shape: Shape) -> Vec<Vec<u16>> {
    let mut tables = Vec::new();
    for chosen in 0u32..1 << shape.keys() {
        if chosen.count_ones() as usize > shape.homes() {
            continue;
        }
        let mut words = vec![0; shape.words()];
        for key in (0..shape.keys() as u32).filter(|key| chosen >> key & 1 == 1) {
            put_word(shape, &mut words, key).expect("a put while there is room");
        }
        tables.push(words);
    }
    tables
}

// Every state of every interleaving from one start; each table and record that a step is made from is noted.
fn explore(shape: Shape, start: &[u16], keys: [u32; 2], known: &mut Known) -> usize {
    let mut first = State { words: [0; 6], records: [Record::default(); 2] };
    first.words[..start.len()].copy_from_slice(start);
    for task in 0..2 {
        give(shape.m, shape.r, keys[task], &mut first.records, task).expect("an idle task takes a good key");
    }
    let mut seen = HashSet::from([first]);
    let mut open = vec![first];
    while let Some(state) = open.pop() {
        let busy: Vec<usize> = (0..2).filter(|&task| !state.records[task].resting()).collect();
        for &task in &busy {
            known.entry(state.words).or_default().insert(fields(&state.records[task]));
            let mut next = state;
            let words = &mut next.words[..shape.words()];
            if step(shape.m, shape.r, words, &mut next.records, task).is_err() {
                broken("a step is refused in an interleaving from a sound table");
            }
            if seen.insert(next) {
                open.push(next);
            }
        }
        if busy.is_empty() {
            let accepted = state.records.map(|record| (record.key, record.answer));
            let words = &state.words[..shape.words()];
            if let Err(what) = claims(shape, start, &accepted, words) {
                broken(&format!("two tasks, {shape:?}, start {start:X?}, keys {keys:X?}: {what}"));
            }
        }
    }
    seen.len()
}

// The steps that write, by the table they start from: the record and the table that follows.
type Writes = BTreeMap<Words, Vec<([u32; 8], Words)>>;

fn writes_of(shape: Shape, known: &Known) -> Writes {
    let mut writes = Writes::new();
    for (words, records) in known {
        for record in records {
            let mut after = *words;
            let _ = step(shape.m, shape.r, &mut after[..shape.words()], &mut [record_of(record)], 0);
            if after != *words {
                writes.entry(*words).or_default().push((*record, after));
            }
        }
    }
    writes
}

// The shortest way of writing steps from a table to one where a known step is still to be made.
fn way(writes: &Writes, left: &Known, from: Words) -> Option<Vec<[u32; 8]>> {
    let mut came = BTreeMap::from([(from, None)]);
    let mut queue = VecDeque::from([from]);
    while let Some(words) = queue.pop_front() {
        if left.contains_key(&words) {
            let mut back = Vec::new();
            let mut at = words;
            while let Some((record, before)) = came[&at] {
                back.push(record);
                at = before;
            }
            back.reverse();
            return Some(back);
        }
        for &(record, after) in writes.get(&words).into_iter().flatten() {
            came.entry(after).or_insert_with(|| {
                queue.push_back(after);
                Some((record, words))
            });
        }
    }
    None
}

// Makes the steps that are left at the table where the play stands, until one writes.
fn make_left(play: &mut Play, left: &mut Known, words: Words) -> usize {
    let mut records = left.remove(&words).unwrap_or_default();
    let mut steps = 0;
    while let Some(record) = records.pop_first() {
        play.store(0, record_of(&record));
        let _ = play.step(0);
        steps += 1;
        if play.words[..] != words[..play.words.len()] {
            break;
        }
    }
    if !records.is_empty() {
        left.insert(words, records);
    }
    steps
}

// Plays every known step. A run of the program goes on, by steps made before, as long as it can reach one not yet made.
fn play_all(drive: &mut Drive, program: &str, shape: Shape, known: Known) -> (usize, usize) {
    let writes = writes_of(shape, &known);
    let mut left = known;
    let (mut runs, mut steps) = (0, 0);
    while let Some(first) = left.keys().next().copied() {
        let mut play = Play::new(shape, first[..shape.words()].to_vec(), 1);
        let mut words = first;
        while let Some(way) = way(&writes, &left, words) {
            for record in way {
                play.store(0, record_of(&record));
                let _ = play.step(0);
            }
            words[..shape.words()].copy_from_slice(&play.words);
            steps += make_left(&mut play, &mut left, words);
            words[..shape.words()].copy_from_slice(&play.words);
        }
        play.compare(drive, program);
        runs += 1;
    }
    (runs, steps)
}

pub fn all(drive: &mut Drive, program: &str, shape: Shape) -> String {
    let mut known = Known::new();
    let mut states = 0;
    for start in starts(shape) {
        for first in 0..shape.keys() as u32 {
            for second in first..shape.keys() as u32 {
                states += explore(shape, &start, [first, second], &mut known);
            }
        }
    }
    let (runs, steps) = play_all(drive, program, shape, known);
    let Shape { m, r } = shape;
    format!("shape {m}, {r}: {states} states of all interleavings of two, {steps} different steps in {runs} runs")
}
