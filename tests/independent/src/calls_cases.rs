// The cases for the C interface: every tiny table over a choice of words, random ones, and shapes and lengths that do
// not fit. Around the table and the cells stand other bytes, and the table stands at any alignment.

use crate::calls::{Batch, Call, Case, CALLS};
use crate::drive::Drive;
use crate::random::Random;
use crate::table::*;
use crate::tables;

// A case on a table, which stands at some distance from the start and the end of its buffer.
fn case_on(random: &mut Random, call: Call, shape: (u32, u32), table: &[u8], key: u32, cells: &[u32]) -> Case {
    let (table_at, after) = (random.place(9), random.place(5));
    let (cells_at, more) = (random.place(3), random.place(3));
    let mut bytes: Vec<u8> = (0..table_at + table.len() + after).map(|_| random.next() as u8).collect();
    bytes[table_at..table_at + table.len()].copy_from_slice(table);
    let mut all_cells: Vec<u32> = (0..cells_at + cells.len() + more).map(|_| random.next() as u32).collect();
    all_cells[cells_at..cells_at + cells.len()].copy_from_slice(cells);
    Case {
        call,
        m: shape.0,
        r: shape.1,
        key,
        bytes,
        table_at,
        table_length: table.len(),
        null_table: table.is_empty() && random.once_in(2),
        cells: all_cells,
        cells_at,
        cells_count: cells.len(),
        null_cells: cells.is_empty() && random.once_in(2),
    }
}

// All tables of the shape whose inner words and guards are among those given, all keys, find, put, list and fill.
fn every(batch: &mut Batch, drive: &mut Drive, shape: Shape, inner: &[u16], guards: &[(u16, u16)]) {
    let random = &mut Random::new(1);
    let tables = inner.len().pow(shape.homes() as u32);
    for number in 0..tables {
        for &(first, last) in guards {
            let mut rest = number;
            let mut words = vec![first];
            for _ in 0..shape.homes() {
                words.push(inner[rest % inner.len()]);
                rest /= inner.len();
            }
            words.push(last);
            let table = bytes_of(&words);
            for key in 0..shape.keys() as u32 {
                batch.add(drive, case_on(random, Call::Find, (shape.m, shape.r), &table, key, &[]));
                batch.add(drive, case_on(random, Call::Put, (shape.m, shape.r), &table, key, &[]));
            }
            let slots = vec![7; random.place(shape.homes() + 2)];
            batch.add(drive, case_on(random, Call::List, (shape.m, shape.r), &table, 0, &slots));
            batch.add(drive, case_on(random, Call::Fill, (shape.m, shape.r), &table, 0, &[]));
        }
    }
}

pub fn tiny(batch: &mut Batch, drive: &mut Drive) {
    let mut inner = Vec::new();
    for flags in 0..16u16 {
        inner.extend([0, 1, 2].map(|remainder| flags << 12 | remainder));
    }
    let guards = [(0, 0), (LOCK, 0), (0, LOCK), (OCCUPIED, 0), (0, VIRGIN), (LOCK | 1, LOCK)];
    every(batch, drive, Shape { m: 1, r: 1 }, &inner, &guards);
    every(batch, drive, Shape { m: 1, r: 2 }, &inner, &guards[..3]);
    let mut few = vec![0, LOCK, CHANGE];
    for flags in 0..4u16 {
        few.extend([0, 1].map(|remainder| OCCUPIED | flags << 13 | remainder));
    }
    every(batch, drive, Shape { m: 2, r: 1 }, &few, &guards[..1]);
    batch.flush(drive);
}

fn any_shape(random: &mut Random, most: u64) -> Shape {
    Shape { m: random.within(1, most) as u32, r: random.within(1, 12) as u32 }
}

fn build_keys(random: &mut Random, shape: Shape) -> Vec<u32> {
    let homes = shape.homes().min(300);
    let count = match random.below(4) {
        0 => random.place(3),
        1 => homes + random.place(homes + 1),
        _ => random.place(homes + 1),
    };
    let mut keys = if random.once_in(2) {
        tables::some_keys(random, shape, count)
    } else {
        (0..count).map(|_| random.below(shape.keys()) as u32).collect()
    };
    if random.once_in(3) {
        // exactly as many distinct keys as there are homes, or one more, some of them twice
        let count = homes + random.place(2);
        keys = tables::distinct_keys(random, shape, count);
        keys.extend_from_within(..random.place(keys.len()));
        random.shuffle(&mut keys);
    }
    if !keys.is_empty() && random.once_in(12) && shape.keys() <= u32::MAX as u64 {
        let at = random.place(keys.len());
        keys[at] = random.pick(&[shape.keys() as u32, u32::MAX]);
    }
    keys
}

fn random_case(random: &mut Random, shape: Shape) -> Case {
    let words = tables::any(random, shape);
    let key = tables::any_key(random, shape, &words);
    let call = random.pick(&CALLS);
    let cells = match call {
        Call::Build => build_keys(random, shape),
        Call::List => {
            let count = words.iter().filter(|&&word| occupied(word)).count();
            let slots = (count + random.place(4)).saturating_sub(1);
            (0..slots).map(|_| random.next() as u32).collect()
        }
        _ => Vec::new(),
    };
    case_on(random, call, (shape.m, shape.r), &bytes_of(&words), key, &cells)
}

// The case with a length or a shape that does not fit; other things may be wrong with it too.
fn misshapen(random: &mut Random, good: Case) -> Case {
    let right = good.table_length;
    let table = &good.bytes[good.table_at..good.table_at + right];
    let odd = random.pick(&[1, 3, 4]);
    let (mut m, mut r, mut length) = (good.m, good.r, right);
    match random.below(10) {
        0 => length = 0,
        1 => length = right - random.pick(&[1, 2]),
        2 => length = right + random.pick(&[1, 2]),
        3 => length = right / 2,
        4 => length = 2 * (right / 2 - 2),
        5 => length = random.pick(&[1, 2, 4, 6, 2 * right]),
        6 => m = random.pick(&[0, 21, 32, 64, 32 + good.m, 64 + good.m, 256 + good.m, u32::MAX]),
        7 => r = random.pick(&[0, 13, 32, 64, 32 + good.r, 256 + good.r, u32::MAX]),
        8 => (m, length) = (0, 6),
        _ => (m, r, length) = (good.m ^ odd, good.r, right),
    }
    let mut table = table.to_vec();
    table.resize(length, 0);
    let cells = &good.cells[good.cells_at..good.cells_at + good.cells_count];
    case_on(random, good.call, (m, r), &table, good.key, cells)
}

pub fn random(batch: &mut Batch, drive: &mut Drive, seed: u64, count: usize) {
    let random = &mut Random::new(seed);
    for number in 0..count {
        let most = if number % 50 == 0 { 12 } else { 5 };
        let shape = any_shape(random, most);
        let case = random_case(random, shape);
        let case = if random.once_in(10) { misshapen(random, case) } else { case };
        batch.add(drive, case);
    }
    batch.flush(drive);
}

// Shapes up to the largest, and one beyond it whose length would be right.
pub fn large(batch: &mut Batch, drive: &mut Drive, seed: u64) {
    let random = &mut Random::new(seed);
    for m in 13..=20 {
        for _ in 0..3 {
            let shape = Shape { m, r: random.pick(&[1, 7, 12]) };
            let case = random_case(random, shape);
            batch.add(drive, case);
        }
    }
    let too_large = vec![0; 2 * ((1 << 21) + 2)];
    for call in CALLS {
        batch.add(drive, case_on(random, call, (21, 1), &too_large, 0, &[]));
    }
    batch.flush(drive);
}
