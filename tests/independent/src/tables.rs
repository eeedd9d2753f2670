// Tables to try the calls and the steps on: sound ones, damaged ones, and ones of random words.
// Damage is what document 01 calls unsound or locked, one small change at a time.

use crate::random::Random;
use crate::table::*;

// Keys that lie close together, so that clusters and groups come about, often at an end of the table.
pub fn some_keys(random: &mut Random, shape: Shape, count: usize) -> Vec<u32> {
    let span = random.within(1, shape.homes() as u64);
    let last = shape.homes() as u64 - span;
    let first = match random.below(4) {
        0 => 0,
        1 => last,
        _ => random.below(last + 1),
    };
    let few = if random.once_in(2) { 1 << shape.r } else { random.within(1, 1 << shape.r) };
    let one = |random: &mut Random| ((first + random.below(span)) << shape.r) + random.below(few);
    (0..count).map(|_| one(random) as u32).collect()
}

pub fn sound(random: &mut Random, shape: Shape) -> Vec<u16> {
    let mut words = vec![0; shape.words()];
    let most = shape.homes().min(200) as u64;
    let count = match random.below(5) {
        0 => random.below(3),
        1 => 2 * most,
        _ => random.below(most + 1),
    };
    for key in some_keys(random, shape, count as usize) {
        let _ = put_word(shape, &mut words, key);
    }
    if count == 2 * most {
        for key in some_keys(random, shape, 2 * most as usize) {
            let _ = put_word(shape, &mut words, key);
        }
    }
    words
}

// So many distinct keys, of which the shape must have enough.
pub fn distinct_keys(random: &mut Random, shape: Shape, count: usize) -> Vec<u32> {
    let mut keys = Vec::new();
    while keys.len() < count {
        let key = random.below(shape.keys()) as u32;
        if !keys.contains(&key) {
            keys.push(key);
        }
    }
    keys
}

// Every place taken, by as many distinct keys as there are homes.
pub fn full(random: &mut Random, shape: Shape) -> Vec<u16> {
    let mut words = vec![0; shape.words()];
    for key in distinct_keys(random, shape, shape.homes()) {
        put_word(shape, &mut words, key).expect("a put while there is room");
    }
    words
}

pub fn damage(random: &mut Random, shape: Shape, words: &mut [u16]) {
    let last = words.len() - 1;
    let any = random.place(words.len());
    let inner = random.within(1, last as u64 - 1) as usize;
    let guard = random.pick(&[0, last]);
    let bit = random.pick(&[OCCUPIED, VIRGIN, CHANGE, LOCK]);
    match random.below(12) {
        0 => words[any] ^= 1 << random.below(16),
        1 => words[inner] ^= bit,
        2 | 3 => words[any] |= LOCK,
        4 => words[guard] |= LOCK,
        5 => words[guard] |= OCCUPIED,
        6 => words[guard] |= 1 << random.below(15),
        7 => words[inner] |= 1 << random.within(shape.r as u64, 12),
        8 => words[inner] &= !bit,
        9 => words[inner] = (words[inner] & !REMAINDER) | random.below(1 << shape.r) as u16,
        10 => words.swap(inner, any),
        _ => words[inner] = 0,
    }
}

// Words with random flags and mostly small remainders.
pub fn wild(random: &mut Random, shape: Shape) -> Vec<u16> {
    let taken = random.within(1, 8);
    let small = 1 << shape.r.min(12);
    let mut words: Vec<u16> = (0..shape.words())
        .map(|_| match random.below(10) {
            0 if random.once_in(2) => random.next() as u16,
            part if part <= taken => {
                let flags = OCCUPIED | (random.next() as u16 & (VIRGIN | CHANGE));
                flags | random.below(small) as u16
            }
            _ => 0,
        })
        .collect();
    let last = words.len() - 1;
    if !random.once_in(8) {
        words[0] &= LOCK;
        words[last] &= LOCK;
    }
    words
}

pub fn any(random: &mut Random, shape: Shape) -> Vec<u16> {
    let mut words = match random.below(10) {
        0 if shape.m <= 9 => full(random, shape),
        0..=7 => sound(random, shape),
        _ => wild(random, shape),
    };
    if random.once_in(2) {
        for _ in 0..random.within(1, 3) {
            damage(random, shape, &mut words);
        }
    }
    words
}

// A key near what the table holds, or any key; out of range once in a while.
pub fn any_key(random: &mut Random, shape: Shape, words: &[u16]) -> u32 {
    if random.once_in(16) && shape.keys() <= u32::MAX as u64 {
        return random.pick(&[shape.keys(), shape.keys() + 1, 2 * shape.keys() - 1, u32::MAX as u64]) as u32;
    }
    let taken: Vec<usize> = (1..=shape.homes()).filter(|&place| occupied(words[place])).collect();
    if taken.is_empty() || random.once_in(4) {
        return random.below(shape.keys()) as u32;
    }
    let mask = (1 << shape.r) - 1;
    let place = random.pick(&taken);
    let remainder = (words[random.pick(&taken)] & REMAINDER) as u32 & mask;
    let near = random.pick(&[0, 0, 1, mask]);
    ((place as u32 - 1) << shape.r) + ((remainder + near) & mask)
}
