// Document 01, "Shape and layout", "Where a new key goes" and "Answers and their numbers", on words and on lent bytes.
// Put decodes the cluster, adds the key to the list, and lays the list out again; nothing is moved word by word.

use std::ops::Range;

pub const REMAINDER: u16 = 0x0FFF;
pub const OCCUPIED: u16 = 0x1000;
pub const VIRGIN: u16 = 0x2000;
pub const CHANGE: u16 = 0x4000;
pub const LOCK: u16 = 0x8000;

// The refusals of the table calls. Those of the tasks are in task.rs.
pub const BAD_SHAPE: u8 = 1;
pub const BAD_KEY: u8 = 2;
pub const UNSOUND: u8 = 6;
pub const LOCKED: u8 = 7;
pub const FULL: u8 = 8;
pub const FEW_SLOTS: u8 = 9;

pub const FOUND: u64 = 1;
pub const INSERTED: u64 = 2;

#[derive(Clone, Copy, PartialEq, Eq, Debug)]
pub struct Shape {
    pub m: u32,
    pub r: u32,
}

impl Shape {
    pub fn new(m: u32, r: u32) -> Option<Shape> {
        ((1..=20).contains(&m) && (1..=12).contains(&r)).then_some(Shape { m, r })
    }

    pub fn homes(self) -> usize {
        1 << self.m
    }

    pub fn words(self) -> usize {
        self.homes() + 2
    }

    pub fn right_guard(self) -> usize {
        self.homes() + 1
    }

    // Keys are below this, 2^w.
    pub fn keys(self) -> u64 {
        1 << (self.m + self.r)
    }

    pub fn home_place(self, key: u32) -> usize {
        (key >> self.r) as usize + 1
    }

    pub fn remainder(self, key: u32) -> u16 {
        (key & ((1 << self.r) - 1)) as u16
    }

    fn key(self, home_place: usize, remainder: u16) -> u32 {
        ((home_place as u32 - 1) << self.r) + remainder as u32
    }
}

pub fn words_of(bytes: &[u8]) -> Vec<u16> {
    bytes.chunks(2).map(|pair| u16::from_le_bytes([pair[0], pair[1]])).collect()
}

pub fn bytes_of(words: &[u16]) -> Vec<u8> {
    words.iter().flat_map(|word| word.to_le_bytes()).collect()
}

pub fn occupied(word: u16) -> bool {
    word & OCCUPIED != 0
}

// An unoccupied word that is sound: 0, lock bit aside.
pub fn empty(word: u16) -> bool {
    word & !LOCK == 0
}

pub fn good_guards(words: &[u16]) -> bool {
    empty(words[0]) && empty(words[words.len() - 1])
}

// The cluster that an occupied place is in. The guards must not be occupied.
fn cluster_of(words: &[u16], place: usize) -> Range<usize> {
    let mut start = place;
    while occupied(words[start - 1]) {
        start -= 1;
    }
    let mut end = place;
    while occupied(words[end]) {
        end += 1;
    }
    start..end
}

// Whether occupied places make a sound cluster, lock bits aside.
pub fn sound_cluster(shape: Shape, cluster: &[u16]) -> bool {
    let having = |bit: u16| cluster.iter().filter(|&&word| word & bit != 0).count();
    let ended = cluster.last().is_some_and(|word| word & CHANGE != 0);
    let small = cluster.iter().all(|word| ((word & REMAINDER) as u32) < 1 << shape.r);
    let rising = cluster.windows(2).all(|two| two[0] & CHANGE != 0 || two[0] & REMAINDER < two[1] & REMAINDER);
    having(VIRGIN) == having(CHANGE) && ended && small && rising
}

// The keys of a sound cluster: each group belongs to the next virgin home from the left.
pub fn keys_of(shape: Shape, words: &[u16], cluster: Range<usize>) -> Vec<u32> {
    let mut homes = cluster.clone().filter(|&place| words[place] & VIRGIN != 0);
    let mut home = None;
    let mut keys = Vec::new();
    for place in cluster {
        if home.is_none() {
            home = homes.next();
        }
        keys.push(shape.key(home.expect("a sound cluster has a home for each group"), words[place] & REMAINDER));
        if words[place] & CHANGE != 0 {
            home = None;
        }
    }
    keys
}

// Lays ascending keys out over the places, as many as there are keys.
fn lay(shape: Shape, words: &mut [u16], places: Range<usize>, keys: &[u32]) {
    assert_eq!(places.len(), keys.len());
    for (index, place) in places.clone().enumerate() {
        let home = shape.home_place(keys[index]);
        let last = keys.get(index + 1).is_none_or(|&next| shape.home_place(next) != home);
        words[place] = OCCUPIED | shape.remainder(keys[index]) | if last { CHANGE } else { 0 };
    }
    for &key in keys {
        assert!(places.contains(&shape.home_place(key)));
        words[shape.home_place(key)] |= VIRGIN;
    }
}

// What find and put look at: refusals 6 and 7, or the key's cluster, none where its home is empty.
fn look(shape: Shape, words: &[u16], key: u32) -> Result<Option<Range<usize>>, u8> {
    if !good_guards(words) {
        return Err(UNSOUND);
    }
    let home = shape.home_place(key);
    if !occupied(words[home]) {
        return match words[home] {
            0 => Ok(None),
            LOCK => Err(LOCKED),
            _ => Err(UNSOUND),
        };
    }
    let cluster = cluster_of(words, home);
    let ends = empty(words[cluster.start - 1]) && empty(words[cluster.end]);
    if !ends || !sound_cluster(shape, &words[cluster.clone()]) {
        return Err(UNSOUND);
    }
    if words[cluster.start - 1..=cluster.end].iter().any(|word| word & LOCK != 0) {
        return Err(LOCKED);
    }
    Ok(Some(cluster))
}

pub fn find_word(shape: Shape, words: &[u16], key: u32) -> Result<u64, u8> {
    let cluster = look(shape, words, key)?;
    Ok(cluster.is_some_and(|places| keys_of(shape, words, places).contains(&key)) as u64)
}

pub fn put_word(shape: Shape, words: &mut [u16], key: u32) -> Result<u64, u8> {
    let Some(cluster) = look(shape, words, key)? else {
        let home = shape.home_place(key);
        lay(shape, words, home..home + 1, &[key]);
        return Ok(INSERTED);
    };
    let mut keys = keys_of(shape, words, cluster.clone());
    let Err(at) = keys.binary_search(&key) else {
        return Ok(FOUND);
    };
    keys.insert(at, key);
    if cluster.start - 1 != 0 {
        lay(shape, words, cluster.start - 1..cluster.end, &keys);
    } else if cluster.end != shape.right_guard() {
        lay(shape, words, cluster.start..cluster.end + 1, &keys);
    } else {
        return Err(FULL);
    }
    Ok(INSERTED)
}

// The keys of the whole table, or refusals 6 and 7.
pub fn list_words(shape: Shape, words: &[u16]) -> Result<Vec<u32>, u8> {
    if !good_guards(words) {
        return Err(UNSOUND);
    }
    let mut keys = Vec::new();
    let mut place = 1;
    while place <= shape.homes() {
        if occupied(words[place]) {
            let cluster = cluster_of(words, place);
            if !sound_cluster(shape, &words[cluster.clone()]) {
                return Err(UNSOUND);
            }
            keys.extend(keys_of(shape, words, cluster.clone()));
            place = cluster.end;
        } else if empty(words[place]) {
            place += 1;
        } else {
            return Err(UNSOUND);
        }
    }
    if words.iter().any(|word| word & LOCK != 0) {
        return Err(LOCKED);
    }
    Ok(keys)
}

// Refusal 1: the shape of a lent table, and its words.
fn lent(m: u32, r: u32, bytes: &[u8]) -> Result<(Shape, Vec<u16>), u8> {
    let shape = Shape::new(m, r).ok_or(BAD_SHAPE)?;
    if bytes.len() != 2 * shape.words() {
        return Err(BAD_SHAPE);
    }
    Ok((shape, words_of(bytes)))
}

fn good_key(shape: Shape, key: u32) -> Result<(), u8> {
    if (key as u64) < shape.keys() { Ok(()) } else { Err(BAD_KEY) }
}

pub fn find(m: u32, r: u32, bytes: &[u8], key: u32) -> Result<u64, u8> {
    let (shape, words) = lent(m, r, bytes)?;
    good_key(shape, key)?;
    find_word(shape, &words, key)
}

pub fn put(m: u32, r: u32, bytes: &mut [u8], key: u32) -> Result<u64, u8> {
    let (shape, mut words) = lent(m, r, bytes)?;
    good_key(shape, key)?;
    let value = put_word(shape, &mut words, key)?;
    bytes.copy_from_slice(&bytes_of(&words));
    Ok(value)
}

pub fn fill(m: u32, r: u32, bytes: &[u8]) -> Result<u64, u8> {
    let (_, words) = lent(m, r, bytes)?;
    let count = words.iter().filter(|&&word| occupied(word)).count();
    Ok((count * 1000 / words.len()) as u64)
}

pub fn build(m: u32, r: u32, bytes: &mut [u8], keys: &[u32]) -> Result<u64, u8> {
    let (shape, mut words) = lent(m, r, bytes)?;
    for &key in keys {
        good_key(shape, key)?;
    }
    words.fill(0);
    bytes.fill(0);
    let mut distinct = keys.to_vec();
    distinct.sort();
    distinct.dedup();
    if distinct.len() > shape.homes() {
        return Err(FULL);
    }
    for &key in keys {
        put_word(shape, &mut words, key).expect("a put while there is room");
    }
    bytes.copy_from_slice(&bytes_of(&words));
    Ok(0)
}

pub fn list(m: u32, r: u32, bytes: &[u8], slots: &mut [u32]) -> Result<u64, u8> {
    let (shape, words) = lent(m, r, bytes)?;
    let keys = list_words(shape, &words)?;
    if slots.len() < keys.len() {
        return Err(FEW_SLOTS);
    }
    slots[..keys.len()].copy_from_slice(&keys);
    Ok(keys.len() as u64)
}
