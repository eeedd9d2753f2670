// Document 01, "Tasks and their steps": give and step on records, phase by phase, in the paper's words.
// A refusal is the number; nothing has changed then.

use crate::table::*;

pub const BAD_TASK: u8 = 3;
pub const BUSY: u8 = 4;
pub const NOT_BUSY: u8 = 5;

pub const IDLE: u8 = 0;
pub const DONE: u8 = 13;

// Answers of a task.
pub const TASK_FOUND: u8 = 1;
pub const TASK_INSERTED: u8 = 2;
pub const TASK_FULL: u8 = 3;
pub const TASK_UNSOUND: u8 = 4;

#[derive(Clone, Copy, PartialEq, Eq, Hash, Default, Debug)]
pub struct Record {
    pub key: u32,
    pub phase: u8,
    pub left: u32,
    pub right: u32,
    pub hand: u32,
    pub goal: u32,
    pub mark: u8,
    pub answer: u8,
}

impl Record {
    pub fn resting(&self) -> bool {
        self.phase == IDLE || self.phase == DONE
    }

    // Whether the record fits, sentence by sentence.
    pub fn fits(&self, shape: Shape) -> bool {
        if self.phase > 13 || self.resting() {
            return self.phase <= 13;
        }
        if self.key as u64 >= shape.keys() {
            return false;
        }
        let home = shape.home_place(self.key) as u32;
        let last = shape.homes() as u32;
        let left = self.phase < 2 || self.left < home;
        let right = self.phase < 3 || (home + 1..=last + 1).contains(&self.right);
        left && right && (!(8..=10).contains(&self.phase) || self.fits_hand(last))
    }

    fn fits_hand(&self, last: u32) -> bool {
        let inside = |place: u32| (1..=last).contains(&place) && (self.left..=self.right).contains(&place);
        let marked = self.mark <= 2 && (self.mark != 1 || (self.goal >= 2 && self.goal > self.left));
        let placed = match self.phase {
            8 => self.hand == self.left || self.hand == self.right,
            9 => self.hand != self.goal,
            _ => self.hand == self.goal,
        };
        inside(self.hand) && inside(self.goal) && marked && placed
    }
}

pub fn give(m: u32, r: u32, key: u32, records: &mut [Record], task: usize) -> Result<(), u8> {
    let shape = Shape::new(m, r).ok_or(BAD_SHAPE)?;
    if key as u64 >= shape.keys() {
        return Err(BAD_KEY);
    }
    if records.is_empty() || records.len() > 16 || task >= records.len() {
        return Err(BAD_TASK);
    }
    if (1..=12).contains(&records[task].phase) {
        return Err(BUSY);
    }
    records[task] = Record { key, phase: 1, ..Record::default() };
    Ok(())
}

pub fn step(m: u32, r: u32, words: &mut [u16], records: &mut [Record], task: usize) -> Result<(), u8> {
    let shape = Shape::new(m, r).ok_or(BAD_SHAPE)?;
    if words.len() != shape.words() {
        return Err(BAD_SHAPE);
    }
    if records.is_empty() || records.len() > 16 || task >= records.len() || !records[task].fits(shape) {
        return Err(BAD_TASK);
    }
    if records[task].resting() {
        return Err(NOT_BUSY);
    }
    if !good_guards(words) {
        return Err(UNSOUND);
    }
    records[task] = next(shape, words, records[task])?;
    Ok(())
}

// The record that follows a fitting record in phases 1 to 12.
fn next(shape: Shape, words: &mut [u16], now: Record) -> Result<Record, u8> {
    let home = shape.home_place(now.key);
    let (left, right) = (now.left as usize, now.right as usize);
    let phase = |phase: u8| Record { phase, ..now };
    Ok(match now.phase {
        1 => return at_home(shape, words, now),
        2 if occupied(words[left]) => Record { left: now.left - 1, ..now },
        2 => Record { right: home as u32 + 1, phase: 3, ..now },
        3 if occupied(words[right]) => Record { right: now.right + 1, ..now },
        3 => phase(4),
        4 => phase(if take(&mut words[left]) { 5 } else { 1 }),
        5 => phase(if take(&mut words[right]) { 7 } else { 6 }),
        6 => {
            words[left] &= !LOCK;
            phase(1)
        }
        7 => read(shape, words, now),
        8 => return filled(shape, words, now),
        9 => return moved(words, now),
        10 => marked(shape, words, now),
        11 => {
            words[left] &= !LOCK;
            phase(12)
        }
        _ => {
            words[right] &= !LOCK;
            phase(DONE)
        }
    })
}

// Sets the lock of a word that is 0.
fn take(word: &mut u16) -> bool {
    let free = *word == 0;
    if free {
        *word = LOCK;
    }
    free
}

fn at_home(shape: Shape, words: &mut [u16], now: Record) -> Result<Record, u8> {
    let home = shape.home_place(now.key);
    let word = words[home];
    if word & LOCK != 0 {
        Ok(now)
    } else if word == 0 {
        words[home] = OCCUPIED | VIRGIN | CHANGE | shape.remainder(now.key);
        Ok(Record { answer: TASK_INSERTED, phase: DONE, ..now })
    } else if occupied(word) {
        Ok(Record { left: home as u32 - 1, phase: 2, ..now })
    } else {
        Err(UNSOUND)
    }
}

fn read(shape: Shape, words: &[u16], now: Record) -> Record {
    let (left, right) = (now.left as usize, now.right as usize);
    let answer = |answer: u8| Record { answer, phase: 11, ..now };
    let between = &words[left + 1..right];
    let whole = between.iter().all(|&word| occupied(word)) && sound_cluster(shape, between);
    if words[left] != LOCK || words[right] != LOCK || !whole {
        return answer(TASK_UNSOUND);
    }
    let keys = keys_of(shape, words, left + 1..right);
    if keys.contains(&now.key) {
        return answer(TASK_FOUND);
    }
    if left == 0 && right == shape.right_guard() {
        return answer(TASK_FULL);
    }
    let smaller = keys.iter().filter(|&&key| key < now.key).count() as u32;
    let group: Vec<u32> = keys.into_iter().filter(|key| key >> shape.r == now.key >> shape.r).collect();
    let mark = if group.is_empty() {
        2
    } else if group.iter().all(|&key| key < now.key) {
        1
    } else {
        0
    };
    let (hand, goal) = if left != 0 { (now.left, now.left + smaller) } else { (now.right, smaller + 1) };
    Record { hand, goal, mark, phase: 8, ..now }
}

fn filled(shape: Shape, words: &mut [u16], now: Record) -> Result<Record, u8> {
    let word = &mut words[now.hand as usize];
    if *word != LOCK {
        return Err(UNSOUND);
    }
    *word = LOCK | OCCUPIED | shape.remainder(now.key);
    Ok(Record { phase: if now.hand == now.goal { 10 } else { 9 }, ..now })
}

fn moved(words: &mut [u16], now: Record) -> Result<Record, u8> {
    let hand = if now.goal > now.hand { now.hand + 1 } else { now.hand - 1 };
    let (old, new) = (words[now.hand as usize], words[hand as usize]);
    if !occupied(new) {
        return Err(UNSOUND);
    }
    let carried = REMAINDER | CHANGE;
    words[now.hand as usize] = (old & !carried) | (new & carried);
    words[hand as usize] = (new & !carried) | (old & carried);
    Ok(Record { hand, phase: if hand == now.goal { 10 } else { 9 }, ..now })
}

fn marked(shape: Shape, words: &mut [u16], now: Record) -> Record {
    let goal = now.goal as usize;
    if now.mark == 2 {
        words[goal] |= CHANGE;
        words[shape.home_place(now.key)] |= VIRGIN;
    } else if now.mark == 1 {
        words[goal] |= CHANGE;
        words[goal - 1] &= !CHANGE;
    }
    Record { answer: TASK_INSERTED, phase: 11, ..now }
}
