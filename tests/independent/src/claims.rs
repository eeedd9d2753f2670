// Demand 3's claims on a table and its keys when every task is idle or done.
// The accepted keys stand with their answers; the start is the table before the first of them was given.

use crate::random::Random;
use crate::table::*;
use crate::task::{TASK_FOUND, TASK_FULL, TASK_INSERTED};

pub type Accepted = (u32, u8);

pub fn claims(shape: Shape, start: &[u16], accepted: &[Accepted], words: &[u16]) -> Result<(), String> {
    let before = list_words(shape, start).map_err(|number| format!("the start is refused with {number}"))?;
    let after = list_words(shape, words).map_err(|number| format!("the table is refused with {number}"))?;
    let answered = |answer: u8| accepted.iter().filter(move |pair| pair.1 == answer).map(|pair| pair.0);
    let mut listed = before.clone();
    listed.extend(answered(TASK_INSERTED));
    listed.sort();
    if listed != after {
        return Err(format!("lists {after:X?}, not the start and the inserted keys {listed:X?}"));
    }
    if accepted.iter().any(|pair| ![TASK_FOUND, TASK_INSERTED, TASK_FULL].contains(&pair.1)) {
        return Err("a key is not answered found, inserted or full".to_string());
    }
    if answered(TASK_FOUND).any(|key| !after.contains(&key)) {
        return Err("a key answered found is not there".to_string());
    }
    if answered(TASK_FULL).next().is_some() && after.len() != shape.homes() {
        return Err("a key is answered full, and there is room".to_string());
    }
    let mut distinct: Vec<u32> = accepted.iter().map(|pair| pair.0).chain(before.iter().copied()).collect();
    distinct.sort();
    distinct.dedup();
    if distinct.len() > shape.homes() {
        return Ok(());
    }
    if distinct != after || answered(TASK_FULL).next().is_some() {
        return Err("there is room for all keys, and one is answered full or lost".to_string());
    }
    as_single_puts(shape, start, distinct.into_iter().filter(|key| !before.contains(key)).collect(), words)
}

// The bytes are those of putting the new keys one by one, in ascending order and in two others.
fn as_single_puts(shape: Shape, start: &[u16], mut new: Vec<u32>, words: &[u16]) -> Result<(), String> {
    let random = &mut Random::new(new.len() as u64);
    for _ in 0..3 {
        let mut one_by_one = start.to_vec();
        for &key in &new {
            put_word(shape, &mut one_by_one, key).map_err(|number| format!("a put is refused with {number}"))?;
        }
        if one_by_one != words {
            return Err(format!("the bytes are not those of single puts of {new:X?}"));
        }
        random.shuffle(&mut new);
    }
    Ok(())
}
