// Random schedules of up to 16 tasks, for the program schedule, with demand 3's claims checked whenever all tasks rest.
// One run of the program holds several such schedules, one after the other on the same table.

use crate::claims::claims;
use crate::drive::{broken, Drive};
use crate::play::Play;
use crate::random::Random;
use crate::table::*;
use crate::tables;
use crate::task::*;

// The keys of one schedule, with the answer of each key whose task is done.
struct Crowd {
    waiting: Vec<u32>,
    holds: Vec<Option<usize>>,
    accepted: Vec<(u32, u8)>,
}

impl Crowd {
    fn turn(&mut self, play: &mut Play, task: usize) {
        if !play.records[task].resting() {
            if play.step(task).is_err() {
                broken("a step is refused in a schedule from a sound table");
            }
        } else if let Some(key) = self.waiting.pop() {
            if play.give(task, key).is_err() {
                broken("a give is refused to a task that rests");
            }
            self.holds[task] = Some(self.accepted.len());
            self.accepted.push((key, 0));
        }
        if play.records[task].phase == DONE {
            if let Some(index) = self.holds[task].take() {
                self.accepted[index].1 = play.records[task].answer;
            }
        }
    }

    fn over(&self, play: &Play) -> bool {
        self.waiting.is_empty() && play.resting()
    }
}

// A call by wrong numbers, between others: it must be refused and leave all as it was.
fn bother(random: &mut Random, play: &mut Play) {
    let (words, records) = (play.words.clone(), play.records);
    let task = random.place(16);
    let result = if random.once_in(2) {
        play.step_by(play.first.wrong(random, Some(&words), task), task)
    } else {
        play.give_by(play.first.wrong(random, None, task), task, random.below(play.shape.keys()) as u32)
    };
    if result.is_ok() || play.words != words || play.records != records {
        broken("a call by wrong numbers is not refused, or leaves something changed");
    }
}

// Ways to choose the next task: any; one for a while; mostly a few; rounds; one task last of all.
fn unfair(random: &mut Random, play: &mut Play, crowd: &mut Crowd) {
    let count = play.first.count;
    let way = random.below(5);
    let one = random.place(count);
    for turn in 0..random.within(1, 40 * count as u64) as usize {
        let any = random.place(count);
        if random.once_in(10) {
            bother(random, play);
        }
        match way {
            0 => crowd.turn(play, any),
            1 => (0..random.within(1, 12)).for_each(|_| crowd.turn(play, any)),
            2 => crowd.turn(play, if random.once_in(6) { any } else { one }),
            3 => crowd.turn(play, turn % count),
            _ => crowd.turn(play, if any == one { (one + 1) % count } else { any }),
        }
    }
}

// One schedule: an unfair part, then rounds until all tasks rest. At most as many rounds as the frame program allows.
fn schedule(random: &mut Random, play: &mut Play) -> Result<(), String> {
    let shape = play.shape;
    let start = play.words.clone();
    let count = play.first.count;
    let keys = random.within(1, 3 * count as u64) as usize;
    let waiting = tables::some_keys(random, shape, keys);
    let mut crowd = Crowd { waiting, holds: vec![None; count], accepted: Vec::new() };
    unfair(random, play, &mut crowd);
    let mut rounds = keys * (8 * shape.words() + 66);
    while !crowd.over(play) {
        if rounds == 0 {
            return Err("not all keys are answered when the rounds are used up".to_string());
        }
        (0..count).for_each(|task| crowd.turn(play, task));
        rounds -= 1;
    }
    claims(shape, &start, &crowd.accepted, &play.words)
}

pub fn random(drive: &mut Drive, program: &str, seed: u64, runs: usize) -> usize {
    let random = &mut Random::new(seed ^ 0xC0D5);
    let mut schedules = 0;
    for _ in 0..runs {
        let shape = Shape { m: random.within(1, 6) as u32, r: random.within(1, 4) as u32 };
        let start = if random.once_in(3) { vec![0; shape.words()] } else { tables::sound(random, shape) };
        let count = random.within(1, 16) as usize;
        let mut play = Play::new(shape, start, count);
        for _ in 0..random.within(1, 12) {
            if let Err(what) = schedule(random, &mut play) {
                play.compare(drive, program);
                broken(&format!("shape {shape:?}, {count} tasks: {what}"));
            }
            schedules += 1;
        }
        play.compare(drive, program);
    }
    schedules
}
