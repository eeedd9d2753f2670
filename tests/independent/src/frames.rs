// Inputs for the program frame: good ones with keys in both letter cases, and ones spoiled by small changes.
// What the whole set reaches is noted, so that it cannot become dull unseen.

use crate::drive::{broken, Drive};
use crate::frame;
use crate::random::Random;
use crate::table::Shape;
use crate::tables;

fn key_digits(random: &mut Random, key: u32) -> String {
    let digits = format!("{key:08X}");
    digits.chars().map(|digit| if random.once_in(2) { digit.to_ascii_lowercase() } else { digit }).collect()
}

fn line(random: &mut Random, shape: Shape) -> String {
    let count = match random.below(30) {
        0 => random.pick(&[511, 512, 513]),
        1..=3 => 0,
        4..=10 => random.within(1, 3),
        _ => random.within(1, 40),
    };
    let mut keys = tables::some_keys(random, shape, count as usize);
    if !keys.is_empty() && random.once_in(12) {
        let at = random.place(keys.len());
        keys[at] = random.pick(&[shape.keys() as u32, shape.keys() as u32 - 1, u32::MAX]);
    }
    keys.into_iter().map(|key| key_digits(random, key)).collect()
}

fn good(random: &mut Random, most: u64) -> Vec<u8> {
    let shape = Shape { m: random.within(1, most) as u32, r: random.within(1, 12) as u32 };
    let mut heading = [shape.m, shape.r, random.pick(&[1, 2, 3, 8, 15, 16])];
    if random.once_in(12) {
        // a limit, or one beyond it
        let (which, value) = random.pick(&[(0, 0), (0, 14), (0, 15), (1, 0), (1, 13), (2, 0), (2, 17)]);
        heading[which] = value;
    }
    let mut input = format!("{:02X}{:02x}{:02X}\n", heading[0], heading[1], heading[2]);
    for _ in 0..random.below(10) {
        input += &line(random, shape);
        input += "\n";
    }
    if random.once_in(3) {
        input.pop();
    }
    input.into_bytes()
}

// One small change, at the start more often than elsewhere, since the heading is short.
fn spoil(random: &mut Random, input: &mut Vec<u8>) {
    let reach = if random.once_in(4) { input.len().min(8) } else { input.len() };
    let at = random.place(reach + 1);
    let odd = random.pick(&[b'\n', b'\r', b' ', b'G', b'g', b'/', b':', b'@', b'`', 0, 0x80, 0xFF, b'0', b'F', b'a']);
    match random.below(10) {
        0 => input.insert(at, odd),
        1 | 7..=9 if at < input.len() => input[at] = odd,
        2 if at < input.len() => drop(input.remove(at)),
        3 if at < input.len() => input[at] ^= 1 << random.below(8),
        4 => input.truncate(at),
        5 => {
            let part = input[at..input.len().min(at + 20)].to_vec();
            input.splice(at..at, part);
        }
        _ => input.push(odd),
    }
}

pub fn random(drive: &mut Drive, program: &str, seed: u64, runs: usize) {
    let random = &mut Random::new(seed ^ 0xF4A3);
    let (mut ended, mut passed_over, mut blank, mut full, mut unbroken) = (0, 0, 0, 0, 0);
    for number in 0..runs {
        let mut input = good(random, if number % 40 == 0 { 14 } else { 6 });
        if random.once_in(2) {
            for _ in 0..random.pick(&[1, 1, 2, 4]) {
                spoil(random, &mut input);
            }
        }
        let expected = frame::run(&input);
        let lines: Vec<&str> = expected.lines().collect();
        let answers = &lines[..lines.len() - 1];
        ended += (expected == "EE\n") as u32;
        passed_over += answers.contains(&"EE") as u32;
        blank += answers.contains(&"") as u32;
        full += answers.iter().any(|line| line.as_bytes().chunks(2).any(|two| two == b"03")) as u32;
        unbroken += (!expected.contains("EE\n")) as u32;
        drive.compare(program, &input, &expected);
    }
    let reached = [ended, passed_over, blank, full, unbroken];
    if reached.iter().any(|&count| (count as usize) < runs / 50) {
        broken(&format!("inputs for frame: {reached:?} ended, passed over, blank, full, unbroken of {runs}"));
    }
}

// The stored cases of tests/frame must be what these rules say too.
pub fn stored(folder: &str) -> usize {
    let mut count = 0;
    for entry in std::fs::read_dir(folder).expect("the stored cases can be listed") {
        let path = entry.expect("a stored case can be listed").path();
        if path.extension().is_some_and(|ending| ending == "in") {
            let input = std::fs::read(&path).expect("a stored case can be read");
            let output = std::fs::read(path.with_extension("out")).expect("a stored case has its output");
            if frame::run(&input).as_bytes() != output {
                broken(&format!("the stored output of {} is not what the rules say", path.display()));
            }
            count += 1;
        }
    }
    if count == 0 {
        broken("there are no stored cases");
    }
    count
}
