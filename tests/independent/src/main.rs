// A second opinion on Woollydusk, written from document 01 alone: it shares nothing with the Rattle sources.
// It holds the C calls and the programs schedule and frame against its own rules, byte for byte.

mod calls;
mod calls_cases;
mod claims;
mod crowds;
mod drive;
mod examples;
mod frame;
mod frames;
mod hex;
mod numbers;
mod play;
mod random;
mod records_cases;
mod schedule;
mod table;
mod tables;
mod task;
mod tiny;

use drive::Drive;
use std::io::{Read, Write};
use std::time::Instant;
use table::Shape;

const USAGE: &str = "usage: independent frame|schedule < INPUT
       independent calls|schedules|frames|all SEED TIMES LAUNCHER...";

fn main() {
    let words: Vec<String> = std::env::args().skip(1).collect();
    match words.first().map_or("", |word| word.as_str()) {
        "frame" => answer(frame::run),
        "schedule" => answer(schedule::run),
        part @ ("calls" | "schedules" | "frames" | "all") if words.len() > 3 => {
            let number = |word: &str| word.parse::<u64>().expect("a number");
            let drive = Drive { launcher: words[3..].to_vec(), folder: "target/independent".into(), compared: 0 };
            test(part, drive, number(&words[1]), number(&words[2]) as usize);
        }
        _ => {
            println!("{USAGE}");
            std::process::exit(2);
        }
    }
}

// One part of the test, or all. A mismatch ends the program at once, with status 1.
fn test(part: &str, mut drive: Drive, seed: u64, times: usize) {
    let start = Instant::now();
    if part == "calls" || part == "all" {
        calls(&mut drive, seed, times);
    }
    if part == "schedules" || part == "all" {
        schedules(&mut drive, seed, times);
    }
    if part == "frames" || part == "all" {
        frames(&mut drive, seed, times);
    }
    println!("independent: {} comparisons, all agree, in {} s", drive.compared, start.elapsed().as_secs());
}

// What the program of that name must print, by these rules.
fn answer(run: fn(&[u8]) -> String) {
    let mut input = Vec::new();
    std::io::stdin().read_to_end(&mut input).expect("standard input can be read");
    std::io::stdout().write_all(run(&input).as_bytes()).expect("standard output can be written");
}

fn calls(drive: &mut Drive, seed: u64, times: usize) {
    println!("calls: the {} facts of document 01's examples hold by the independent rules", examples::all());
    let batch = &mut calls::Batch::new("target/independent/driver");
    calls_cases::tiny(batch, drive);
    println!("calls: {} comparisons on every tiny table over a choice of words", drive.compared);
    for time in 0..times as u64 {
        calls_cases::random(batch, drive, seed + time, 300_000);
        calls_cases::large(batch, drive, seed + time);
    }
    batch.must_have_reached_all();
    println!("calls: {} comparisons with random and large tables and shapes that do not fit; of all:", drive.compared);
    calls::CALLS.iter().for_each(|&call| println!("calls: {}", batch.reached(call)));
}

fn schedules(drive: &mut Drive, seed: u64, times: usize) {
    let program = "crates/schedule/out/schedule";
    records_cases::malformed(drive, program);
    let actions = records_cases::random(drive, program, seed, 200 * times);
    println!("schedules: {actions} actions on random records and any tables, in {} runs", 200 * times);
    for (m, r) in [(1, 1), (1, 2), (2, 1)] {
        println!("schedules: {}", tiny::all(drive, program, Shape { m, r }));
    }
    let count = crowds::random(drive, program, seed, 400 * times);
    println!("schedules: {count} random schedules in {} runs, the claims of demand 3 hold", 400 * times);
}

fn frames(drive: &mut Drive, seed: u64, times: usize) {
    println!("frames: {} stored cases are what the independent rules say", frames::stored("tests/frame/cases"));
    frames::random(drive, "crates/frame/out/frame", seed, 1000 * times);
    println!("frames: {} inputs, about half of them spoiled", 1000 * times);
}
