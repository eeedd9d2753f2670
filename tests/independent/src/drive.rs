// Runs an x86-64 program on an input and hands back what it wrote; counts what was compared.
// A failing input is kept in a file, and the command that replays it is printed.

use std::fs;
use std::path::PathBuf;
use std::process::{exit, Command, Stdio};

pub struct Drive {
    // The words before a program's name that run it on this machine.
    pub launcher: Vec<String>,
    pub folder: PathBuf,
    pub compared: u64,
}

impl Drive {
    pub fn output(&self, program: &str, input: &[u8]) -> Vec<u8> {
        let file = self.folder.join("input");
        fs::write(&file, input).expect("the input can be written");
        let run = Command::new(&self.launcher[0])
            .args(&self.launcher[1..])
            .arg(program)
            .stdin(fs::File::open(&file).expect("the input can be read"))
            .stderr(Stdio::inherit())
            .output()
            .unwrap_or_else(|error| panic!("{program} cannot be run: {error}"));
        if run.status.code().is_none() {
            self.fail(program, input, &format!("the program was ended by a signal: {}", run.status));
        }
        run.stdout
    }

    // Compares the whole output of one run.
    pub fn compare(&mut self, program: &str, input: &[u8], expected: &str) {
        let got = self.output(program, input);
        self.compared += 1;
        if got == expected.as_bytes() {
            return;
        }
        fs::write(self.folder.join("failed.expected"), expected).expect("the output can be written");
        fs::write(self.folder.join("failed.got"), &got).expect("the output can be written");
        let same = got.iter().zip(expected.as_bytes()).take_while(|(a, b)| a == b).count();
        let line = expected.as_bytes()[..same].iter().filter(|&&byte| byte == b'\n').count();
        let show = |text: &[u8]| {
            let text = String::from_utf8_lossy(text).into_owned();
            text.lines().nth(line).map_or("no such line".to_string(), |line| line.chars().take(100).collect())
        };
        let folder = self.folder.display();
        self.fail(
            program,
            input,
            &format!(
                "output line {}: expected {}\n  got {}\n  whole outputs: {folder}/failed.expected, {folder}/failed.got",
                line + 1,
                show(expected.as_bytes()),
                show(&got)
            ),
        );
    }

    pub fn fail(&self, program: &str, input: &[u8], what: &str) -> ! {
        let file = self.folder.join("failed.in");
        fs::write(&file, input).expect("the failing input can be written");
        println!("MISMATCH in {program}: {what}");
        println!("  replay: {} {program} < {}", self.launcher.join(" "), file.display());
        exit(1);
    }
}

// Ends the run where the rule itself breaks a promise: no program is at fault then, and there is nothing to replay.
pub fn broken(what: &str) -> ! {
    println!("BROKEN PROMISE: {what}");
    exit(1);
}
