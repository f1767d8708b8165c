//! Runs a console on scripts and compares every byte that it prints with what the checker's own console prints.

use std::io::{Read, Write};
use std::process::{Command, Stdio};
use std::sync::mpsc;
use std::thread;
use std::time::{Duration, Instant};

use crate::console::{answers, Console, Said, Slip};
use crate::programs::{Difference, Expected, Process, Program};
use crate::shrink::shorten_while;
use crate::texts::Text;

/// A console program. Scripts reach it in turn from a file, through a pipe in two parts, and, where they are not long, typed: each line
/// is written when the answer to the one before it has come.
pub struct ConsoleDriver {
    process: Process,
    /// The longest that an answer may take.
    patience: Duration,
}

/// The longest script that is typed.
const TYPED: usize = 4096;

impl ConsoleDriver {
    pub fn new(command: Vec<String>, patience: Duration) -> ConsoleDriver {
        ConsoleDriver { process: Process::new(command), patience }
    }

    fn typed(&self, script: &[u8]) -> Result<Vec<u8>, String> {
        let said = |e: std::io::Error| e.to_string();
        let command = &self.process.command;
        let mut child = Command::new(&command[0])
            .args(&command[1..])
            .stdin(Stdio::piped())
            .stdout(Stdio::piped())
            .spawn()
            .map_err(|e| format!("{}: {e}", command[0]))?;
        let mut input = child.stdin.take();
        let mut output = child.stdout.take().unwrap();
        let (sender, receiver) = mpsc::channel();
        let reader = thread::spawn(move || {
            let mut piece = [0; 4096];
            while let Ok(many @ 1..) = output.read(&mut piece) {
                if sender.send(piece[..many].to_vec()).is_err() {
                    break;
                }
            }
        });
        let mut console = Console::new(Slip::None);
        let (mut expected, mut printed) = (Vec::new(), Vec::new());
        let mut late = None;
        for (i, line) in script.split_inclusive(|byte| *byte == b'\n').enumerate() {
            let ends = line.ends_with(b"\n");
            // The program may have ended: then the answer does not come.
            let _ = input.as_mut().unwrap().write_all(line);
            expected.extend(console.line(line.strip_suffix(b"\n").unwrap_or(line)).bytes());
            while ends && printed.len() < expected.len() {
                match receiver.recv_timeout(self.patience) {
                    Ok(piece) => printed.extend(piece),
                    Err(_) => {
                        late = Some(i + 1);
                        break;
                    }
                }
            }
            if late.is_some() || ends && printed != expected {
                break;
            }
        }
        drop(input.take());
        if late.is_none() {
            while let Ok(piece) = receiver.recv_timeout(self.patience) {
                printed.extend(piece);
            }
        } else {
            let _ = child.kill();
        }
        // Its output has ended or is no longer waited for; a program that goes on is ended.
        let asked = Instant::now();
        while child.try_wait().map_err(said)?.is_none() {
            if asked.elapsed() > self.patience {
                let _ = child.kill();
            }
            thread::sleep(Duration::from_micros(200));
        }
        let status = child.wait().map_err(said)?;
        drop(receiver);
        let _ = reader.join();
        match late {
            Some(line) => Err(format!("typed line by line: no whole answer to line {line} came before the next was typed")),
            None if status.code().is_none() => Err(format!("the program ended by a signal: {status}")),
            None => Ok(printed),
        }
    }
}

impl Program for ConsoleDriver {
    fn print(&self, script: &[u8], turn: usize) -> Result<Vec<u8>, String> {
        match turn % 3 {
            2 if script.len() <= TYPED => self.typed(script),
            2 => self.process.print(script, 0),
            turn => self.process.print(script, turn),
        }
    }
}

/// What the checker's own console prints for each script, and what it said in all.
pub fn expected(scripts: Vec<Text>) -> (Vec<Expected>, Said) {
    let mut said = Said::new();
    let expected = scripts.into_iter().map(|text| Expected { printed: answers(&text.bytes, Slip::None, &mut said), text }).collect();
    (expected, said)
}

/// What is to be printed for a script.
pub fn right(script: &[u8]) -> Vec<u8> {
    answers(script, Slip::None, &mut Said::new())
}

/// The shortest script that is found in the time on which the program still differs: lines left out first, then rules with the number
/// in their plan's line made to fit, then words.
pub fn shorter(program: &dyn Program, time: Duration, difference: Difference) -> Difference {
    let start = Instant::now();
    let wrong = |script: &[u8], turn: usize| program.print(script, turn) != Ok(right(script));
    let turn = (0..3).find(|turn| wrong(&difference.text, *turn)).unwrap_or(0);
    let time = || start.elapsed() < time;
    let mut differs = |lines: &[Vec<u8>]| time() && wrong(&lines.concat(), turn);
    let mut lines: Vec<Vec<u8>> = difference.text.split_inclusive(|byte| *byte == b'\n').map(<[u8]>::to_vec).collect();
    for _ in 0..4 {
        let before = lines.clone();
        lines = shorten_while(&lines, &time, &mut differs);
        let mut at = 0;
        while at < lines.len() && time() {
            if !fewer_rules(&mut lines, at, &mut differs) {
                at += 1;
            }
        }
        for at in 0..lines.len() {
            if !time() {
                break;
            }
            let words: Vec<Vec<u8>> = lines[at].split_inclusive(|byte| *byte == b' ').map(<[u8]>::to_vec).collect();
            let words = shorten_while(&words, &time, &mut |words| {
                let mut other = lines.clone();
                other[at] = words.concat();
                differs(&other)
            });
            lines[at] = words.concat();
        }
        if lines == before || !time() {
            break;
        }
    }
    let text = lines.concat();
    let printed = program.print(&text, turn);
    Difference { text, printed, ..difference }
}

/// Leaves out one of the lines behind a plan's, with one rule fewer awaited, if the script still differs.
fn fewer_rules(lines: &mut Vec<Vec<u8>>, at: usize, differs: &mut dyn FnMut(&[Vec<u8>]) -> bool) -> bool {
    let line = String::from_utf8_lossy(&lines[at]).into_owned();
    let words: Vec<&str> = line.split_ascii_whitespace().collect();
    let [Some(&"plan"), Some(atoms), Some(rules)] = [words.first(), words.get(1), words.get(2)] else {
        return false;
    };
    let Some(fewer) = rules.parse::<usize>().ok().and_then(|rules| rules.checked_sub(1)) else {
        return false;
    };
    for rule in (at + 1..lines.len().min(at + 2 + fewer)).rev() {
        let mut other = lines.clone();
        other[at] = format!("plan {atoms} {fewer}\n").into_bytes();
        other.remove(rule);
        if differs(&other) {
            *lines = other;
            return true;
        }
    }
    false
}
