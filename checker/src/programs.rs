//! Runs an OPB program on texts and compares every byte that it prints with the checker's own reading, propagation and listing.

use std::collections::BTreeMap;
use std::fs;
use std::io::{Read, Write};
use std::path::PathBuf;
use std::process::{Command, Stdio};
use std::sync::mpsc;
use std::thread;
use std::time::{Duration, Instant};

use crate::listing;
use crate::meaning::MOST_ENTRIES;
use crate::opb::{read, Plan};
use crate::reach::{self, Reach};
use crate::shrink::shorten_while;
use crate::texts::Text;

/// A program under test: what it prints for a text.
pub trait Program {
    fn print(&self, text: &[u8], turn: usize) -> Result<Vec<u8>, String>;
}

/// A program of its own, with arguments. Texts reach it in turn from a file and through a pipe, there in two parts.
pub struct Process {
    pub command: Vec<String>,
    file: PathBuf,
}

impl Process {
    pub fn new(command: Vec<String>) -> Process {
        Process { command, file: std::env::temp_dir().join(format!("checker-{}.opb", std::process::id())) }
    }
}

impl Drop for Process {
    fn drop(&mut self) {
        let _ = fs::remove_file(&self.file);
    }
}

/// The longest that a program may take over a text.
const PATIENCE: Duration = Duration::from_secs(60);

impl Program for Process {
    fn print(&self, text: &[u8], turn: usize) -> Result<Vec<u8>, String> {
        let said = |e: std::io::Error| e.to_string();
        let mut command = Command::new(&self.command[0]);
        command.args(&self.command[1..]).stdout(Stdio::piped());
        let by_pipe = turn % 2 == 1;
        if by_pipe {
            command.stdin(Stdio::piped());
        } else {
            fs::write(&self.file, text).map_err(said)?;
            command.stdin(fs::File::open(&self.file).map_err(said)?);
        }
        let mut child = command.spawn().map_err(|e| format!("{}: {e}", self.command[0]))?;
        // A program may stop reading before the end of a long text, so an error while writing is none of ours.
        let mut writer = None;
        if let Some(mut pipe) = child.stdin.take() {
            let cut = text.len() / 2;
            if text.len() <= 32_768 {
                let _ = pipe.write_all(&text[..cut]).and_then(|()| pipe.write_all(&text[cut..]));
            } else {
                let text = text.to_vec();
                writer = Some(thread::spawn(move || {
                    let _ = pipe.write_all(&text[..cut]).and_then(|()| pipe.write_all(&text[cut..]));
                }));
            }
        }
        let mut output = child.stdout.take().unwrap();
        let (sender, receiver) = mpsc::channel();
        let reader = thread::spawn(move || {
            let mut out = Vec::new();
            let read = output.read_to_end(&mut out).map(|_| out);
            let _ = sender.send(read);
        });
        let out = match receiver.recv_timeout(PATIENCE) {
            Ok(out) => out.map_err(said)?,
            Err(_) => {
                let _ = child.kill();
                let _ = child.wait();
                return Err("the program did not end".into());
            }
        };
        let status = child.wait().map_err(said)?;
        let _ = reader.join();
        if let Some(writer) = writer {
            let _ = writer.join();
        }
        if status.code().is_none() {
            return Err(format!("the program ended by a signal: {status}"));
        }
        Ok(out)
    }
}

/// A text on which a program does not print what it should.
pub struct Difference {
    pub name: String,
    pub text: Vec<u8>,
    pub printed: Result<Vec<u8>, String>,
}

/// How often each first word and code were printed.
pub type Outcomes = BTreeMap<String, u64>;

/// What comes out of a text, without the counts.
fn outcome(output: &str) -> String {
    let line = output.lines().next().unwrap_or("");
    let words: Vec<&str> = line.split(' ').collect();
    match words[0] {
        "refused" => words[..2].join(" "),
        "still" => "still".into(),
        first => first.into(),
    }
}

/// A text or script with what is to be printed for it.
pub struct Expected {
    pub text: Text,
    pub printed: Vec<u8>,
}

/// What the checker's own OPB program prints for each text, how often each outcome came, and how far the texts reach.
pub fn expected(texts: Vec<Text>) -> (Vec<Expected>, Outcomes, Reach) {
    let (mut outcomes, mut reach) = (Outcomes::new(), Reach::new(reach::OPB));
    let expect = |text: Text| {
        let printed = listing::program(&text.bytes);
        *outcomes.entry(outcome(&printed)).or_default() += 1;
        if let (Ok(plan), false) = (read(&text.bytes), printed.starts_with("refused")) {
            measure(&text.bytes, &plan, &printed, &mut reach);
        }
        Expected { text, printed: printed.into_bytes() }
    };
    (texts.into_iter().map(expect).collect(), outcomes, reach)
}

/// What a text reaches that is not refused.
fn measure(text: &[u8], plan: &Plan, printed: &str, reach: &mut Reach) {
    let first: Vec<&str> = printed.lines().next().unwrap_or("").split(' ').collect();
    let derived = first[1].parse().expect("a count stands behind the outcome");
    reach.meet("literals derived", derived);
    if first[0] == "conflict" {
        reach.meet("literals derived before a conflict", derived);
    }
    let entries = plan.sentences.iter().map(|sentence| sentence.entries.len() as u64).sum();
    let bounds = printed.lines().filter_map(|line| line.strip_prefix("b ")).flat_map(|line| line.split(' ').skip(1));
    let digits = bounds.map(|bound| bound.trim_start_matches('-').len()).max().unwrap_or(0);
    reach.meet("rows", printed.lines().filter(|line| line.starts_with("t ")).count() as u64);
    reach.meet("bytes printed", printed.len() as u64);
    reach.meet("bytes of text", text.len() as u64);
    reach.meet("sentences", plan.sentences.len() as u64);
    reach.meet("entries", entries);
    if entries == MOST_ENTRIES {
        reach.meet("sentences beside 4,096 entries", plan.sentences.len() as u64);
    }
    reach.meet("digits of a bound", digits as u64);
}

/// The first text on which the program differs.
pub fn compare(program: &dyn Program, texts: &[Expected]) -> Option<Difference> {
    for (turn, Expected { text, printed: expected }) in texts.iter().enumerate() {
        let printed = program.print(&text.bytes, turn);
        if printed.as_ref() != Ok(expected) {
            return Some(Difference { name: text.name.clone(), text: text.bytes.clone(), printed });
        }
    }
    None
}

/// The shortest text that is found in the time, by leaving out, on which the program still differs: constraints first, with the number
/// in the first line made to fit, and then bytes. Where the text is long, a short one of the others comes first if it differs too.
pub fn shorter(program: &dyn Program, time: Duration, difference: Difference, others: &[Expected]) -> Difference {
    let start = Instant::now();
    let left = || start.elapsed() < time;
    let differs = |text: &[u8], turn: usize| left() && program.print(text, turn).as_deref() != Ok(listing::program(text).as_bytes());
    let mut best = difference;
    if best.text.len() > 200 {
        let short = others.iter().map(|other| &other.text).filter(|text| text.bytes.len() <= 200);
        let short = short.take_while(|_| start.elapsed() < time / 3);
        if let Some(text) = short.into_iter().find(|text| differs(&text.bytes, 0)) {
            best = Difference { name: text.name.clone(), text: text.bytes.clone(), printed: best.printed };
        }
    }
    let turn = if differs(&best.text, 0) { 0 } else { 1 };
    let (first, constraints) = parts(&best.text);
    let kept = shorten_while(&constraints, &left, &mut |kept| differs(&together(&first, kept), turn));
    if differs(&together(&first, &kept), turn) {
        best.text = together(&first, &kept);
    }
    best.text = shorten_while(&best.text, &left, &mut |text| differs(text, turn));
    best.printed = program.print(&best.text, turn);
    best
}

/// The first line, and what ends in `;` behind it.
fn parts(text: &[u8]) -> (Vec<u8>, Vec<Vec<u8>>) {
    let line = text.iter().position(|byte| *byte == b'\n').map_or(text.len(), |at| at + 1);
    let constraints = text[line..].split_inclusive(|byte| *byte == b';').map(<[u8]>::to_vec).collect();
    (text[..line].to_vec(), constraints)
}

/// A text of these constraints, with their number in the first line.
fn together(first: &[u8], constraints: &[Vec<u8>]) -> Vec<u8> {
    let mut text = first.to_vec();
    if let Some(at) = first.windows(12).position(|window| window == b"#constraint=") {
        let many = constraints.iter().filter(|constraint| constraint.ends_with(b";")).count();
        text.truncate(at);
        text.extend(format!("#constraint= {many}\n").bytes());
    }
    text.extend(constraints.concat());
    text
}

/// What is printed about a difference.
pub fn describe(difference: &Difference) -> String {
    describe_with(difference, listing::program(&difference.text).as_bytes())
}

/// The same, with what was expected.
pub fn describe_with(difference: &Difference, expected: &[u8]) -> String {
    let show = |bytes: &[u8]| -> String {
        let some = &bytes[..bytes.len().min(600)];
        let shown: String = some.iter().map(|byte| std::ascii::escape_default(*byte).to_string()).collect();
        let rest = if bytes.len() > some.len() { format!(" .. ({} bytes)", bytes.len()) } else { String::new() };
        shown.replace("\\n", "\\n\n    ").trim_end().to_string() + &rest
    };
    let (printed, line) = match &difference.printed {
        Ok(bytes) => {
            let same = |(a, b): &(&[u8], &[u8])| a == b;
            let lines = bytes.split(|byte| *byte == b'\n').zip(expected.split(|byte| *byte == b'\n'));
            (show(bytes), format!("first in line {}", 1 + lines.take_while(same).count()))
        }
        Err(what) => (what.clone(), "nothing to compare".into()),
    };
    format!(
        "{}, {line}\n  text, shortened:\n    {}\n  printed:\n    {printed}\n  expected:\n    {}",
        difference.name,
        show(&difference.text),
        show(expected)
    )
}
