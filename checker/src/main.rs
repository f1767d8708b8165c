//! The checker's commands.

use std::io::{BufRead, Read, Write};
use std::path::{Path, PathBuf};
use std::process::ExitCode;
use std::time::{Duration, Instant};

use checker::alarm;
use checker::book::Request;
use checker::calls;
use checker::console::{self, Said, Slip};
use checker::console_driver::{self, ConsoleDriver};
use checker::drive::{self, Tally};
use checker::generate;
use checker::library::Library;
use checker::misread::{self, Misread};
use checker::planted;
use checker::programs::{compare, describe, describe_with, expected, shorter, Process};
use checker::scripts;
use checker::selftest;
use checker::shrink;
use checker::standin::{Fault, Standin};
use checker::texts::{self, Text};

const USAGE: &str = "checker COMMAND
  selftest                 the checker against itself and document 01's examples
  planted [loud]           faults planted into stand-ins; each has to be found
  opb PROGRAM [ARGUMENT..] a program that reads standard input, on the texts of tests/opb and sixteen thousand generated ones
  console PROGRAM [ARGUMENT..]
                           a console that reads standard input, on five thousand generated scripts
  script SEED              the script of one seed
  calls [SEED]             the linked library on ten thousand lists of calls, or on the list of one seed
  standin [SEED]           the same with the checker's own stand-in for the library
  all OPB_PROGRAM CONSOLE_PROGRAM
                           selftest, planted, opb, console and calls
  print                    the checker's own OPB program
  answer                   the checker's own console
The folder tests/opb is looked for from the current folder and from the one above it.";

const LISTS: u64 = 10_000;
const TEXTS: usize = 16_000;
const SCRIPTS: usize = 5_000;
/// The time for making a list or text shorter that shows a difference.
const TIME: Duration = Duration::from_secs(30);
/// The longest that a console may take over an answer.
const PATIENCE: Duration = Duration::from_secs(20);
const TEXT_SEED: u64 = 20_240_601;

fn main() -> ExitCode {
    let arguments: Vec<String> = std::env::args().skip(1).collect();
    let rest = arguments.get(1..).unwrap_or(&[]);
    let seed = rest.first().and_then(|seed| seed.parse().ok());
    let result = match (arguments.first().map(String::as_str).unwrap_or(""), rest.len()) {
        ("selftest", 0) => run_selftest(),
        ("planted", 0) => run_planted(false),
        ("planted", 1) => run_planted(true),
        ("opb", 1..) => run_opb(rest),
        ("calls", 0 | 1) => run_calls(seed),
        ("standin", 0 | 1) => run_lists(&Standin { fault: Fault::None }, seed),
        ("console", 1..) => run_console(rest),
        ("script", 1) => write(&scripts::script(seed.unwrap_or(0))),
        ("all", 2) => run_all(&rest[..1], &rest[1..]),
        ("print", 0) => print(),
        ("answer", 0) => answer(false),
        ("answer", 1) => answer(true),
        _ => Err(USAGE.into()),
    };
    match result {
        Ok(()) => ExitCode::SUCCESS,
        Err(what) => {
            eprintln!("{what}");
            ExitCode::FAILURE
        }
    }
}

fn run_all(opb: &[String], console: &[String]) -> Result<(), String> {
    run_selftest()?;
    run_planted(false)?;
    run_opb(opb)?;
    run_console(console)?;
    run_calls(None)
}

fn folder() -> Option<PathBuf> {
    ["tests/opb", "../tests/opb"].iter().map(PathBuf::from).find(|folder| folder.is_dir())
}

fn run_selftest() -> Result<(), String> {
    let start = Instant::now();
    for line in selftest::run(folder().as_deref()).map_err(|what| format!("selftest: {what}"))? {
        println!("selftest: {line}");
    }
    println!("selftest: {:.1} s", start.elapsed().as_secs_f64());
    Ok(())
}

fn run_planted(loud: bool) -> Result<(), String> {
    let start = Instant::now();
    let hook = std::panic::take_hook();
    std::panic::set_hook(Box::new(|_| ()));
    let found = planted::run(LISTS, TEXTS, SCRIPTS, loud);
    std::panic::set_hook(hook);
    let found = found.map_err(|what| format!("planted: {what}"))?;
    for line in &found {
        println!("planted: {line}");
    }
    println!("planted: every fault found, {:.1} s", start.elapsed().as_secs_f64());
    Ok(())
}

/// The texts of a folder, in the order of their names.
fn instances(folder: &Path) -> Result<Vec<Text>, String> {
    let said = |e: std::io::Error| format!("{}: {e}", folder.display());
    let mut texts = Vec::new();
    for entry in std::fs::read_dir(folder).map_err(said)? {
        let path = entry.map_err(said)?.path();
        if path.extension().is_some_and(|extension| extension == "opb") {
            let bytes = std::fs::read(&path).map_err(said)?;
            texts.push(Text { name: path.display().to_string(), bytes });
        }
    }
    texts.sort_by(|a, b| a.name.cmp(&b.name));
    Ok(texts)
}

fn run_opb(command: &[String]) -> Result<(), String> {
    let start = Instant::now();
    let program = Process::new(command.to_vec());
    let mut texts = instances(&folder().ok_or("opb: no folder tests/opb here or above")?)?;
    let from_files = texts.len();
    texts.extend(texts::texts(TEXT_SEED, TEXTS));
    let (texts, outcomes, reach) = expected(texts);
    let reached = reach.said().map_err(|what| format!("opb: {what}"))?;
    if let Some(difference) = compare(&program, &texts) {
        let found = shorter(&program, TIME, difference, &texts);
        return Err(format!("opb: difference, seed {TEXT_SEED}: {}", describe(&found)));
    }
    for outcome in ["still", "conflict", "refused 3", "refused 5", "refused 20", "refused 21", "refused 22", "refused 23", "refused 24"] {
        if !outcomes.contains_key(outcome) {
            return Err(format!("opb: no text with outcome {outcome}"));
        }
    }
    let seconds = start.elapsed().as_secs_f64();
    println!("opb: {outcomes:?}");
    println!(
        "opb: {from_files} instances and {} generated texts agree, {seconds:.1} s, {:.0} texts a second",
        texts.len() - from_files,
        texts.len() as f64 / seconds
    );
    println!("opb: {reached}");
    Ok(())
}

fn run_console(command: &[String]) -> Result<(), String> {
    let start = Instant::now();
    let program = ConsoleDriver::new(command.to_vec(), PATIENCE);
    let (scripts, said) = console_driver::expected(scripts::scripts(SCRIPTS));
    everything_said(&said)?;
    let reached = said.reach.said().map_err(|what| format!("console: {what}"))?;
    if let Some(difference) = compare(&program, &scripts) {
        let found = console_driver::shorter(&program, TIME, difference);
        return Err(format!("console: difference, {}", describe_with(&found, &console_driver::right(&found.text))));
    }
    let seconds = start.elapsed().as_secs_f64();
    println!("console: {:?}", said.codes);
    println!("console: {} scripts agree, {seconds:.1} s, {:.0} scripts a second", scripts.len(), scripts.len() as f64 / seconds);
    println!("console: {reached}");
    Ok(())
}

/// Every command has had each of its codes, and every error came.
fn everything_said(said: &Said) -> Result<(), String> {
    let wanted: [(&str, &[u64]); 18] = [
        ("plan", &[0, 1, 3, 4, 5, 6, 7, 8]),
        ("give", &[0, 9, 10, 11]),
        ("open", &[0, 9, 14]),
        ("propagate", &[0, 9]),
        ("propagate to a conflict", &[0]),
        ("back", &[0, 9, 15]),
        ("bounds", &[0, 9, 16]),
        ("why", &[0, 9, 10, 12, 13]),
        ("conflict", &[0, 9, 16, 17]),
        ("origin", &[0, 9, 10, 12]),
        ("trail", &[0, 9]),
        ("no command", &[0]),
        ("a line too long", &[0]),
        ("rules broken off by a line too long", &[0]),
        ("rules broken off by an empty line", &[0]),
        ("rules broken off by a rule misread", &[0]),
        ("rules broken off by another line", &[0]),
        ("rules broken off by the end", &[0]),
    ];
    for (name, codes) in wanted {
        for code in codes {
            let many = said.codes.get(&(name, *code)).copied().unwrap_or(0);
            if many < 2 {
                return Err(format!("console: {name} had code {code} only {many} times"));
            }
        }
    }
    Ok(())
}

#[cfg(dalelead_linked)]
fn run_calls(seed: Option<u64>) -> Result<(), String> {
    run_lists(&checker::library::Linked, seed)
}

#[cfg(not(dalelead_linked))]
fn run_calls(_seed: Option<u64>) -> Result<(), String> {
    Err("calls: no library is linked; build with DALELEAD_LIB set to the folder of libdalelead_c.a, or use `checker standin`".into())
}

fn run_lists(library: &dyn Library, seed: Option<u64>) -> Result<(), String> {
    let start = Instant::now();
    let mut tally = Tally::default();
    let seeds = match seed {
        Some(seed) => seed..seed + 1,
        None => 0..LISTS,
    };
    alarm::start();
    for seed in seeds.clone() {
        alarm::at(seed);
        let list = generate::list(seed);
        match drive::run(library, &list) {
            Ok(own) => tally.add(&own),
            Err(difference) => {
                let failing = planted::cut(&list, &difference);
                let found = shrink::list(&failing, TIME, &|list| drive::run(library, list).is_err());
                let what = drive::run(library, &found).err().map_or(difference.what, |difference| difference.what);
                return Err(format!("calls: difference in the list of seed {seed}: {what}\n{found}"));
            }
        }
    }
    alarm::stop();
    let seconds = start.elapsed().as_secs_f64();
    if seed.is_none() {
        every_code_seen(&tally)?;
    }
    println!("calls: codes of each call: {:?}", tally.codes);
    println!("calls: propagate put on {} literals and met {} conflicts", tally.derived, tally.conflicts);
    println!("calls: areas that were not whole: {:?}; changed and whole: {}", tally.broken, tally.whole);
    println!(
        "calls: {} lists with {} calls agree, {seconds:.1} s, {:.0} lists a second",
        seeds.end - seeds.start,
        tally.calls,
        (seeds.end - seeds.start) as f64 / seconds
    );
    if seed.is_none() {
        println!("calls: {}", tally.reach.said().map_err(|what| format!("calls: {what}"))?);
    }
    Ok(())
}

/// Every call has had each of its codes, so that no refusal goes unlooked at.
fn every_code_seen(tally: &Tally) -> Result<(), String> {
    let mut wanted: Vec<(&str, Vec<u64>)> = vec![("load", vec![0, 1, 2, 3, 4, 5, 6, 7, 8, 18])];
    for (request, codes) in [
        (Request::Give(0), vec![0, 9, 10, 11, 18]),
        (Request::Open, vec![0, 9, 14, 18]),
        (Request::TakeBack(0), vec![0, 9, 15, 18]),
        (Request::Propagate, vec![0, 9, 18]),
        (Request::Search(Vec::new()), vec![0, 9, 10, 18]),
        (Request::Bounds(0), vec![0, 9, 16, 18]),
        (Request::Explain(0), vec![0, 9, 10, 12, 13, 18]),
        (Request::ExplainConflict(0), vec![0, 9, 16, 17, 18]),
        (Request::Origin(0), vec![0, 9, 10, 12, 18]),
        (Request::Trail, vec![0, 9, 18]),
    ] {
        wanted.push((calls::name(&request), codes));
    }
    wanted.extend(drive::SEARCHES.map(|way| (way, vec![0])));
    for (name, codes) in wanted {
        for code in codes {
            let many = tally.codes.get(&(name, code)).copied().unwrap_or(0);
            if many < 10 {
                return Err(format!("calls: {name} had code {code} only {many} times"));
            }
        }
    }
    Ok(())
}

fn print() -> Result<(), String> {
    let mut text = Vec::new();
    std::io::stdin().read_to_end(&mut text).map_err(|e| e.to_string())?;
    std::io::stdout().write_all(&misread::print(&text, Misread::None)).map_err(|e| e.to_string())
}

fn write(bytes: &[u8]) -> Result<(), String> {
    std::io::stdout().write_all(bytes).map_err(|e| e.to_string())
}

/// The checker's own console: every answer is written before the next line is read, or, as a fault, all of them at the end.
fn answer(late: bool) -> Result<(), String> {
    let mut input = std::io::stdin().lock();
    let mut console = console::Console::new(Slip::None);
    let (mut line, mut kept) = (Vec::new(), String::new());
    let mut out = std::io::stdout().lock();
    while input.read_until(b'\n', &mut line).map_err(|e| e.to_string())? > 0 {
        kept += &console.line(line.strip_suffix(b"\n").unwrap_or(&line));
        line.clear();
        if !late && !kept.is_empty() {
            out.write_all(kept.as_bytes()).and_then(|()| out.flush()).map_err(|e| e.to_string())?;
            kept.clear();
        }
    }
    kept += &console.end();
    out.write_all(kept.as_bytes()).and_then(|()| out.flush()).map_err(|e| e.to_string())
}
