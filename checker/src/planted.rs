//! Faults planted into the stand-ins, each of which the drivers have to find: so the checks are known to be able to fail.

use std::panic;
use std::time::Duration;

use crate::console::{self, Slip, SLIPS};
use crate::console_driver;
use crate::drive;
use crate::generate;
use crate::misread::{Misread, Own, MISLISTED, MISREADS};
use crate::programs::{compare, describe, describe_with, expected, shorter, Expected, Program};
use crate::scripts;
use crate::shrink;
use crate::standin::{Fault, Odd, Standin, ASTRAY};
use crate::texts;

/// The time for making a list or text shorter.
const TIME: Duration = Duration::from_millis(100);

const FAULTS: [Fault; 26] = [
    Fault::MarksClearedForGood,
    Fault::StillAfterTheFirst,
    Fault::ExplainsWithLater,
    Fault::ExplainsWithoutHead,
    Fault::DropsZero,
    Fault::CountsTwice,
    Fault::MinKeepsLarger,
    Fault::MaxKeepsTop,
    Fault::FiveBeforeFour,
    Fault::CountsWrap,
    Fault::ProductTooSmall,
    Fault::RefusedWrites,
    Fault::TouchesPastNeed,
    Fault::ClearsBehindList,
    Fault::RoomBeforeConflict,
    Fault::EitherSignIsOn,
    Fault::CountsTheTrail,
    Fault::EntriesBackwards,
    Fault::GoesOn,
    Fault::OriginBackwards,
    Fault::OriginOfOneStep,
    Fault::TakesBackOneMore,
    Fault::OneLevelFewer,
    Fault::StaleBounds,
    Fault::BoundsWithoutConstant,
    Fault::Without("counters"),
];

/// The parts of the test of wholeness that can be left out without the stand-in reading past its words.
const RULES: [&str; 24] = [
    "level's limit",
    "unused words of N",
    "entries of a sentence",
    "entries",
    "least",
    "greatest",
    "speaks and is not pending",
    "bound",
    "constant",
    "words behind the merged entries",
    "head in its own set",
    "atom twice in a set",
    "negative literal in a sum",
    "weight 0 in a sum",
    "weight of a sum",
    "weight of a product",
    "product of weights",
    "weight of a max or min",
    "literal past the length",
    "level past the length",
    "level falls",
    "level above the current",
    "place of a given literal",
    "stored values",
];

/// Whole areas that are turned away. Load makes none of some of these: the areas come from books that were altered.
const ODD: [Odd; 10] = [
    Odd::LastLevel,
    Odd::WidestBound,
    Odd::WidestWeight,
    Odd::WidestConstant,
    Odd::WeightyCount,
    Odd::WidestProduct,
    Odd::MostEntries,
    Odd::MostInASentence,
    Odd::NotForced,
    Odd::PendingAndSilent,
];

/// Finds every planted fault; gives a line on each, or what was not found.
pub fn run(lists: u64, texts: usize, scripts: usize, loud: bool) -> Result<Vec<String>, String> {
    let mut said = Vec::new();
    let rules = RULES.iter().map(|rule| Fault::Without(rule));
    for fault in FAULTS.into_iter().chain(ASTRAY.map(Fault::Search)).chain(rules).chain(ODD.map(Fault::Strict)) {
        said.push(find(fault, lists, loud)?);
    }
    let (mut texts, ..) = expected(texts::texts(1, texts));
    for misread in MISREADS {
        said.push(find_misread(misread, &texts, loud)?);
    }
    // The largest texts come last.
    texts.reverse();
    for misread in MISLISTED {
        said.push(find_misread(misread, &texts, loud)?);
    }
    let (scripts, _) = console_driver::expected(scripts::scripts(scripts));
    for slip in SLIPS {
        said.push(find_slip(&console::Own(slip), slip, &scripts, loud)?);
    }
    // A console that does not answer before the end is told by typing to it only: this one is a program of its own.
    let own = std::env::current_exe().map_err(|e| e.to_string())?.display().to_string();
    let late = console_driver::ConsoleDriver::new(vec![own, "answer".into(), "late".into()], Duration::from_millis(500));
    said.push(find_slip(&late, Slip::Late, &scripts, loud)?);
    Ok(said)
}

fn find_misread(misread: Misread, texts: &[Expected], loud: bool) -> Result<String, String> {
    let program = Own(misread);
    let difference = compare(&program, texts).ok_or(format!("{misread:?} was not found"))?;
    let found = shorter(&program, TIME, difference, texts);
    let rest = if loud { format!("\n{}", describe(&found)) } else { String::new() };
    Ok(format!("{misread:?}: found, {} bytes left of {}{rest}", found.text.len(), found.name))
}

fn find_slip(program: &dyn Program, slip: Slip, scripts: &[Expected], loud: bool) -> Result<String, String> {
    let difference = compare(program, scripts).ok_or(format!("{slip:?} was not found"))?;
    let found = console_driver::shorter(program, TIME, difference);
    let lines = console::lines(&found.text).count();
    let rest = if loud { format!("\n{}", describe_with(&found, &console_driver::right(&found.text))) } else { String::new() };
    Ok(format!("{slip:?}: found, {lines} lines left of {}{rest}", found.name))
}

fn find(fault: Fault, lists: u64, loud: bool) -> Result<String, String> {
    let library = Standin { fault };
    let fails = |list: &crate::calls::List| panic::catch_unwind(|| drive::run(&library, list).is_err()).unwrap_or(true);
    for seed in 0..lists {
        let list = generate::list(seed);
        let outcome = panic::catch_unwind(|| drive::run(&library, &list).err());
        let (what, mut failing) = match outcome {
            Ok(None) => continue,
            Ok(Some(difference)) => (difference.what.clone(), cut(&list, &difference)),
            Err(_) => ("the stand-in crashed".into(), list),
        };
        let before = failing.calls.len();
        failing = shrink::list(&failing, TIME, &fails);
        let rest = if loud { format!("\n{failing}") } else { String::new() };
        return Ok(format!("{fault:?}: found by list {seed}, {} calls left of {before}: {what}{rest}", failing.calls.len()));
    }
    Err(format!("{fault:?} was not found by {lists} lists"))
}

/// The list up to the difference, with the single call that met it in place of a series.
pub fn cut(list: &crate::calls::List, difference: &drive::Difference) -> crate::calls::List {
    let mut cut = list.clone();
    cut.calls.truncate(difference.at + 1);
    if let Some(call) = &difference.instead {
        cut.calls[difference.at] = call.clone();
    }
    cut
}
