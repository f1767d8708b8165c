//! What the OPB program prints for a text, every line ending in LF.

use std::fmt::Write;

use crate::book::{load, Book, Columns, Request};
use crate::meaning::Value;
use crate::opb::{read, Plan};

pub fn program(text: &[u8]) -> String {
    match read(text) {
        Err(refused) => format!("refused {} {}\n", refused.code, refused.complete),
        Ok(plan) => planned(&plan),
    }
}

/// 'Constraint j has head V + j, given at level 0 in order'; then one propagate, and the listing. 'Load's refusals print with their
/// sentence.'
pub fn planned(plan: &Plan) -> String {
    let (reply, book) = load(plan.variables + plan.constraints, &Columns::of(&plan.sentences), usize::MAX, 2);
    let Some(mut book) = book else {
        return format!("refused {} {}\n", reply.code, reply.value);
    };
    for j in 1..=plan.constraints {
        let reply = book.request(Request::Give((plan.variables + j) as i64), 2);
        assert_eq!(reply.code, 0, "heads of a plan are atoms, each given once");
    }
    let (put_on, conflict) = book.propagate();
    listing(&book, put_on, conflict)
}

/// 'Line 1: `still` and the literals derived, or `conflict`, that count and the sentence. `t`: literal, level, reason (0 given). `b`:
/// sentence, least, greatest.'
pub fn listing(book: &Book, put_on: usize, conflict: u64) -> String {
    let mut out = match conflict {
        0 => format!("still {put_on}\n"),
        sentence => format!("conflict {put_on} {sentence}\n"),
    };
    for row in &book.rows {
        writeln!(out, "t {} {} {}", row.literal, row.level, row.reason).unwrap();
    }
    for sentence in 1..=book.sentences.len() as u64 {
        let (least, greatest) = book.bounds(sentence);
        writeln!(out, "b {sentence} {} {}", printed(least), printed(greatest)).unwrap();
    }
    out
}

/// 'Infinite values can't come from OPB.'
fn printed(value: Value) -> i128 {
    match value {
        Value::Number(number) => number,
        _ => unreachable!("a sum has numbers only"),
    }
}
