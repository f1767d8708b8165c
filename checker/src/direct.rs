//! Propagation by direct evaluation over the merged set. Each entry adds a least and a greatest contribution, and a set's least and
//! greatest value are these, taken together by the kind's operation; both are attained, since entries are of different atoms. What is
//! forced is found by trying each open literal both ways. The tests hold this against `assignments`.

use crate::assignments::{Said, Values};
use crate::meaning::{Value, COUNT, LOWER, MAX, PRODUCT, SUM};
use crate::merge::Merged;

/// A least and a greatest value.
pub type Range = (Value, Value);

fn number(value: Value) -> i128 {
    match value {
        Value::Number(number) => number,
        _ => unreachable!("sums, counts and products have numbers only"),
    }
}

/// The kind's operation on two values.
fn with(kind: u64, a: Value, b: Value) -> Value {
    match kind {
        SUM | COUNT => Value::Number(number(a).saturating_add(number(b))),
        PRODUCT => Value::Number(number(a).saturating_mul(number(b))),
        MAX => a.max(b),
        _ => a.min(b),
    }
}

fn both(kind: u64, a: Range, b: Range) -> Range {
    (with(kind, a.0, b.0), with(kind, a.1, b.1))
}

/// 'Over none: sum 0, count 0, product 1, max below every number, min above every number.'
fn none(kind: u64) -> Value {
    match kind {
        SUM | COUNT => Value::Number(0),
        PRODUCT => Value::Number(1),
        MAX => Value::Below,
        _ => Value::Above,
    }
}

/// What one entry adds where its literal is true (Some(true)), false (Some(false)) or open: an open literal adds its weight or nothing.
fn adds(kind: u64, weight: i128, literal: Option<bool>) -> Range {
    let (weight, none) = (Value::Number(weight), none(kind));
    match literal {
        Some(true) => (weight, weight),
        Some(false) => (none, none),
        None => (weight.min(none), weight.max(none)),
    }
}

/// The value of a literal on the trail.
pub fn literal_value(literal: i64, values: &Values) -> Option<bool> {
    values[literal.unsigned_abs() as usize].map(|atom| atom == (literal > 0))
}

fn start(sentence: &Merged) -> Range {
    let start = match sentence.kind {
        SUM | COUNT => Value::Number(sentence.constant),
        kind => none(kind),
    };
    (start, start)
}

/// The least and the greatest value of the sentence's set on the trail, constant included.
pub fn range(sentence: &Merged, values: &Values) -> Range {
    sentence.entries.iter().fold(start(sentence), |sofar, (weight, literal)| {
        both(sentence.kind, sofar, adds(sentence.kind, *weight, literal_value(*literal, values)))
    })
}

/// Whether some full assignment satisfies the sentence, where the head has this value and the set's values have this range.
fn possible(sentence: &Merged, head: Option<bool>, range: Range) -> bool {
    let bound = Value::Number(sentence.bound);
    let (can_be_true, can_be_false) =
        if sentence.side == LOWER { (bound <= range.1, range.0 < bound) } else { (range.0 <= bound, bound < range.1) };
    head != Some(false) && can_be_true || head != Some(true) && can_be_false
}

/// What the sentence says on the trail.
pub fn said(sentence: &Merged, values: &Values) -> Said {
    let kind = sentence.kind;
    let head = values[sentence.head as usize];
    let whole = range(sentence, values);
    if !possible(sentence, head, whole) {
        return Said::Conflict;
    }
    if head.is_none() {
        if !possible(sentence, Some(false), whole) {
            return Said::Forced(sentence.head as i64);
        }
        if !possible(sentence, Some(true), whole) {
            return Said::Forced(-(sentence.head as i64));
        }
    }
    // behind[j]: the contributions of the entries behind entry j.
    let many = sentence.entries.len();
    let mut behind = vec![(none(kind), none(kind)); many];
    for j in (1..many).rev() {
        let (weight, literal) = sentence.entries[j];
        behind[j - 1] = both(kind, behind[j], adds(kind, weight, literal_value(literal, values)));
    }
    let mut before = start(sentence);
    for (j, &(weight, literal)) in sentence.entries.iter().enumerate() {
        let value = literal_value(literal, values);
        if value.is_none() {
            let others = both(kind, before, behind[j]);
            if !possible(sentence, head, both(kind, others, adds(kind, weight, Some(false)))) {
                return Said::Forced(literal);
            }
            if !possible(sentence, head, both(kind, others, adds(kind, weight, Some(true)))) {
                return Said::Forced(-literal);
            }
        }
        before = both(kind, before, adds(kind, weight, value));
    }
    Said::Nothing
}
