//! What a sentence means, from document 01, 'Sentences and their meaning'. Everything here is about the set as it was written.

pub const SUM: u64 = 0;
pub const PRODUCT: u64 = 1;
pub const COUNT: u64 = 2;
pub const MAX: u64 = 3;
pub const MIN: u64 = 4;

/// Side 0: bound <= value.
pub const LOWER: u64 = 0;
/// Side 1: value <= bound.
pub const UPPER: u64 = 1;

// 'Limits and what a call gives back'.
pub const MOST_ATOMS: u64 = 1024;
pub const MOST_SENTENCES: u64 = 256;
pub const MOST_ENTRIES: u64 = 4096;
pub const MOST_IN_A_SENTENCE: u64 = 1024;
pub const MOST_LEVELS: u64 = 1024;
pub const WEIGHT: i128 = 1_000_000_000;
pub const BOUND: i128 = 1_000_000_000_000_000_000;

/// A value of a set. The order is that of the comparison: below every number, the numbers, above every number.
#[derive(Clone, Copy, PartialEq, Eq, PartialOrd, Ord, Debug)]
pub enum Value {
    Below,
    Number(i128),
    Above,
}

/// A sentence as it was written: entries are (weight, literal).
#[derive(Clone, PartialEq, Eq, Debug)]
pub struct Sentence {
    pub head: u64,
    pub kind: u64,
    pub side: u64,
    pub bound: i64,
    pub entries: Vec<(i64, i64)>,
}

/// 'Literal a says atom a is true, -a that it is false.' `truth` has the atoms' values, atom a at index a.
pub fn is_true(literal: i64, truth: &[bool]) -> bool {
    truth[literal.unsigned_abs() as usize] == (literal > 0)
}

/// 'The value is taken over the weights whose literals are true. Over none: sum 0, count 0, product 1, max below every number, min
/// above every number.' 'In a count every weight is 1. A literal written twice counts once, because a set holds a member once.'
pub fn value(kind: u64, entries: &[(i64, i64)], truth: &[bool]) -> Value {
    let taken = entries.iter().filter(|(_, literal)| is_true(*literal, truth));
    match kind {
        SUM => Value::Number(taken.map(|(weight, _)| *weight as i128).sum()),
        PRODUCT => Value::Number(taken.map(|(weight, _)| *weight as i128).product()),
        COUNT => {
            let mut members: Vec<i64> = taken.map(|(_, literal)| *literal).collect();
            members.sort_unstable();
            members.dedup();
            Value::Number(members.len() as i128)
        }
        MAX => taken.map(|(weight, _)| Value::Number(*weight as i128)).max().unwrap_or(Value::Below),
        MIN => taken.map(|(weight, _)| Value::Number(*weight as i128)).min().unwrap_or(Value::Above),
        _ => unreachable!("a kind above 4 has no value"),
    }
}

/// 'a side (0: bound <= value; 1: value <= bound)'.
pub fn compares(side: u64, bound: i128, value: Value) -> bool {
    if side == LOWER {
        Value::Number(bound) <= value
    } else {
        value <= Value::Number(bound)
    }
}

/// 'It holds when the head is true exactly if the comparison is.'
pub fn holds(sentence: &Sentence, truth: &[bool]) -> bool {
    let value = value(sentence.kind, &sentence.entries, truth);
    truth[sentence.head as usize] == compares(sentence.side, sentence.bound as i128, value)
}
