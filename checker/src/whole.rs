//! The work area: laying a book out in words, and the test of wholeness, which reads the book back. From document 01's paragraph 'Whole
//! means' and Dalelead's layout:
//!
//! - word 0: N + 2^16 * sentences + 2^32 * length + 2^48 * level; words 1 to N - 1: 0
//! - N + (a - 1): the value of atom a: 0 open, else 1 + 2 * its place on the trail, and one more where it is false
//! - 2N + i: literal i of the trail, 2 * atom, and one more where it is negative; 0 past the length
//! - 3N + i: level + 2^16 * reason + 2^32 * place in the reason (0 the head, j merged entry j from 1; 0 where given); 0 past the length
//! - 4N + 8s: sentence s, from 0: head; kind + 8 * side + 16 * pending; bound; constant; least; greatest; written entries of the
//!   sentences before it; written + 2^16 * merged entries
//! - 4N + 8S + 2j: entry j: weight, literal word; the merged ones first in each sentence's room, 0 behind them
//!
//! A stored number z is z + 2^62. Of the least and the greatest, 0 is below every number and 2^63 above every number. The constant's
//! word is 0 for product, max and min.

use crate::assignments::Said;
use crate::book::{Book, Row};
use crate::direct;
use crate::meaning::*;
use crate::merge::Merged;

fn stored(z: i128) -> u64 {
    (z + (1 << 62)) as u64
}

fn number(word: u64) -> i128 {
    word as i128 - (1 << 62)
}

fn stored_value(value: Value) -> u64 {
    match value {
        Value::Below => 0,
        Value::Above => 1 << 63,
        Value::Number(z) => stored(z),
    }
}

fn literal_word(literal: i64) -> u64 {
    2 * literal.unsigned_abs() + (literal < 0) as u64
}

fn sums(kind: u64) -> bool {
    kind == SUM || kind == COUNT
}

/// The place of an atom in its reason: 0 the head, j merged entry j from 1.
fn place_in(sentence: &Merged, atom: u64) -> Option<u64> {
    sentence.atoms().position(|own| own == atom).map(|at| at as u64)
}

/// The words of a book with these pending marks. Any book can be laid out, also one that breaks the rules.
pub fn lay(book: &Book, pending: &[bool]) -> Vec<u64> {
    let n = book.atoms as usize;
    let many = book.sentences.len();
    let mut words = vec![0; 4 * n + 8 * many];
    words[0] = book.atoms | (many as u64) << 16 | book.length() << 32 | book.level << 48;
    for (i, row) in book.rows.iter().enumerate() {
        let atom = row.literal.unsigned_abs();
        words[n + atom as usize - 1] = 1 + 2 * i as u64 + (row.literal < 0) as u64;
        words[2 * n + i] = literal_word(row.literal);
        let place = match row.reason {
            0 => 0,
            reason => book.sentences.get(reason as usize - 1).and_then(|sentence| place_in(sentence, atom)).unwrap_or(0),
        };
        words[3 * n + i] = row.level | row.reason << 16 | place << 32;
    }
    let values = book.values();
    let mut before = 0;
    for (s, sentence) in book.sentences.iter().enumerate() {
        let at = 4 * n + 8 * s;
        let (least, greatest) = direct::range(sentence, &values);
        words[at] = sentence.head;
        words[at + 1] = sentence.kind + 8 * sentence.side + 16 * pending[s] as u64;
        words[at + 2] = stored(sentence.bound);
        words[at + 3] = if sums(sentence.kind) { stored(sentence.constant) } else { 0 };
        words[at + 4] = stored_value(least);
        words[at + 5] = stored_value(greatest);
        words[at + 6] = before;
        words[at + 7] = sentence.written + ((sentence.entries.len() as u64) << 16);
        before += sentence.written;
    }
    for sentence in &book.sentences {
        let room = words.len() + 2 * sentence.written as usize;
        for (weight, literal) in &sentence.entries {
            words.push(stored(*weight));
            words.push(literal_word(*literal));
        }
        words.resize(room, 0);
    }
    words
}

/// The pending marks as an area has them.
pub fn marks(words: &[u64], atoms: u64, sentences: usize) -> Vec<bool> {
    (0..sentences).map(|s| words[4 * atoms as usize + 8 * s + 1] >> 4 & 1 == 1).collect()
}

/// The counters that an area itself stores.
pub fn counters(words: &[u64]) -> (u64, u64) {
    let first = words.first().copied().unwrap_or(0);
    (first >> 32 & 0xffff, first >> 48)
}

/// 'a sentence not marked as pending has nothing to say': the first sentence that breaks this.
pub fn silent_without_mark(book: &Book, pending: &[bool]) -> Option<u64> {
    let values = book.values();
    let speaks = |s: &usize| direct::said(&book.sentences[*s], &values) != Said::Nothing;
    (0..book.sentences.len()).find(|s| !pending[*s] && speaks(s)).map(|s| s as u64 + 1)
}

/// The book that a whole area holds, or which part of 'Whole means' it breaks.
pub fn read(words: &[u64], length: u64, level: u64) -> Result<Book, &'static str> {
    read_without("", words, length, level)
}

/// The same with one rule, by its name, left out: for faults that are planted to see whether they are found.
pub fn read_without(left_out: &str, words: &[u64], length: u64, level: u64) -> Result<Book, &'static str> {
    let rule = |kept: bool, name: &'static str| rule(kept || name == left_out, name);
    let first = *words.first().ok_or("no word")?;
    let (atoms, many) = (first & 0xffff, first >> 16 & 0xffff);
    let n = atoms as usize;
    // 'the stored theory passes load's rules'
    rule((1..=MOST_ATOMS).contains(&atoms), "N")?;
    rule(many <= MOST_SENTENCES, "sentences")?;
    rule(words.len() >= 4 * n + 8 * many as usize, "shorter than its need")?;
    // 'the counters are the length and the level that the area itself stores'
    rule((length, level) == counters(words), "counters")?;
    rule(length <= atoms, "length")?;
    // 'levels don't fall along the trail or pass the current one, itself within its limit'
    rule(level <= MOST_LEVELS, "level's limit")?;
    // 'unused words are 0'
    rule(words[1..n].iter().all(|word| *word == 0), "unused words of N")?;

    let mut sentences = Vec::new();
    let mut before = 0;
    for s in 0..many as usize {
        let sizes = words[4 * n + 8 * s + 7];
        let (written, merged) = (sizes & 0xffff, sizes >> 16);
        rule(written <= MOST_IN_A_SENTENCE, "entries of a sentence")?;
        rule(merged <= written, "merged entries")?;
        rule(words[4 * n + 8 * s + 6] == before, "entries before")?;
        before += written;
    }
    rule(before <= MOST_ENTRIES, "entries")?;
    // 'the area is no shorter than its need'
    rule(words.len() as u64 >= 4 * atoms + 8 * many + 2 * before, "shorter than its need")?;
    for s in 0..many as usize {
        sentences.push(read_sentence(&rule, words, n, many as usize, s)?);
    }
    let rows = read_rows(&rule, words, n, length as usize, level, &sentences)?;
    let book = Book { atoms, sentences, level, rows };
    // 'stored bounds match the trail'
    let values = book.values();
    for (s, sentence) in book.sentences.iter().enumerate() {
        let (least, greatest) = direct::range(sentence, &values);
        let at = 4 * n + 8 * s;
        rule(words[at + 4] == stored_value(least), "least")?;
        rule(words[at + 5] == stored_value(greatest), "greatest")?;
    }
    let pending = marks(words, atoms, many as usize);
    rule(silent_without_mark(&book, &pending).is_none(), "speaks and is not pending")?;
    Ok(book)
}

/// A stored sentence: 'passes load's rules and is merged, except that a merged weight or constant of a sum or count may reach in size
/// 10^9 times its sentence's written entries, and a merged product weight 10^18'.
fn read_sentence(rule: &Rule, words: &[u64], n: usize, many: usize, s: usize) -> Result<Merged, &'static str> {
    let own = &words[4 * n + 8 * s..4 * n + 8 * s + 8];
    let head = own[0];
    rule((1..=n as u64).contains(&head), "head")?;
    let (kind, side) = (own[1] & 7, own[1] >> 3 & 1);
    rule(own[1] < 32 && kind <= MIN, "kind, side and mark")?;
    let bound = number(own[2]);
    rule(bound.abs() <= BOUND, "bound")?;
    let (written, merged) = (own[7] & 0xffff, own[7] >> 16);
    let most = WEIGHT * written as i128;
    let constant = if sums(kind) { number(own[3]) } else { 0 };
    rule(if sums(kind) { constant.abs() <= most } else { own[3] == 0 }, "constant")?;
    let room = 4 * n + 8 * many + 2 * own[6] as usize;
    let (used, unused) = words[room..room + 2 * written as usize].split_at(2 * merged as usize);
    rule(unused.iter().all(|word| *word == 0), "words behind the merged entries")?;
    let mut entries: Vec<(i128, i64)> = Vec::new();
    let mut seen = vec![false; n + 1];
    let mut product: i128 = 1;
    for entry in used.chunks(2) {
        let weight = number(entry[0]);
        let atom = entry[1] / 2;
        rule((1..=n as u64).contains(&atom), "entry's atom")?;
        rule(atom != head, "head in its own set")?;
        rule(!seen[atom as usize], "atom twice in a set")?;
        seen[atom as usize] = true;
        let negative = entry[1] % 2 == 1;
        match kind {
            SUM | COUNT => {
                rule(!negative, "negative literal in a sum")?;
                rule(weight != 0, "weight 0 in a sum")?;
                rule(weight.abs() <= most, "weight of a sum")?;
            }
            PRODUCT => {
                rule((1..=BOUND).contains(&weight), "weight of a product")?;
                product = product.saturating_mul(weight);
                rule(product <= BOUND, "product of weights")?;
            }
            _ => rule(weight.abs() <= WEIGHT, "weight of a max or min")?,
        }
        entries.push((weight, if negative { -(atom as i64) } else { atom as i64 }));
    }
    Ok(Merged { head, kind, side, bound, constant, written, entries })
}

/// 'trail literals are of atoms, each atom once, and agree with the stored values; levels don't fall along the trail or pass the current
/// one; each reason is 0 or a sentence with that atom as head or merged entry'.
fn read_rows(rule: &Rule, words: &[u64], n: usize, length: usize, current: u64, sentences: &[Merged]) -> Result<Vec<Row>, &'static str> {
    let (values, literals, reasons) = (&words[n..2 * n], &words[2 * n..3 * n], &words[3 * n..4 * n]);
    rule(literals[length..].iter().all(|word| *word == 0), "literal past the length")?;
    rule(reasons[length..].iter().all(|word| *word == 0), "level past the length")?;
    let mut expected = vec![0; n];
    let mut rows: Vec<Row> = Vec::new();
    let mut lowest = 0;
    for i in 0..length {
        let atom = literals[i] / 2;
        rule((1..=n as u64).contains(&atom), "trail literal's atom")?;
        rule(expected[atom as usize - 1] == 0, "atom twice on the trail")?;
        expected[atom as usize - 1] = 1 + 2 * i as u64 + literals[i] % 2;
        let (level, reason, place) = (reasons[i] & 0xffff, reasons[i] >> 16 & 0xffff, reasons[i] >> 32);
        rule(lowest <= level, "level falls")?;
        rule(level <= current, "level above the current")?;
        lowest = level;
        if reason == 0 {
            rule(place == 0, "place of a given literal")?;
        } else {
            rule(reason as usize <= sentences.len(), "reason")?;
            rule(place_in(&sentences[reason as usize - 1], atom) == Some(place), "place in the reason")?;
        }
        let literal = if literals[i] % 2 == 1 { -(atom as i64) } else { atom as i64 };
        rows.push(Row { literal, level, reason });
    }
    rule(values == expected.as_slice(), "stored values")?;
    Ok(rows)
}

type Rule<'a> = dyn Fn(bool, &'static str) -> Result<(), &'static str> + 'a;

fn rule(kept: bool, name: &'static str) -> Result<(), &'static str> {
    if kept {
        Ok(())
    } else {
        Err(name)
    }
}
