//! Areas that no call made: words changed one by one, books altered and laid out again, and random words. Some are whole and most are
//! not; which, the reading of areas decides.

use crate::assignments::Said;
use crate::book::{Book, Row};
use crate::calls::{Alter, Change};
use crate::direct;
use crate::meaning::*;
use crate::random::Random;
use crate::whole;

/// The changed words. `book` is what the words hold.
pub fn changed(words: &[u64], book: &Book, change: &Change) -> Vec<u64> {
    let mut new = words.to_vec();
    match change {
        Change::Words(alters) => {
            for (at, alter) in alters {
                if let Some(word) = new.get_mut(*at) {
                    *word = altered(*word, *alter);
                }
            }
            new
        }
        Change::Mutant(seed) => {
            let mut random = Random::new(*seed);
            let mut book = book.clone();
            for _ in 0..1 + random.below(3) {
                alter_book(&mut book, &mut random);
            }
            let values = book.values();
            let careless = random.chance(6);
            let marks: Vec<bool> = book
                .sentences
                .iter()
                .map(|sentence| random.coin() || !careless && direct::said(sentence, &values) != Said::Nothing)
                .collect();
            let laid = whole::lay(&book, &marks);
            if new.len() < laid.len() {
                new.resize(laid.len() + random.index(4), 7);
            }
            new[..laid.len()].copy_from_slice(&laid);
            if random.chance(4) {
                let at = random.index(laid.len());
                let alter = any_alter(&new, at, &mut random);
                new[at] = altered(new[at], alter);
            }
            new
        }
        Change::Level(level) => {
            let at_level = Book { level: book.level.max(*level), ..book.clone() };
            let laid = whole::lay(&at_level, &vec![true; book.sentences.len()]);
            if new.len() >= laid.len() {
                new[..laid.len()].copy_from_slice(&laid);
            }
            new
        }
        Change::Random(seed) => {
            random_words(&mut new, &mut Random::new(*seed));
            new
        }
    }
}

pub fn altered(word: u64, alter: Alter) -> u64 {
    match alter {
        Alter::Add(more) => word.wrapping_add(more),
        Alter::Flip(bit) => word ^ 1 << bit,
        Alter::Set(new) => new,
    }
}

/// One of several changes of a word: one more, one less, a bit, a field of 16 bits, a word from elsewhere in the area, a random word, 0.
pub fn any_alter(words: &[u64], at: usize, random: &mut Random) -> Alter {
    match random.below(9) {
        0 => Alter::Add(1),
        1 => Alter::Add(u64::MAX),
        2 => Alter::Flip(random.below(64) as u32),
        3 => Alter::Add(1 << (16 * random.below(4))),
        4 => Alter::Add(u64::MAX << (16 * random.below(4))),
        5 => Alter::Set(words[random.index(words.len())]),
        6 => Alter::Set(random.word()),
        7 => Alter::Set(words[at] ^ random.below(8)),
        _ => Alter::Set(0),
    }
}

fn random_words(words: &mut [u64], random: &mut Random) {
    let many = words.len();
    let plausible = |random: &mut Random| {
        let atoms = 1 + random.below((many as u64 / 4).clamp(1, 1200));
        let sentences = random.below((many as u64).saturating_sub(4 * atoms) / 8 + 1).min(random.below(4));
        atoms | sentences << 16 | random.below(1030) << 48
    };
    match random.below(6) {
        0 => words.iter_mut().for_each(|word| *word = random.word()),
        1 => words.iter_mut().for_each(|word| *word = random.below(4)),
        2 => words.fill(0),
        3 => {
            words.fill(0);
            if many > 0 {
                words[0] = plausible(random) & !(0xffff << 16);
            }
        }
        4 => {
            words.iter_mut().for_each(|word| *word = random.below(3));
            if many > 0 {
                words[0] = plausible(random);
            }
        }
        _ => {
            if many > 0 {
                let from = random.index(many);
                let to = (from + 1 + random.index(8)).min(many);
                words[from..to].iter_mut().for_each(|word| *word = random.word());
            }
        }
    }
}

/// One change of a book; what comes out can be laid out, but may break any of the rules.
fn alter_book(book: &mut Book, random: &mut Random) {
    let n = book.atoms;
    let rows = book.rows.len();
    let row = random.index(rows);
    let many = book.sentences.len();
    // A theory with as many written entries as there may be, and then one more.
    if book.written() >= MOST_ENTRIES && random.coin() {
        if let Some(sentence) = book.sentences.iter_mut().find(|sentence| sentence.written < MOST_IN_A_SENTENCE) {
            sentence.written += 1;
            return;
        }
    }
    let which = random.below(20);
    if which < 7 {
        alter_rows(book, which, row, random);
    } else if which == 7 {
        book.level = random.pick(&[0, book.level + 1, book.level.saturating_sub(1), 3, MOST_LEVELS, MOST_LEVELS + 1]);
    } else if which == 8 {
        // One atom more, which no sentence mentions.
        book.atoms = (n + 1).min(MOST_ATOMS + 1);
    } else if which == 9 && many > 0 {
        let copy = book.sentences[random.index(many)].clone();
        book.sentences.push(copy);
    } else if many > 0 {
        alter_sentence(book, random.index(many), which, random);
    }
}

fn alter_rows(book: &mut Book, which: u64, row: usize, random: &mut Random) {
    let n = book.atoms;
    let rows = book.rows.len();
    match which {
        0 if rows >= 2 => {
            let other = random.index(rows);
            book.rows.swap(row, other);
        }
        1 if rows >= 2 => {
            let other = random.index(rows);
            let (a, b) = (book.rows[row].literal, book.rows[other].literal);
            book.rows[row].literal = b;
            book.rows[other].literal = a;
        }
        2 if rows >= 1 => {
            let atom = book.rows[row].literal.unsigned_abs();
            let mut reasons: Vec<u64> = vec![0, random.below(book.sentences.len() as u64 + 2)];
            reasons.extend((1..=book.sentences.len() as u64).filter(|s| book.sentences[*s as usize - 1].mentions(atom)));
            book.rows[row].reason = random.pick(&reasons);
        }
        3 if rows >= 1 => book.rows[row].level = random.below(book.level + 2),
        4 if (rows as u64) < n => {
            let atom = 1 + random.below(n) as i64;
            let literal = if random.coin() { atom } else { -atom };
            let level = book.rows.last().map_or(0, |row| row.level).max(random.below(book.level + 1));
            book.rows.push(Row { literal, level, reason: 0 });
        }
        5 if rows >= 1 => {
            book.rows.remove(row);
        }
        _ if rows >= 1 => book.rows[row].literal *= -1,
        _ => (),
    }
}

fn alter_sentence(book: &mut Book, s: usize, which: u64, random: &mut Random) {
    let n = book.atoms;
    let sentence = &mut book.sentences[s];
    let entries = sentence.entries.len();
    let entry = random.index(entries);
    let most = WEIGHT * sentence.written as i128;
    let atom = 1 + random.below(n);
    match which {
        10 => {
            let bound = sentence.bound;
            let near = direct::range(sentence, &vec![None; n as usize + 1]);
            let mut bounds = vec![bound + 1, bound - 1, BOUND, -BOUND, BOUND + 1, -BOUND - 1];
            bounds.extend([near.0, near.1].into_iter().filter_map(|value| if let Value::Number(z) = value { Some(z) } else { None }));
            sentence.bound = random.pick(&bounds).clamp(-BOUND - 1, BOUND + 1);
        }
        11 => sentence.side = 1 - sentence.side.min(1),
        12 => sentence.head = atom,
        13 if entries > 0 => {
            let weight = sentence.entries[entry].0;
            sentence.entries[entry].0 = random.pick(&[
                weight + 1,
                weight - 1,
                0,
                most,
                -most,
                most + 1,
                -most - 1,
                WEIGHT,
                WEIGHT + 1,
                -WEIGHT,
                -WEIGHT - 1,
                BOUND,
                BOUND + 1,
            ]);
        }
        14 if entries > 0 => {
            let sign = if random.chance(3) { -1 } else { 1 };
            sentence.entries[entry].1 = sign * random.pick(&[atom as i64, sentence.entries[entry].1]);
        }
        15 if entries > 0 => {
            sentence.entries.remove(entry);
        }
        16 => {
            let weight = random.between(-3, 3) as i128;
            sentence.entries.push((weight, atom as i64));
            sentence.written += random.below(2);
        }
        17 => {
            let constant = sentence.constant;
            sentence.constant = random.pick(&[constant + 1, constant - 1, most, -most, most + 1, -most - 1, 0]);
        }
        18 => sentence.kind = random.below(5),
        _ => sentence.written = random.pick(&[sentence.written + 1, sentence.written.saturating_sub(1), entries as u64, 1024, 1025]),
    }
}
