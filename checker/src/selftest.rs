//! The checker against itself: direct evaluation against all full assignments, the merged set against the written one, the book against
//! its definitions, areas laid out and read again; and document 01's examples and the readings of the OPB text as fixed tests.

use std::collections::BTreeSet;
use std::fs;
use std::path::Path;

use crate::assignments::{self, Said};
use crate::book::{load, Book, Columns, Reply, Request, Row};
use crate::direct;
use crate::generate;
use crate::listing;
use crate::meaning::*;
use crate::merge::merge;
use crate::random::Random;
use crate::texts;
use crate::whole;

macro_rules! equal {
    ($what:expr, $a:expr, $b:expr) => {
        match (&$a, &$b) {
            (a, b) => {
                if *a != *b {
                    return Err(format!("{}: {:?}, expected {:?}", $what, a, b));
                }
            }
        }
    };
}

pub fn run(folder: Option<&Path>) -> Result<Vec<String>, String> {
    let mut said = vec![merged_means_the_same()?, direct_agrees()?, propagate_agrees()?, reports_agree()?, areas_read_again()?];
    said.push(searches_agree()?);
    said.push(examples()?);
    said.push(searches()?);
    said.push(limits()?);
    said.push(readings()?);
    match folder {
        Some(folder) => said.push(instances(folder)?),
        None => said.push("no folder of instances".into()),
    }
    Ok(said)
}

fn random_values(random: &mut Random, n: u64) -> Vec<Option<bool>> {
    let often = 1 + random.below(4);
    (0..=n).map(|_| if random.chance(often) { None } else { Some(random.coin()) }).collect()
}

fn merged_means_the_same() -> Result<String, String> {
    let mut random = Random::new(1);
    for i in 0..100_000 {
        let n = 1 + random.below(6);
        let sentence = generate::sentence(&mut random, n, 9);
        let merged = merge(&sentence);
        for truth in assignments::agreeing(&vec![None; n as usize + 1]) {
            equal!(format!("merge {i}, {sentence:?}, {merged:?}"), merged.value(&truth), value(sentence.kind, &sentence.entries, &truth));
        }
    }
    Ok("100000 sentences mean the same merged and as written, under every full assignment".into())
}

fn direct_agrees() -> Result<String, String> {
    let mut random = Random::new(2);
    let mut speak = [0; 3];
    for i in 0..100_000 {
        let n = 1 + if i % 50 == 0 { random.below(12) } else { random.below(9) };
        let sentence = generate::sentence(&mut random, n, 9);
        let merged = merge(&sentence);
        let values = random_values(&mut random, n);
        let what = format!("direct {i}, {sentence:?}, {values:?}");
        let range = assignments::range(&values, |truth| value(sentence.kind, &sentence.entries, truth));
        equal!(what, direct::range(&merged, &values), range);
        let said = assignments::said(&values, merged.atoms(), |truth| holds(&sentence, truth));
        equal!(what, direct::said(&merged, &values), said);
        speak[match said {
            Said::Nothing => 0,
            Said::Conflict => 1,
            Said::Forced(_) => 2,
        }] += 1;
    }
    Ok(format!(
        "100000 sentences on trails: direct evaluation and all full assignments agree ({} nothing, {} conflict, {} forced)",
        speak[0], speak[1], speak[2]
    ))
}

/// A random theory, its written sentences, and a trail with levels.
fn random_book(random: &mut Random, most: u64) -> (Vec<Sentence>, Book) {
    let n = 2 + random.below(most - 1);
    let (sentences, truth) =
        if random.coin() { generate::kept_theory(random, n, 9, 5) } else { (generate::theory(random, n, 6, 5), Vec::new()) };
    let (_, book) = load(n, &Columns::of(&sentences), usize::MAX, 2);
    let mut book = book.expect("generated theories are taken");
    for _ in 0..random.below(12) {
        match random.below(4) {
            0 => book.request(Request::Open, 2),
            1 if random.coin() => book.request(Request::Propagate, 3),
            _ => {
                let atom = 1 + random.below(n) as i64;
                let sign = if random.coin() { random.coin() } else { truth.get(atom as usize) == Some(&true) };
                book.request(Request::Give(if sign { atom } else { -atom }), 2)
            }
        };
    }
    (sentences, book)
}

/// Propagate by the definitions alone: every step looks at every sentence, as written, under every full assignment.
fn propagate_agrees() -> Result<String, String> {
    let mut random = Random::new(3);
    let mut derived = 0;
    for i in 0..10_000 {
        let (sentences, mut book) = random_book(&mut random, 8);
        let mut slow = book.clone();
        let expected = loop {
            let values = slow.values();
            let speaks = (0..sentences.len()).find_map(|s| {
                let said = assignments::said(&values, slow.sentences[s].atoms(), |truth| holds(&sentences[s], truth));
                (said != Said::Nothing).then_some((s as u64 + 1, said))
            });
            match speaks {
                None => break 0,
                Some((s, Said::Conflict)) => break s,
                Some((reason, Said::Forced(literal))) => slow.rows.push(Row { literal, level: slow.level, reason }),
                Some((_, Said::Nothing)) => unreachable!(),
            }
        };
        let before = book.rows.len();
        let answer = book.propagate();
        derived += answer.0;
        equal!(format!("propagate {i}, {sentences:?}"), answer, (slow.rows.len() - before, expected));
        equal!(format!("propagate {i}, {sentences:?}"), book, slow);
    }
    Ok(format!("10000 propagates agree with the definition, {derived} literals derived"))
}

/// A search is the calls propagate, open and give one behind another, each with its own refusals.
fn searches_agree() -> Result<String, String> {
    let mut random = Random::new(6);
    let (mut conflicts, mut highest) = (0, 0);
    for i in 0..10_000 {
        let (_, mut book) = random_book(&mut random, 12);
        if random.chance(4) {
            book.level = book.level.max(MOST_LEVELS - random.below(4));
        }
        let n = book.atoms as i64;
        let literals: Vec<i64> = (0..random.index(12)).map(|_| random.between(1, n) * random.pick(&[1, -1])).collect();
        let mut slow = book.clone();
        let mut turn = slow.request(Request::Propagate, 3);
        let (mut derived, mut gone) = (turn.words[2], 0);
        let mut rest = literals.iter();
        while let (0, Some(literal)) = (turn.value, rest.next()) {
            let mut tried = slow.clone();
            let opened = tried.request(Request::Open, 2).code;
            let given = tried.request(Request::Give(*literal), 2).code;
            if given == 0 && opened == 14 {
                highest += 1;
                break;
            }
            gone += 1;
            if given == 0 {
                slow = tried;
                turn = slow.request(Request::Propagate, 3);
                derived += turn.words[2];
            }
        }
        conflicts += (turn.value > 0) as u64;
        let reply = book.request(Request::Search(literals.clone()), 4);
        let words = vec![slow.length() as i64, slow.level as i64, derived, gone];
        equal!(format!("search {i}, {literals:?}"), reply, Reply { code: 0, value: turn.value, words });
        equal!(format!("search {i}, {literals:?}"), book, slow);
    }
    Ok(format!("10000 searches agree with the single calls, {conflicts} to a conflict, {highest} ended by the highest level"))
}

/// Each explanation of a propagated literal or a conflict is a clause that its sentence implies; each origin is the definition's.
fn reports_agree() -> Result<String, String> {
    let mut random = Random::new(4);
    let (mut explained, mut conflicts, mut origins) = (0, 0, 0);
    for i in 0..10_000 {
        let (sentences, mut book) = random_book(&mut random, 8);
        book.propagate();
        let all: Vec<Vec<bool>> = assignments::agreeing(&vec![None; book.atoms as usize + 1]).collect();
        let implied = |s: u64, clause: &[i64]| {
            let holding = all.iter().filter(|truth| holds(&sentences[s as usize - 1], truth));
            holding.filter(|truth| !clause.iter().any(|literal| is_true(*literal, truth))).count() == 0
        };
        for row in book.rows.clone() {
            let origin = book.request(Request::Origin(row.literal), usize::MAX);
            equal!(format!("origin {i}"), origin.words, defined_origin(&book, row.literal));
            origins += 1;
            let reply = book.request(Request::Explain(row.literal), usize::MAX);
            if row.reason == 0 {
                equal!(format!("explain {i}"), reply.code, 13);
                continue;
            }
            equal!(format!("explain {i}: {:?} in {sentences:?}", reply.words), implied(row.reason, &reply.words), true);
            explained += 1;
        }
        for s in 1..=sentences.len() as u64 {
            let reply = book.request(Request::ExplainConflict(s), usize::MAX);
            if reply.code == 0 {
                equal!(format!("explain_conflict {i}: {:?} in {sentences:?}", reply.words), implied(s, &reply.words), true);
                conflicts += 1;
            }
        }
    }
    Ok(format!(
        "{explained} explanations and {conflicts} of conflicts are implied by their sentences; {origins} origins are the definition's"
    ))
}

/// The definition of an origin, by recursion on places, as a set in trail order.
fn defined_origin(book: &Book, literal: i64) -> Vec<i64> {
    fn places(book: &Book, at: usize) -> BTreeSet<usize> {
        if book.rows[at].reason == 0 {
            return BTreeSet::from([at]);
        }
        let negated = book.negated(book.rows[at].reason, at);
        negated.iter().flat_map(|literal| places(book, book.place(-literal).unwrap())).collect()
    }
    places(book, book.place(literal).unwrap()).into_iter().map(|at| book.rows[at].literal).collect()
}

fn areas_read_again() -> Result<String, String> {
    let mut random = Random::new(5);
    for i in 0..10_000 {
        let (_, book) = random_book(&mut random, 12);
        let many = book.sentences.len();
        let speaks: Vec<bool> = (1..=many as u64).map(|s| book.said(s) != Said::Nothing).collect();
        for marks in [vec![true; many], speaks.clone()] {
            let words = whole::lay(&book, &marks);
            equal!(format!("area {i}"), words.len(), book.need());
            equal!(format!("area {i}"), whole::read(&words, book.length(), book.level).ok(), Some(book.clone()));
            equal!(format!("area {i} cut"), whole::read(&words[..words.len() - 1], book.length(), book.level).is_err(), true);
        }
        if let Some(s) = speaks.iter().position(|speaks| *speaks) {
            let mut marks = vec![true; many];
            marks[s] = false;
            let words = whole::lay(&book, &marks);
            equal!(format!("area {i}"), whole::read(&words, book.length(), book.level).err(), Some("speaks and is not pending"));
        }
    }
    Ok("10000 books are read again from their areas".into())
}

fn one(head: u64, kind: u64, side: u64, bound: i64, entries: &[(i64, i64)]) -> Sentence {
    Sentence { head, kind, side, bound, entries: entries.to_vec() }
}

/// A book with these sentences and these literals given.
fn given(n: u64, sentences: &[Sentence], trail: &[i64]) -> Result<Book, String> {
    let (reply, book) = load(n, &Columns::of(sentences), usize::MAX, 2);
    let mut book = book.ok_or(format!("load gave {reply:?}"))?;
    for literal in trail {
        equal!("give", book.request(Request::Give(*literal), 2).code, 0);
    }
    Ok(book)
}

fn derived(book: &Book) -> Vec<i64> {
    book.rows.iter().filter(|row| row.reason > 0).map(|row| row.literal).collect()
}

/// M1 to M12.
fn examples() -> Result<String, String> {
    let numbers = |least: i128, greatest: i128| (Value::Number(least), Value::Number(greatest));
    let m1 = [one(6, SUM, LOWER, 3, &[(-5, 1), (-2, 2), (0, 3), (1, 4), (9, 5)])];
    let mut book = given(6, &m1, &[-4, 5])?;
    equal!("M1", book.bounds(1), numbers(2, 9));
    equal!("M1", book.propagate(), (0, 0));
    let mut book = given(6, &m1, &[6, 1])?;
    equal!("M2", book.propagate(), (1, 0));
    equal!("M2", derived(&book), [5]);
    equal!("M2", book.bounds(1), numbers(2, 5));
    let book = given(3, &[one(3, SUM, LOWER, 0, &[(-5, 1), (-2, -1), (2, 2), (5, 2)])], &[])?;
    equal!("M3", book.bounds(1), numbers(-5, 5));
    let m4 = [one(3, SUM, UPPER, 1, &[(1, 1), (2, 2)])];
    let mut book = given(3, &m4, &[3, 1])?;
    equal!("M4", book.propagate(), (1, 0));
    equal!("M4", derived(&book), [-2]);
    equal!("M4", book.request(Request::Explain(-2), 9).words, [-2, -3, -1]);
    let mut book = given(3, &m4, &[3, 1, 2])?;
    equal!("M5", book.propagate(), (0, 1));
    equal!("M5", book.request(Request::ExplainConflict(1), 9).words, [-3, -1, -2]);
    let mut book = given(1, &[one(1, MAX, UPPER, 0, &[])], &[])?;
    equal!("M6", (book.propagate(), derived(&book)), ((1, 0), vec![1]));
    let mut book = given(1, &[one(1, MAX, LOWER, 0, &[])], &[])?;
    equal!("M7", (book.propagate(), derived(&book)), ((1, 0), vec![-1]));
    let mut book = given(3, &[one(3, MAX, LOWER, 0, &[(0, 1), (-4, 2)])], &[3])?;
    equal!("M8", (book.propagate(), derived(&book)), ((1, 0), vec![1]));
    let book = given(3, &[one(3, MIN, LOWER, 0, &[(5, 1), (8, 2)])], &[-1])?;
    equal!("M9", book.bounds(1), (Value::Number(8), Value::Above));
    let mut book = given(3, &[one(3, PRODUCT, UPPER, 5, &[(2, 1), (3, 2)])], &[3])?;
    equal!("M10", book.bounds(1), numbers(1, 6));
    equal!("M10", book.propagate(), (0, 0));
    book.request(Request::Give(1), 2);
    equal!("M10", (book.propagate(), derived(&book)), ((1, 0), vec![-2]));
    let mut book = given(3, &m4, &[3, 1])?;
    book.request(Request::Open, 2);
    equal!("M11", (book.propagate(), derived(&book)), ((1, 0), vec![-2]));
    book.request(Request::TakeBack(0), 2);
    equal!("M11", (book.length(), book.level), (2, 0));
    equal!("M11", book.bounds(1), numbers(1, 3));
    equal!("M11", (book.propagate(), derived(&book)), ((1, 0), vec![-2]));
    let mut book = given(2, &[one(1, SUM, LOWER, 1, &[(1, 2)]), one(2, SUM, LOWER, 1, &[(1, 1)])], &[1])?;
    equal!("M12", (book.propagate(), derived(&book)), ((1, 0), vec![2]));
    equal!("M12", book.request(Request::Origin(2), 9).words, [1]);
    Ok("M1 to M12".into())
}

/// Searches over M4's sentence and two more, with every number written out: 3 forces -2, 4 says the same as 2, and 5 as 3 and 4.
fn searches() -> Result<String, String> {
    let three = [one(3, SUM, UPPER, 1, &[(1, 1), (2, 2)]), one(4, SUM, LOWER, 1, &[(1, 2)]), one(5, SUM, LOWER, 2, &[(1, 3), (1, 4)])];
    let search = |level: u64, trail: &[i64], literals: &[i64], room: usize| -> Result<(u64, u64, Vec<i64>, Vec<i64>), String> {
        let mut book = given(6, &three, trail)?;
        book.level = level;
        let reply = book.request(Request::Search(literals.to_vec()), room);
        Ok((reply.code, reply.value, reply.words, book.rows.iter().map(|row| row.literal).collect()))
    };
    let cases: [(u64, &[i64], &[i64], usize, u64, u64, &[i64], &[i64]); 12] = [
        // 2 is passed over, its negation being on the trail.
        (0, &[], &[3, 1, 2, 6], 4, 0, 0, &[6, 3, 3, 4], &[3, -2, -4, -5, 1, 6]),
        (7, &[], &[4], 9, 0, 0, &[4, 8, 3, 1], &[4, 2, -3, -5]),
        (0, &[], &[], 4, 0, 0, &[0, 0, 0, 0], &[]),
        // In conflict at the first propagate, without and with a literal derived before, and behind the second literal.
        (0, &[3, 2], &[1, 6], 4, 0, 1, &[2, 0, 0, 0], &[3, 2]),
        (0, &[3, 4], &[1, 6], 4, 0, 2, &[3, 0, 1, 0], &[3, 4, -2]),
        (0, &[], &[1, 5, 4], 4, 0, 3, &[5, 2, 3, 2], &[1, 5, 3, -2, -4]),
        // At the highest level literals on the trail are passed over, and the first other one ends it.
        (1024, &[3, 1], &[2, -1, 4, 6, 3], 4, 0, 0, &[5, 1024, 3, 3], &[3, 1, -2, -4, -5]),
        (1023, &[1], &[1, 6, -6, 3], 4, 0, 0, &[2, 1024, 0, 3], &[1, 6]),
        // 10 for any literal of the list, reached or not, and before 18.
        (0, &[3, 2], &[1, 7], 4, 10, 0, &[], &[3, 2]),
        (0, &[], &[0], 3, 10, 0, &[], &[]),
        (1024, &[], &[1, i64::MIN], 4, 10, 0, &[], &[]),
        (0, &[], &[-6], 3, 18, 4, &[], &[]),
    ];
    for (level, trail, literals, room, code, value, words, rows) in cases {
        let expected = (code, value, words.to_vec(), rows.to_vec());
        equal!(format!("search over {literals:?} from {trail:?}"), search(level, trail, literals, room)?, expected);
    }
    Ok(format!("{} searches with every number written out", cases.len()))
}

/// The last lines of the yard examples, and the refusals of load on single sentences.
fn limits() -> Result<String, String> {
    let loads = |sentence: Sentence| {
        let (reply, _) = load(4, &Columns::of(&[sentence]), usize::MAX, 2);
        (reply.code, reply.value)
    };
    let billion = 1_000_000_000;
    let quintillion = billion * billion;
    for (sentence, code) in [
        (one(4, SUM, LOWER, 0, &[(billion, 1)]), 0),
        (one(4, SUM, LOWER, 0, &[(billion + 1, 1)]), 5),
        (one(4, SUM, LOWER, 0, &[(-billion, 1)]), 0),
        (one(4, SUM, LOWER, 0, &[(-billion - 1, 1)]), 5),
        (one(4, PRODUCT, LOWER, 0, &[(billion, 1), (billion, 2)]), 0),
        (one(4, PRODUCT, LOWER, 0, &[(billion, 1), (billion, 2), (2, 3)]), 8),
        (one(4, PRODUCT, LOWER, 0, &[(0, 1)]), 5),
        (one(4, COUNT, LOWER, 0, &[(2, 1)]), 5),
        (one(4, MAX, LOWER, quintillion, &[(0, 1)]), 0),
        (one(4, MAX, LOWER, quintillion + 1, &[(0, 1)]), 5),
        (one(4, 5, LOWER, 0, &[]), 3),
        (one(4, SUM, 2, 0, &[]), 3),
        (one(5, SUM, LOWER, 0, &[]), 4),
        (one(4, SUM, LOWER, 0, &[(1, 0)]), 4),
        (one(4, SUM, LOWER, 0, &[(1, i64::MIN)]), 4),
        (one(4, SUM, LOWER, 0, &[(1, -4)]), 6),
        (one(4, SUM, LOWER, 0, &[(1, 1), (1, -1)]), 0),
        (one(4, COUNT, LOWER, 0, &[(1, 1), (1, -1)]), 0),
        (one(4, MIN, LOWER, 0, &[(1, 1), (1, -1)]), 7),
        (one(4, PRODUCT, LOWER, 0, &[(1, 1), (1, -1)]), 7),
        (one(4, SUM, LOWER, 0, &[(1, 1); 1024]), 0),
        (one(4, SUM, LOWER, 0, &[(1, 1); 1025]), 3),
    ] {
        let value = (code > 0) as u64;
        equal!(format!("load of {sentence:?}"), loads(sentence.clone()), (code, value));
    }
    let mut book = given(1, &[], &[])?;
    for _ in 0..1024 {
        equal!("open", book.request(Request::Open, 2).code, 0);
    }
    equal!("open at level 1,024", book.request(Request::Open, 2).code, 14);
    Ok("weights, bounds, sets and levels at their limits".into())
}

/// Document 01's input and output, and a text for each reading of the form.
fn readings() -> Result<String, String> {
    let output = "still 2\nt 4 0 0\nt 5 0 0\nt 1 0 1\nt 2 0 1\nb 1 4 5\nb 2 1 2\n";
    equal!("document 01's input", listing::program(texts::EXAMPLE.as_bytes()), output);
    let long = |many: usize| "1 x1 ".repeat(many);
    // The first line's rest, the text behind it, and what the first line of the output is.
    let table: Vec<(&str, String, &str)> = vec![
        ("3 #constraint= 0\n", "".into(), "still 0"),
        ("3 #constraint= 0\r\n", "".into(), "still 0"),
        ("3 #constraint= 0", "".into(), "refused 20 0"),
        ("3 #constraint= 0\r", "".into(), "refused 20 0"),
        ("3 #constraint= 0\r", "x".into(), "refused 20 0"),
        ("3 #constraint= 0 \n", "".into(), "refused 20 0"),
        ("3  #constraint= 0\n", "".into(), "refused 20 0"),
        ("+3 #constraint= 0\n", "".into(), "refused 20 0"),
        ("3 #constraint= +0\n", "".into(), "refused 20 0"),
        ("0", "".into(), "refused 21 0"),
        ("0x", "".into(), "refused 21 0"),
        ("0000000000000000000 ", "".into(), "refused 21 0"),
        ("0000000000000000001 ", "".into(), "refused 22 0"),
        ("000000000000000001 #constraint= 000000000000000000\n", "".into(), "still 0"),
        ("1 #constraint= 0000000000000000000\n", "".into(), "refused 22 0"),
        ("1 #constraint= 9999999999999999999\n", "".into(), "refused 21 0"),
        ("2000", "".into(), "refused 20 0"),
        ("10000 #constraint= 1", "".into(), "refused 21 0"),
        ("1024 #constraint= 0\n", "".into(), "still 0"),
        ("1024 #constraint= 1\n", "".into(), "refused 21 0"),
        ("3 #constraint= 1\n", " \t\r\n\n* c\n\n 1 x1 >= 1;* c".into(), "refused 20 1"),
        ("3 #constraint= 1\n", " \t\r\n\n* c\n\n 1 x1 >= 1;\n* c".into(), "still 1"),
        ("3 #constraint= 1\n", "1 x1 >= 1; * c".into(), "refused 20 1"),
        ("3 #constraint= 1\n", " * c\n1 x1 >= 1;".into(), "refused 20 0"),
        ("3 #constraint= 1\n", "\r* c\n1 x1 >= 1;".into(), "refused 20 0"),
        ("3 #constraint= 1\n", "* c\r* d\n1 x1 >= 1;".into(), "still 1"),
        ("3 #constraint= 1\n", "1 x1\n* c\n >= 1;".into(), "refused 20 0"),
        ("3 #constraint= 1\n", "+ 1 x1 >= 1;".into(), "refused 20 0"),
        ("3 #constraint= 1\n", "+01 x1 >= -00;".into(), "still 0"),
        ("3 #constraint= 1\n", "1 x01 >= 1;".into(), "refused 20 0"),
        ("3 #constraint= 1\n", "1 x9y".into(), "refused 21 0"),
        ("3 #constraint= 1\n", "1 x9".into(), "refused 21 0"),
        ("3 #constraint= 1\n", "1 x1y".into(), "refused 20 0"),
        ("3 #constraint= 1\n", "1 x1000000000000000000".into(), "refused 21 0"),
        ("3 #constraint= 1\n", "1000000000000000000x".into(), "refused 22 0"),
        ("3 #constraint= 1\n", "1 x1 >= 1000000000000000000x".into(), "refused 22 0"),
        ("3 #constraint= 1\n", "1x1 >= 1;".into(), "refused 20 0"),
        ("3 #constraint= 1\n", "1 x1>= 1;".into(), "refused 20 0"),
        ("3 #constraint= 1\n", "1 x1 >=1;".into(), "refused 20 0"),
        ("3 #constraint= 1\n", "1 x1+1 x2 >= 1;".into(), "refused 20 0"),
        ("3 #constraint= 1\n", "1 x1 > = 1;".into(), "refused 20 0"),
        ("3 #constraint= 1\n", "1 x1 <= 1;".into(), "refused 20 0"),
        ("3 #constraint= 1\n", ">= 1;".into(), "refused 20 0"),
        ("3 #constraint= 1\n", "min: 1 x1;".into(), "refused 20 0"),
        ("3 #constraint= 1\n", "1 x1 = 1 \n ;1 x1 = 1;".into(), "refused 21 2"),
        ("3 #constraint= 2\n", "1 x1 = 1 ;".into(), "refused 21 1"),
        ("3 #constraint= 2\n", "1 x1 = 1 ;1 x1 = 1".into(), "refused 20 1"),
        ("3 #constraint= 1\n", "1 x1 = 1 ;1 x1 = 1".into(), "refused 20 1"),
        ("3 #constraint= 1\n", "1000000001 x1 >= 1;".into(), "refused 5 1"),
        ("3 #constraint= 1\n", "1000000001 x1 >= 1;x".into(), "refused 20 1"),
        ("3 #constraint= 2\n", "1 x1 = 1; 1000000001 x1 = 1;".into(), "refused 5 3"),
        ("3 #constraint= 1\n", long(1024) + ">= 1;", "still 1"),
        ("3 #constraint= 1\n", long(1025) + ">= 1;", "refused 3 1"),
        ("3 #constraint= 1\n", long(4096) + ">= 1;", "refused 3 1"),
        ("3 #constraint= 1\n", long(4097), "refused 24 0"),
        ("3 #constraint= 1\n", long(4096) + "1 x4", "refused 21 0"),
        ("3 #constraint= 1\n", long(4096) + "1 x2y", "refused 24 0"),
        ("3 #constraint= 1\n", long(4096) + "1 xy", "refused 20 0"),
        ("3 #constraint= 1\n", long(2048) + "= 1;", "refused 3 1"),
        ("3 #constraint= 1\n", long(2049) + "=x", "refused 24 0"),
        ("3 #constraint= 1\n", long(2049) + ">x", "refused 20 0"),
        ("3 #constraint= 256\n", "1 x1 >= 1;".repeat(256), "still 1"),
        ("3 #constraint= 257\n", "1 x1 >= 1;".repeat(257), "refused 24 256"),
        ("3 #constraint= 128\n", "1 x1 = 1;".repeat(128), "still 1"),
        ("3 #constraint= 129\n", "1 x1 = 1;".repeat(128) + "1 x1 >= 1;", "refused 24 128"),
        ("3 #constraint= 129\n", "1 x1 = 1;".repeat(128) + "1 x1 >", "refused 20 128"),
        ("3 #constraint= 1\n", "1 x1 >= 2;".into(), "conflict 0 1"),
        ("3 #constraint= 2\n", "1 x1 >= 1;1 x1 = 0;".into(), "conflict 1 3"),
        ("3 #constraint= 0\n", " ".repeat(65_536 - 30), "still 0"),
        ("3 #constraint= 0\n", " ".repeat(65_537 - 30), "refused 23 0"),
        ("x", " ".repeat(65_536), "refused 23 0"),
    ];
    let many = table.len();
    for (first, rest, expected) in table {
        let text = format!("* #variable= {first}{rest}");
        let shown: String = text.chars().take(90).collect();
        equal!(format!("{shown:?}"), listing::program(text.as_bytes()).lines().next(), Some(expected));
    }
    equal!("no byte", listing::program(b""), "refused 20 0\n");
    Ok(format!("document 01's input and {many} texts for the readings"))
}

/// The instances of tests/opb against the first lines that stand in its file EXPECTED.
fn instances(folder: &Path) -> Result<String, String> {
    let expected = fs::read_to_string(folder.join("EXPECTED")).map_err(|e| format!("EXPECTED: {e}"))?;
    let mut many = 0;
    for line in expected.lines() {
        let (name, first) = line.split_once(": ").ok_or(format!("EXPECTED: {line}"))?;
        let text = fs::read(folder.join(name)).map_err(|e| format!("{name}: {e}"))?;
        equal!(name, listing::program(&text).lines().next(), Some(first));
        many += 1;
    }
    Ok(format!("{many} instances have the expected first line"))
}
