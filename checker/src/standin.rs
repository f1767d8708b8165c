//! A stand-in for the library, over the checker's own book and its own reading of areas: with it the drivers are known to work, and
//! with one fault planted into it they are known to find faults.

use crate::assignments::Said;
use crate::book::{load, marked, need, of_an_atom, Book, Columns, Reply, Request, Row, Searched};
use crate::direct;
use crate::library::Library;
use crate::meaning::*;
use crate::merge::{merge, Merged};
use crate::whole;

/// What is wrong with the stand-in.
#[derive(Clone, Copy, PartialEq, Eq, Debug)]
pub enum Fault {
    None,
    /// Pending marks are cleared for good: take back does not set them again.
    MarksClearedForGood,
    /// Propagate says still where something was derived before.
    StillAfterTheFirst,
    /// Literals put on after l are in its explanation.
    ExplainsWithLater,
    /// The head is left out of explanations.
    ExplainsWithoutHead,
    /// A weight of 0 is dropped in max and min.
    DropsZero,
    /// A literal written twice counts twice.
    CountsTwice,
    /// The larger of two equal literals' weights is kept in a min.
    MinKeepsLarger,
    /// Max keeps its greatest value after its top literal turned false.
    MaxKeepsTop,
    /// 5 is tested before 4.
    FiveBeforeFour,
    /// Counts are added up modulo 2^64.
    CountsWrap,
    /// A product of weights of just 10^18 is refused.
    ProductTooSmall,
    /// A refused give writes the counters.
    RefusedWrites,
    /// A word past the need is written.
    TouchesPastNeed,
    /// The word behind the result list is cleared.
    ClearsBehindList,
    /// 18 is tested before 17.
    RoomBeforeConflict,
    /// 12 is told from the atom alone, whatever the sign.
    EitherSignIsOn,
    /// Propagate counts the whole trail.
    CountsTheTrail,
    /// Propagate looks at a sentence's entries from the last to the first.
    EntriesBackwards,
    /// Propagate goes on from the sentence that spoke last.
    GoesOn,
    /// Origins come from the trail's end.
    OriginBackwards,
    /// An origin stops at the first derived literal.
    OriginOfOneStep,
    /// Take back to the current level removes that level's literals.
    TakesBackOneMore,
    /// The 1,024th open is refused.
    OneLevelFewer,
    /// Give leaves the stored bounds as they were.
    StaleBounds,
    /// The constant is left out of reported bounds.
    BoundsWithoutConstant,
    /// The search has a fault of its own.
    Search(Astray),
    /// One part of the test of wholeness is left out.
    Without(&'static str),
    /// An area is refused that is whole, for being at a limit or odd.
    Strict(Odd),
}

/// What is wrong with a search.
#[derive(Clone, Copy, PartialEq, Eq, Debug)]
pub enum Astray {
    /// 10 for the literals that are reached only.
    TenWhenReached,
    /// 14 where the highest level ends it.
    Fourteen,
    /// The literals derived are those of the last propagate.
    CountsLastTurn,
    /// The literals tried count as derived.
    CountsGiven,
    /// The literal that led to a conflict is not counted as gone through.
    ConflictNotCounted,
    /// Literals passed over are not counted as gone through.
    PassedNotCounted,
    /// The counters are written though it is refused.
    RefusedWrites,
    /// 18 is tested before 10.
    RoomBeforeTen,
    /// Three words are enough for what it hands back.
    RoomOfThree,
    /// At the highest level it ends at once.
    EndsAtHighest,
    /// The first literal is given before anything is propagated.
    GivesFirst,
    /// A level is opened for a literal passed over too.
    OpensForPassed,
    /// A literal whose negation is on the trail ends it.
    NegationEnds,
    /// It goes on after a conflict.
    GoesOn,
    /// It goes through the list from the back.
    Backwards,
}

pub const ASTRAY: [Astray; 15] = [
    Astray::TenWhenReached,
    Astray::Fourteen,
    Astray::CountsLastTurn,
    Astray::CountsGiven,
    Astray::ConflictNotCounted,
    Astray::PassedNotCounted,
    Astray::RefusedWrites,
    Astray::RoomBeforeTen,
    Astray::RoomOfThree,
    Astray::EndsAtHighest,
    Astray::GivesFirst,
    Astray::OpensForPassed,
    Astray::NegationEnds,
    Astray::GoesOn,
    Astray::Backwards,
];

impl Astray {
    /// The search with this fault, where nothing is refused; or the code that it gives all the same.
    fn search(self, book: &mut Book, literals: &[i64]) -> Result<Searched, u64> {
        let mut list = literals.to_vec();
        if self == Astray::Backwards {
            list.reverse();
        }
        let mut turn = if self == Astray::GivesFirst { (0, 0) } else { book.propagate() };
        let mut searched = Searched { conflict: turn.1, derived: turn.0, gone: 0 };
        for literal in list {
            let highest = book.level == MOST_LEVELS;
            if searched.conflict > 0 && self != Astray::GoesOn || highest && self == Astray::EndsAtHighest {
                break;
            }
            if !of_an_atom(literal, book.atoms) {
                return Err(10);
            }
            if book.on_the_trail(literal) {
                if self == Astray::NegationEnds && book.place(literal).is_none() {
                    break;
                }
                book.level += (self == Astray::OpensForPassed && !highest) as u64;
                searched.gone += (self != Astray::PassedNotCounted) as usize;
                continue;
            }
            if highest && self == Astray::Fourteen {
                return Err(14);
            }
            if highest {
                break;
            }
            book.level += 1;
            book.rows.push(Row { literal, level: book.level, reason: 0 });
            turn = book.propagate();
            searched.derived += turn.0 + (self == Astray::CountsGiven) as usize;
            searched.conflict = turn.1;
            searched.gone += (turn.1 == 0 || self != Astray::ConflictNotCounted) as usize;
        }
        if self == Astray::CountsLastTurn {
            searched.derived = turn.0;
        }
        Ok(searched)
    }
}

/// Whole areas that a test of wholeness might turn away wrongly.
#[derive(Clone, Copy, PartialEq, Eq, Debug)]
pub enum Odd {
    /// The level is 1,024.
    LastLevel,
    /// A bound is 10^18 in size.
    WidestBound,
    /// A merged weight of a sum is 10^9 times the written entries in size, which are more than one.
    WidestWeight,
    /// The same for a constant.
    WidestConstant,
    /// A merged weight of a count is not 1 or -1.
    WeightyCount,
    /// A merged product weight is 10^18.
    WidestProduct,
    /// There are 4,096 written entries.
    MostEntries,
    /// A sentence has 1,024 written entries.
    MostInASentence,
    /// A literal's reason did not force it.
    NotForced,
    /// A sentence is marked as pending and has nothing to say.
    PendingAndSilent,
}

impl Odd {
    fn is(self, book: &Book, marks: &[bool]) -> bool {
        let any = |test: &dyn Fn(&Merged) -> bool| book.sentences.iter().any(test);
        let most = |sentence: &Merged| WEIGHT * sentence.written as i128;
        let sums = |sentence: &Merged| (sentence.kind == SUM || sentence.kind == COUNT) && sentence.written > 1;
        let weight = |sentence: &Merged, test: &dyn Fn(i128) -> bool| sentence.entries.iter().any(|(weight, _)| test(*weight));
        match self {
            Odd::LastLevel => book.level == MOST_LEVELS,
            Odd::WidestBound => any(&|s| s.bound.abs() == BOUND),
            Odd::WidestWeight => any(&|s| sums(s) && weight(s, &|w| w.abs() == most(s))),
            Odd::WidestConstant => any(&|s| sums(s) && s.constant.abs() == most(s)),
            Odd::WeightyCount => any(&|s| s.kind == COUNT && weight(s, &|w| w.abs() > 1)),
            Odd::WidestProduct => any(&|s| s.kind == PRODUCT && weight(s, &|w| w == BOUND)),
            Odd::MostEntries => book.written() == MOST_ENTRIES,
            Odd::MostInASentence => any(&|s| s.written == MOST_IN_A_SENTENCE),
            Odd::NotForced => (0..book.rows.len()).any(|i| {
                let row = book.rows[i];
                let before = Book { rows: book.rows[..i].to_vec(), ..book.clone() };
                row.reason > 0 && !forces(&book.sentences[row.reason as usize - 1], &before.values(), row.literal)
            }),
            Odd::PendingAndSilent => (0..marks.len()).any(|s| marks[s] && book.said(s as u64 + 1) == Said::Nothing),
        }
    }
}

pub struct Standin {
    pub fault: Fault,
}

impl Standin {
    fn wrong_load(&self, atoms: u64, columns: &Columns, area_len: usize, next_len: usize) -> (Reply, Option<Book>) {
        let mut columns = columns.clone();
        if self.fault == Fault::CountsWrap
            && columns.counts.iter().fold(0u64, |all, c| all.wrapping_add(*c)) == columns.weights.len() as u64
        {
            for count in &mut columns.counts {
                *count &= 0xffff;
            }
        }
        let (mut reply, mut book) = load(atoms, &columns, area_len, next_len);
        if let Some(book) = &mut book {
            let sentences = columns.sentences().unwrap();
            for (merged, written) in book.sentences.iter_mut().zip(&sentences) {
                let room = merged.written;
                match self.fault {
                    Fault::DropsZero if merged.kind == MAX || merged.kind == MIN => merged.entries.retain(|(weight, _)| *weight != 0),
                    Fault::CountsTwice if merged.kind == COUNT => {
                        *merged = merge(&Sentence { kind: SUM, ..written.clone() });
                        merged.kind = COUNT;
                    }
                    Fault::MinKeepsLarger if merged.kind == MIN => {
                        *merged = merge(&Sentence { kind: MAX, ..written.clone() });
                        merged.kind = MIN;
                    }
                    _ => (),
                }
                merged.written = room;
            }
            let ten18 = |s: &Sentence| s.kind == PRODUCT && s.entries.iter().map(|(w, _)| *w as i128).product::<i128>() == BOUND;
            if self.fault == Fault::ProductTooSmall {
                if let Some(s) = sentences.iter().position(ten18) {
                    return (Reply::refused(8, s as u64 + 1), None);
                }
            }
        }
        if self.fault == Fault::FiveBeforeFour && reply.code == 4 {
            let sentence = &columns.sentences().unwrap()[reply.value as usize - 1];
            if (sentence.bound as i128).abs() > BOUND || sentence.entries.iter().any(|(w, _)| (*w as i128).abs() > WEIGHT) {
                reply.code = 5;
            }
        }
        (reply, book)
    }

    fn wrong_propagate(&self, book: &mut Book, pending: &[bool]) -> (usize, u64) {
        let before = book.rows.len();
        match self.fault {
            Fault::StillAfterTheFirst if book.rows.iter().any(|row| row.reason > 0) => (0, 0),
            Fault::EntriesBackwards | Fault::GoesOn | Fault::MarksClearedForGood => {
                let mut from = 0;
                loop {
                    let values = book.values();
                    let many = book.sentences.len();
                    let order = (0..many).map(|i| (from + i) % many.max(1));
                    let marked = |s: &usize| self.fault != Fault::MarksClearedForGood || pending[*s] || book.rows.len() > before;
                    let speaks = order.filter(marked).find_map(|s| match direct::said(&book.sentences[s], &values) {
                        Said::Nothing => None,
                        said => Some((s, said)),
                    });
                    match speaks {
                        None => return (book.rows.len() - before, 0),
                        Some((s, Said::Forced(literal))) => {
                            let sentence = &book.sentences[s];
                            let last = sentence
                                .entries
                                .iter()
                                .rev()
                                .flat_map(|(_, entry)| [*entry, -*entry])
                                .find(|entry| forces(sentence, &values, *entry));
                            let backwards = self.fault == Fault::EntriesBackwards && literal.unsigned_abs() != sentence.head;
                            let literal = if backwards { last.unwrap_or(literal) } else { literal };
                            book.rows.push(Row { literal, level: book.level, reason: s as u64 + 1 });
                            from = if self.fault == Fault::GoesOn { s } else { 0 };
                        }
                        Some((s, _)) => return (book.rows.len() - before, s as u64 + 1),
                    }
                }
            }
            _ => book.propagate(),
        }
    }
}

/// The reply of a search with a fault, in place of the right one.
fn wrong_search(astray: Astray, book: &mut Book, literals: &[i64], right: Reply, result: &mut [i64]) -> Reply {
    let room = result.len();
    match (astray, right.code) {
        (Astray::RoomBeforeTen, 10) if room < 4 => return Reply::refused(18, 4),
        (Astray::RefusedWrites, 10 | 18) if room >= 2 => {
            result[..2].copy_from_slice(&[book.length() as i64, book.level as i64]);
            return right;
        }
        (Astray::TenWhenReached, 10) if room >= 4 => (),
        (Astray::RoomOfThree, 18) if room == 3 => (),
        (_, 1..) => return right,
        _ => (),
    }
    let before = book.clone();
    match astray.search(book, literals) {
        Err(code) => {
            *book = before;
            Reply::refused(code, 0)
        }
        Ok(Searched { conflict, derived, gone }) => {
            let mut words = vec![book.length() as i64, book.level as i64, derived as i64, gone as i64];
            words.truncate(room);
            Reply { code: 0, value: conflict, words }
        }
    }
}

/// Whether a sentence forces this literal: it is open, and its negation leaves a conflict.
fn forces(sentence: &Merged, values: &[Option<bool>], literal: i64) -> bool {
    let atom = literal.unsigned_abs() as usize;
    let mut other = values.to_vec();
    other[atom] = Some(literal < 0);
    values[atom].is_none() && direct::said(sentence, &other) == Said::Conflict
}

impl Library for Standin {
    fn need(&self, atoms: u64, sentences: u64, entries: u64) -> u64 {
        need(atoms, sentences, entries)
    }

    fn load(&self, area: &mut [u64], atoms: u64, columns: &Columns, next: &mut [i64], _null: bool) -> u64 {
        let (reply, book) = self.wrong_load(atoms, columns, area.len(), next.len());
        if let Some(book) = book {
            let words = whole::lay(&book, &vec![true; book.sentences.len()]);
            area[..words.len()].copy_from_slice(&words);
        }
        next[..reply.words.len()].copy_from_slice(&reply.words);
        reply.number()
    }

    fn call(&self, request: &Request, area: &mut [u64], length: u64, level: u64, result: &mut [i64], _null: bool) -> u64 {
        let left_out = if let Fault::Without(rule) = self.fault { rule } else { "" };
        let Ok(mut book) = whole::read_without(left_out, area, length, level) else {
            return 9;
        };
        let mut marks = whole::marks(area, book.atoms, book.sentences.len());
        if let Fault::Strict(odd) = self.fault {
            if odd.is(&book, &marks) {
                return 9;
            }
        }
        let room = result.len();
        let before = book.clone();
        let mut reply = book.request(request.clone(), room);
        if let (Fault::Search(astray), Request::Search(literals)) = (self.fault, request) {
            book = before.clone();
            reply = wrong_search(astray, &mut book, literals, reply, result);
        }
        match (self.fault, request) {
            (Fault::RefusedWrites, &Request::Give(_)) if reply.code > 0 && room >= 2 => result[0] = length as i64,
            (Fault::RoomBeforeConflict, &Request::ExplainConflict(_)) if reply.code == 17 && room == 0 => {
                reply.code = 18;
            }
            (Fault::EitherSignIsOn, &Request::Origin(literal)) if reply.code == 12 && book.place(-literal).is_some() => {
                return self.call(&Request::Origin(-literal), area, length, level, result, false);
            }
            (Fault::OneLevelFewer, &Request::Open) if level == MOST_LEVELS - 1 => return 14,
            _ => (),
        }
        if reply.code > 0 {
            return reply.number();
        }
        match (self.fault, request) {
            (_, &Request::Propagate) => {
                book = before.clone();
                let (put_on, conflict) = self.wrong_propagate(&mut book, &marks);
                let put_on = if self.fault == Fault::CountsTheTrail { book.rows.len() } else { put_on };
                reply.value = conflict;
                reply.words = vec![book.length() as i64, book.level as i64, put_on as i64];
            }
            (Fault::TakesBackOneMore, &Request::TakeBack(k)) if k == before.level && k > 0 => {
                book.rows.retain(|row| row.level < k);
                reply.words[0] = book.length() as i64;
            }
            (Fault::ExplainsWithLater, &Request::Explain(literal)) => {
                let all = book.negated(book.rows[book.place(literal).unwrap()].reason, book.rows.len());
                reply.words.truncate(1);
                reply.words.extend(all.into_iter().filter(|other| other.unsigned_abs() != literal.unsigned_abs()));
                reply.words.truncate(room);
                reply.value = reply.words.len() as u64;
            }
            (Fault::ExplainsWithoutHead, &Request::ExplainConflict(sentence)) => {
                let head = book.sentences[sentence as usize - 1].head;
                reply.words.retain(|literal| literal.unsigned_abs() != head);
                reply.value = reply.words.len() as u64;
            }
            (Fault::OriginBackwards, &Request::Origin(_)) => reply.words.reverse(),
            (Fault::OriginOfOneStep, &Request::Origin(literal)) if book.rows[book.place(literal).unwrap()].reason > 0 => {
                let at = book.place(literal).unwrap();
                let given = |l: &i64| book.place(-*l).is_some_and(|place| book.rows[place].reason == 0);
                let list: Vec<i64> = book.negated(book.rows[at].reason, at).into_iter().filter(given).map(|l| -l).collect();
                reply.words.retain(|literal| list.contains(literal));
                reply.value = reply.words.len() as u64;
            }
            (Fault::MaxKeepsTop, &Request::Bounds(sentence)) if book.sentences[sentence as usize - 1].kind == MAX => {
                let open = vec![None; book.atoms as usize + 1];
                let top = direct::range(&book.sentences[sentence as usize - 1], &open).1;
                reply.words[2..].copy_from_slice(&marked(top));
            }
            (Fault::BoundsWithoutConstant, &Request::Bounds(sentence)) => {
                let constant = book.sentences[sentence as usize - 1].constant as i64;
                reply.words[1] -= constant;
                reply.words[3] -= constant;
            }
            _ => (),
        }
        if !request.reports() {
            if self.fault == Fault::MarksClearedForGood {
                if matches!(request, Request::Propagate) && reply.value == 0 {
                    marks.fill(false);
                } else if matches!(request, Request::Give(_) | Request::Search(_)) {
                    marks.fill(true);
                }
            } else {
                marks.fill(true);
            }
            let mut words = whole::lay(&book, &marks);
            if self.fault == Fault::StaleBounds && matches!(request, Request::Give(_)) {
                for s in 0..book.sentences.len() {
                    let at = 4 * book.atoms as usize + 8 * s + 4;
                    words[at..at + 2].copy_from_slice(&area[at..at + 2]);
                }
            }
            area[..words.len()].copy_from_slice(&words);
            if self.fault == Fault::TouchesPastNeed && area.len() > words.len() {
                area[words.len()] = 0;
            }
        }
        result[..reply.words.len()].copy_from_slice(&reply.words);
        if self.fault == Fault::ClearsBehindList && request.reports() && room > reply.words.len() {
            result[reply.words.len()] = 0;
        }
        reply.number()
    }
}
