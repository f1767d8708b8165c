//! Document 01's book: N, the sentences, a level and rows. It is fed the calls, with their arguments and the lengths of the lent lists
//! and of the area, and no word out of the area; answers and refusals come from the book and the call alone.

use crate::assignments::Said;
use crate::direct;
use crate::meaning::*;
use crate::merge::{merge, Merged};

/// 'rows (literal, level, reason or 0)'
#[derive(Clone, Copy, PartialEq, Eq, Debug)]
pub struct Row {
    pub literal: i64,
    pub level: u64,
    pub reason: u64,
}

#[derive(Clone, PartialEq, Eq, Debug)]
pub struct Book {
    pub atoms: u64,
    pub sentences: Vec<Merged>,
    pub level: u64,
    pub rows: Vec<Row>,
}

/// What a call hands back: the code, what comes with it, and the words at the front of the lent result (the counters, the bounds or the
/// list). A refused call hands back no words.
#[derive(Clone, PartialEq, Eq, Debug)]
pub struct Reply {
    pub code: u64,
    pub value: u64,
    pub words: Vec<i64>,
}

impl Reply {
    pub fn refused(code: u64, value: u64) -> Reply {
        Reply { code, value, words: Vec::new() }
    }

    /// The number that the C interface gives back: value * 256 + code.
    pub fn number(&self) -> u64 {
        self.value * 256 + self.code
    }
}

/// A call other than load, without the area, the counters and the room for the result.
#[derive(Clone, PartialEq, Eq, Debug)]
pub enum Request {
    Give(i64),
    Open,
    TakeBack(u64),
    Propagate,
    Search(Vec<i64>),
    Bounds(u64),
    Explain(i64),
    ExplainConflict(u64),
    Origin(i64),
    Trail,
}

impl Request {
    /// Reports change no word of the work area.
    pub fn reports(&self) -> bool {
        !matches!(self, Request::Give(_) | Request::Open | Request::TakeBack(_) | Request::Propagate | Request::Search(_))
    }
}

/// What a search hands back beside the counters: the sentence in conflict or 0, 'the literals derived .. counted over all propagates',
/// and 'the literals of the list gone through (tried, or passed over as already on the trail; the one that led to a conflict counts)'.
#[derive(Clone, Copy, PartialEq, Eq, Debug)]
pub struct Searched {
    pub conflict: u64,
    pub derived: usize,
    pub gone: usize,
}

/// What load is handed: a number for each sentence in the first five, one for each entry in the last two.
#[derive(Clone, Default, PartialEq, Eq, Debug)]
pub struct Columns {
    pub heads: Vec<u64>,
    pub kinds: Vec<u64>,
    pub sides: Vec<u64>,
    pub bounds: Vec<i64>,
    pub counts: Vec<u64>,
    pub weights: Vec<i64>,
    pub literals: Vec<i64>,
}

impl Columns {
    pub fn of(sentences: &[Sentence]) -> Columns {
        let mut columns = Columns::default();
        for sentence in sentences {
            columns.heads.push(sentence.head);
            columns.kinds.push(sentence.kind);
            columns.sides.push(sentence.side);
            columns.bounds.push(sentence.bound);
            columns.counts.push(sentence.entries.len() as u64);
            columns.weights.extend(sentence.entries.iter().map(|(weight, _)| *weight));
            columns.literals.extend(sentence.entries.iter().map(|(_, literal)| *literal));
        }
        columns
    }

    /// The sentences, where the columns fit one another.
    pub fn sentences(&self) -> Option<Vec<Sentence>> {
        let many = self.heads.len();
        // 'columns that belong together unequal in length, or sentence counts not adding up to the entries'
        if [self.kinds.len(), self.sides.len(), self.bounds.len(), self.counts.len()] != [many; 4]
            || self.weights.len() != self.literals.len()
            || self.counts.iter().map(|count| *count as u128).sum::<u128>() != self.weights.len() as u128
        {
            return None;
        }
        let mut entries = self.weights.iter().copied().zip(self.literals.iter().copied());
        Some(
            (0..many)
                .map(|i| Sentence {
                    head: self.heads[i],
                    kind: self.kinds[i],
                    side: self.sides[i],
                    bound: self.bounds[i],
                    entries: entries.by_ref().take(self.counts[i] as usize).collect(),
                })
                .collect(),
        )
    }
}

/// 'The work area needs 4 * N + 8 * sentences + 2 * written entries words of 64 bits.' The header: 0 where a count is above its limit,
/// or N is 0.
pub fn need(atoms: u64, sentences: u64, entries: u64) -> u64 {
    if atoms == 0 || atoms > MOST_ATOMS || sentences > MOST_SENTENCES || entries > MOST_ENTRIES {
        0
    } else {
        4 * atoms + 8 * sentences + 2 * entries
    }
}

/// Whether a literal is of an atom from 1 to N: 'a literal 0 or of no atom' is not.
pub fn of_an_atom(literal: i64, atoms: u64) -> bool {
    (1..=atoms).contains(&literal.unsigned_abs())
}

/// The first of 3 to 8 that applies to a sentence, 0 where none does.
fn refusal(sentence: &Sentence, atoms: u64) -> u64 {
    let range = match sentence.kind {
        PRODUCT => 1..=WEIGHT,
        COUNT => 1..=1,
        _ => -WEIGHT..=WEIGHT,
    };
    let entries = &sentence.entries;
    let literals: std::collections::HashSet<i64> = entries.iter().map(|(_, literal)| *literal).collect();
    // 'kind above 4, side above 1, or over 1,024 entries'
    if sentence.kind > MIN || sentence.side > UPPER || entries.len() as u64 > MOST_IN_A_SENTENCE {
        3
    // 'head not 1 to N, or a literal 0 or of no atom'
    } else if sentence.head == 0 || sentence.head > atoms || literals.iter().any(|literal| !of_an_atom(*literal, atoms)) {
        4
    // 'weight or bound outside its range'
    } else if entries.iter().any(|(weight, _)| !range.contains(&(*weight as i128))) || (sentence.bound as i128).abs() > BOUND {
        5
    // 'head's atom in its own written set'
    } else if literals.iter().any(|literal| literal.unsigned_abs() == sentence.head) {
        6
    // 'both signs of an atom in a product, max or min'
    } else if ![SUM, COUNT].contains(&sentence.kind) && literals.iter().any(|literal| literals.contains(&-literal)) {
        7
    // 'product of all merged weights above 10^18'
    } else if sentence.kind == PRODUCT && entries.iter().fold(1i128, |all, (weight, _)| all.saturating_mul(*weight as i128)) > BOUND {
        8
    } else {
        0
    }
}

/// Load: 'takes 1 and 2 first, then sentence by sentence 3 to 8'; the header's 18 for the counters comes last.
pub fn load(atoms: u64, columns: &Columns, area_len: usize, next_len: usize) -> (Reply, Option<Book>) {
    let refused = |code, value| (Reply::refused(code, value), None);
    let many = columns.heads.len() as u64;
    let entries = columns.weights.len() as u64;
    // 'a count above its limit, N 0' and the columns
    let need = need(atoms, many, entries);
    let Some(sentences) = columns.sentences().filter(|_| need > 0) else {
        return refused(1, 0);
    };
    if (area_len as u64) < need {
        return refused(2, 0);
    }
    for (i, sentence) in sentences.iter().enumerate() {
        let code = refusal(sentence, atoms);
        if code > 0 {
            return refused(code, i as u64 + 1);
        }
    }
    if next_len < 2 {
        return refused(18, 2);
    }
    // 'Load leaves an empty trail at level 0 and derives nothing.'
    let book = Book { atoms, sentences: sentences.iter().map(merge).collect(), level: 0, rows: Vec::new() };
    (Reply { code: 0, value: 0, words: vec![0, 0] }, Some(book))
}

impl Book {
    pub fn written(&self) -> u64 {
        self.sentences.iter().map(|sentence| sentence.written).sum()
    }

    pub fn need(&self) -> usize {
        (4 * self.atoms + 8 * self.sentences.len() as u64 + 2 * self.written()) as usize
    }

    pub fn length(&self) -> u64 {
        self.rows.len() as u64
    }

    /// The atoms' values on the trail, atom a at index a.
    pub fn values(&self) -> Vec<Option<bool>> {
        let mut values = vec![None; self.atoms as usize + 1];
        for row in &self.rows {
            values[row.literal.unsigned_abs() as usize] = Some(row.literal > 0);
        }
        values
    }

    /// The place of each atom's row on the trail, atom a at index a.
    fn places(&self) -> Vec<Option<usize>> {
        let mut places = vec![None; self.atoms as usize + 1];
        for (i, row) in self.rows.iter().enumerate() {
            places[row.literal.unsigned_abs() as usize] = Some(i);
        }
        places
    }

    pub fn said(&self, sentence: u64) -> Said {
        direct::said(&self.sentences[sentence as usize - 1], &self.values())
    }

    /// A call with its refusals in table order; a refused call changes nothing.
    pub fn answer(&mut self, request: Request, area_len: usize, length: u64, level: u64, room: usize) -> Reply {
        // '9 just when the counters aren't the book's or the area is shorter than the book's N and sentences need'
        if length != self.length() || level != self.level || area_len < self.need() {
            return Reply::refused(9, 0);
        }
        self.request(request, room)
    }

    /// The same call, where 9 does not apply.
    pub fn request(&mut self, request: Request, room: usize) -> Reply {
        if let Some(code) = self.refuses(&request) {
            return Reply::refused(code, 0);
        }
        // 18 comes after the others: 'lent result list shorter than the result', the counters and the bounds too.
        let fixed = match request {
            Request::Give(_) | Request::Open | Request::TakeBack(_) => Some(2),
            Request::Propagate => Some(3),
            Request::Bounds(_) | Request::Search(_) => Some(4),
            _ => None,
        };
        if fixed.is_some_and(|fixed| room < fixed) {
            return Reply::refused(18, fixed.unwrap() as u64);
        }
        match request {
            Request::Give(literal) => {
                self.rows.push(Row { literal, level: self.level, reason: 0 });
                self.counters(0, &[])
            }
            Request::Open => {
                self.level += 1;
                self.counters(0, &[])
            }
            // 'remove all literals of higher levels, and the level becomes k'
            Request::TakeBack(k) => {
                self.rows.retain(|row| row.level <= k);
                self.level = k;
                self.counters(0, &[])
            }
            Request::Propagate => {
                let (put_on, conflict) = self.propagate();
                self.counters(conflict, &[put_on as i64])
            }
            Request::Search(literals) => {
                let Searched { conflict, derived, gone } = self.search(&literals);
                self.counters(conflict, &[derived as i64, gone as i64])
            }
            Request::Bounds(sentence) => {
                let (least, greatest) = self.bounds(sentence);
                let mut words = marked(least).to_vec();
                words.extend(marked(greatest));
                Reply { code: 0, value: 0, words }
            }
            Request::Explain(literal) => {
                let at = self.place(literal).unwrap();
                let mut list = vec![literal];
                list.extend(self.negated(self.rows[at].reason, at));
                listed(list, room)
            }
            Request::ExplainConflict(sentence) => listed(self.negated(sentence, self.rows.len()), room),
            Request::Origin(literal) => listed(self.origin(self.place(literal).unwrap()), room),
            Request::Trail => listed(self.rows.iter().flat_map(|row| [row.literal, row.level as i64, row.reason as i64]).collect(), room),
        }
    }

    /// The first refusal from 10 to 17 that applies, in table order.
    fn refuses(&self, request: &Request) -> Option<u64> {
        let no_atom = |literal| !of_an_atom(literal, self.atoms);
        let no_sentence = |sentence| sentence == 0 || sentence > self.sentences.len() as u64;
        match *request {
            // '10 where any literal of the list is 0 or of no atom'
            Request::Search(ref literals) if literals.iter().any(|literal| no_atom(*literal)) => Some(10),
            Request::Give(literal) if no_atom(literal) => Some(10),
            // 'atom already on the trail, either sign'
            Request::Give(literal) if self.on_the_trail(literal) => Some(11),
            Request::Explain(literal) | Request::Origin(literal) if no_atom(literal) => Some(10),
            Request::Explain(literal) | Request::Origin(literal) if self.place(literal).is_none() => Some(12),
            // 'literal was given'
            Request::Explain(literal) if self.rows[self.place(literal).unwrap()].reason == 0 => Some(13),
            Request::Open if self.level == MOST_LEVELS => Some(14),
            Request::TakeBack(k) if k > self.level => Some(15),
            Request::Bounds(sentence) | Request::ExplainConflict(sentence) if no_sentence(sentence) => Some(16),
            Request::ExplainConflict(sentence) if self.said(sentence) != Said::Conflict => Some(17),
            _ => None,
        }
    }

    fn counters(&self, value: u64, more: &[i64]) -> Reply {
        let mut words = vec![self.length() as i64, self.level as i64];
        words.extend(more);
        Reply { code: 0, value, words }
    }

    /// Whether the literal's atom is on the trail, with either sign.
    pub fn on_the_trail(&self, literal: i64) -> bool {
        self.place(literal).or(self.place(-literal)).is_some()
    }

    /// The place of a literal on the trail.
    pub fn place(&self, literal: i64) -> Option<usize> {
        self.rows.iter().position(|row| row.literal == literal)
    }

    /// The least and the greatest value 'over the full assignments agreeing with' the rows.
    pub fn bounds(&self, sentence: u64) -> direct::Range {
        direct::range(&self.sentences[sentence as usize - 1], &self.values())
    }

    /// 'Propagate repeats one step: find the lowest-numbered sentence that has something to say.' 'If no full assignment agreeing with
    /// the trail satisfies it, the answer is a conflict with its number. Otherwise its first forced open literal goes on at the current
    /// level with that sentence as reason.' Gives the number of literals put on, and the sentence in conflict or 0 for still.
    pub fn propagate(&mut self) -> (usize, u64) {
        let mut values = self.values();
        let before = self.rows.len();
        // A sentence that had nothing to say has nothing to say until a literal of one of its atoms goes on.
        let mut still = vec![false; self.sentences.len()];
        let mut i = 0;
        while i < self.sentences.len() {
            if still[i] {
                i += 1;
                continue;
            }
            match direct::said(&self.sentences[i], &values) {
                Said::Nothing => still[i] = true,
                Said::Conflict => return (self.rows.len() - before, i as u64 + 1),
                Said::Forced(literal) => {
                    let atom = literal.unsigned_abs();
                    self.rows.push(Row { literal, level: self.level, reason: i as u64 + 1 });
                    values[atom as usize] = Some(literal > 0);
                    for (other, sentence) in self.sentences.iter().enumerate() {
                        still[other] = still[other] && !sentence.mentions(atom);
                    }
                    i = 0;
                }
            }
        }
        (self.rows.len() - before, 0)
    }

    /// 'The search: propagate; from still, open a level and give the next literal of the list whose atom is open, propagate, and so on
    /// until the list is done or a conflict ends it.' 'At the highest level the loop ends', but 'literals that are already on the trail
    /// are still passed over'.
    pub fn search(&mut self, literals: &[i64]) -> Searched {
        let (derived, conflict) = self.propagate();
        let mut searched = Searched { conflict, derived, gone: 0 };
        for &literal in literals {
            if searched.conflict > 0 {
                break;
            }
            if !self.on_the_trail(literal) {
                if self.level == MOST_LEVELS {
                    break;
                }
                self.level += 1;
                self.rows.push(Row { literal, level: self.level, reason: 0 });
                let (derived, conflict) = self.propagate();
                searched.derived += derived;
                searched.conflict = conflict;
            }
            searched.gone += 1;
        }
        searched
    }

    /// 'if the head was on the trail before l, that literal negated; then, in entry order, the negation of each literal before l whose
    /// atom is in the merged set': `at` is the place of l, or the trail's length for a conflict.
    pub fn negated(&self, sentence: u64, at: usize) -> Vec<i64> {
        let places = self.places();
        self.sentences[sentence as usize - 1]
            .atoms()
            .filter_map(|atom| places[atom as usize])
            .filter(|place| *place < at)
            .map(|place| -self.rows[place].literal)
            .collect()
    }

    /// 'Origin of a given literal: itself. Of a derived one: the union of the origins of the literals negated in its explanation, in
    /// trail order, each once. It follows trail positions, which fall.' Rows are looked at from the literal's own downwards.
    pub fn origin(&self, at: usize) -> Vec<i64> {
        let places = self.places();
        let mut wanted = vec![false; at + 1];
        wanted[at] = true;
        let mut given = Vec::new();
        for i in (0..=at).rev() {
            let row = self.rows[i];
            if !wanted[i] {
                continue;
            }
            if row.reason == 0 {
                given.push(row.literal);
                continue;
            }
            for literal in self.negated(row.reason, i) {
                wanted[places[literal.unsigned_abs() as usize].unwrap()] = true;
            }
        }
        given.reverse();
        given
    }
}

/// 'an infinite one is marked so, with number 0'; the header: mark 0 a number, 1 below every number, 2 above every number.
pub fn marked(value: Value) -> [i64; 2] {
    match value {
        Value::Number(number) => [0, number as i64],
        Value::Below => [1, 0],
        Value::Above => [2, 0],
    }
}

/// 'With 0, a list call gives the list's length.' 18 comes with the needed length.
fn listed(list: Vec<i64>, room: usize) -> Reply {
    let value = list.len() as u64;
    if room < list.len() {
        Reply::refused(18, value)
    } else {
        Reply { code: 0, value, words: list }
    }
}
