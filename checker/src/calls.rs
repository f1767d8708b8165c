//! Lists of calls as data. Arguments may be relative to the book ('the second open atom', 'a list one too short'), so that a list keeps
//! its sense while calls are left out of it.

use std::fmt;

use crate::assignments::Said;
use crate::book::{Book, Columns, Request};

#[derive(Clone, Copy, PartialEq, Debug)]
pub enum Literal {
    Number(i64),
    /// The literal of this row, counted around.
    Row(usize),
    /// Its negation.
    NotRow(usize),
    /// The literal of this derived row.
    Derived(usize),
    /// This one of the open atoms, true or false.
    Open(usize, bool),
    /// So far above the atoms, or below their negations.
    Past(i64),
}

#[derive(Clone, Copy, PartialEq, Debug)]
pub enum Which {
    Number(u64),
    /// This sentence, counted around.
    Around(usize),
    /// The first sentence in conflict, else the first sentence.
    InConflict,
    /// So far past the last sentence.
    Past(u64),
}

#[derive(Clone, Copy, PartialEq, Debug)]
pub enum Back {
    Below(u64),
    Above(u64),
}

#[derive(Clone, PartialEq, Debug)]
pub enum Asked {
    Give(Literal),
    Open,
    TakeBack(Back),
    Propagate,
    Search(Vec<Literal>),
    Bounds(Which),
    Explain(Literal),
    ExplainConflict(Which),
    Origin(Literal),
    Trail,
}

/// How much of the area is lent.
#[derive(Clone, Copy, PartialEq, Debug)]
pub enum Lend {
    All,
    /// As many words as are needed.
    Need,
    /// So many fewer than needed.
    Short(usize),
}

#[derive(Clone, Copy, PartialEq, Debug)]
pub enum Counters {
    Right,
    Off(i64, i64),
    Exactly(u64, u64),
}

/// The room for the result.
#[derive(Clone, Copy, PartialEq, Debug)]
pub enum Room {
    Fits,
    More(usize),
    Less(usize),
}

#[derive(Clone, PartialEq, Debug)]
pub struct Act {
    pub asked: Asked,
    pub lend: Lend,
    pub counters: Counters,
    pub room: Room,
    pub null: bool,
}

impl Act {
    pub fn plain(asked: Asked) -> Act {
        Act { asked, lend: Lend::All, counters: Counters::Right, room: Room::Fits, null: false }
    }
}

#[derive(Clone, PartialEq, Debug)]
pub struct Load {
    pub atoms: u64,
    pub columns: Columns,
    /// Words of the area above the need, or below it.
    pub area: i64,
    /// The room for the counters.
    pub next: usize,
    pub null: bool,
}

#[derive(Clone, Copy, PartialEq, Debug)]
pub enum Alter {
    Add(u64),
    Flip(u32),
    Set(u64),
}

/// Another area made from the present one.
#[derive(Clone, PartialEq, Debug)]
pub enum Change {
    Words(Vec<(usize, Alter)>),
    /// The book altered, then laid out again.
    Mutant(u64),
    /// The book at this level, if its own is not higher.
    Level(u64),
    /// Words that no call made.
    Random(u64),
}

#[derive(Clone, PartialEq, Debug)]
pub enum Call {
    Need(u64, u64, u64),
    Load(Box<Load>),
    Act(Act),
    /// The calls work on a changed copy of the area, which is thrown away afterwards.
    Aside(Change, Vec<Act>),
    /// Every word of the area changed in several ways (of a large area so many words), and every kind of call on each.
    EveryWord(u64),
}

/// A list of calls; the seed fills the lent words.
#[derive(Clone, PartialEq, Debug)]
pub struct List {
    pub seed: u64,
    pub calls: Vec<Call>,
}

impl Literal {
    fn resolve(self, book: &Book) -> i64 {
        let around = |rows: Vec<i64>, i: usize| if rows.is_empty() { 1 } else { rows[i % rows.len()] };
        let rows = || book.rows.iter().map(|row| row.literal).collect::<Vec<_>>();
        match self {
            Literal::Number(literal) => literal,
            Literal::Row(i) => around(rows(), i),
            Literal::NotRow(i) => -around(rows(), i),
            Literal::Derived(i) => around(book.rows.iter().filter(|row| row.reason > 0).map(|row| row.literal).collect(), i),
            Literal::Open(i, sign) => {
                let values = book.values();
                let atom = around((1..=book.atoms as i64).filter(|atom| values[*atom as usize].is_none()).collect(), i);
                if sign {
                    atom
                } else {
                    -atom
                }
            }
            Literal::Past(far) if far < 0 => far - book.atoms as i64,
            Literal::Past(far) => book.atoms as i64 + far,
        }
    }
}

impl Which {
    fn resolve(self, book: &Book) -> u64 {
        let many = book.sentences.len() as u64;
        match self {
            Which::Number(number) => number,
            Which::Around(i) => 1 + i as u64 % many.max(1),
            Which::InConflict => (1..=many).find(|s| book.said(*s) == Said::Conflict).unwrap_or(1),
            Which::Past(far) => many + far,
        }
    }
}

impl Asked {
    pub fn resolve(&self, book: &Book) -> Request {
        match self {
            Asked::Search(literals) => Request::Search(literals.iter().map(|literal| literal.resolve(book)).collect()),
            Asked::Give(literal) => Request::Give(literal.resolve(book)),
            Asked::Open => Request::Open,
            Asked::TakeBack(Back::Below(k)) => Request::TakeBack(book.level.saturating_sub(*k)),
            Asked::TakeBack(Back::Above(k)) => Request::TakeBack(book.level.saturating_add(*k)),
            Asked::Propagate => Request::Propagate,
            Asked::Bounds(which) => Request::Bounds(which.resolve(book)),
            Asked::Explain(literal) => Request::Explain(literal.resolve(book)),
            Asked::ExplainConflict(which) => Request::ExplainConflict(which.resolve(book)),
            Asked::Origin(literal) => Request::Origin(literal.resolve(book)),
            Asked::Trail => Request::Trail,
        }
    }
}

pub fn name(request: &Request) -> &'static str {
    match request {
        Request::Give(_) => "give",
        Request::Open => "open",
        Request::TakeBack(_) => "take_back",
        Request::Propagate => "propagate",
        Request::Search(_) => "search",
        Request::Bounds(_) => "bounds",
        Request::Explain(_) => "explain",
        Request::ExplainConflict(_) => "explain_conflict",
        Request::Origin(_) => "origin",
        Request::Trail => "trail",
    }
}

impl fmt::Display for Act {
    fn fmt(&self, f: &mut fmt::Formatter) -> fmt::Result {
        write!(f, "{:?}", self.asked)?;
        let plain = Act::plain(self.asked.clone());
        if self.lend != plain.lend {
            write!(f, ", area {:?}", self.lend)?;
        }
        if self.counters != plain.counters {
            write!(f, ", counters {:?}", self.counters)?;
        }
        if self.room != plain.room {
            write!(f, ", room {:?}", self.room)?;
        }
        if self.null {
            write!(f, ", null for empty arrays")?;
        }
        Ok(())
    }
}

impl fmt::Display for Load {
    fn fmt(&self, f: &mut fmt::Formatter) -> fmt::Result {
        write!(f, "load N {}, area {:+} words, next {}", self.atoms, self.area, self.next)?;
        if self.null {
            write!(f, ", null for empty arrays")?;
        }
        let Some(sentences) = self.columns.sentences() else {
            return write!(f, "\n    {:?}", self.columns);
        };
        for (i, sentence) in sentences.iter().enumerate() {
            let kind = ["sum", "product", "count", "max", "min"].get(sentence.kind as usize).copied().unwrap_or("kind?");
            let entries: Vec<String> = sentence.entries.iter().map(|(w, l)| format!("({w},{l})")).collect();
            let entries = if entries.len() > 40 { format!("{} entries", entries.len()) } else { entries.join(",") };
            write!(
                f,
                "\n    sentence {}: head {}, kind {} {kind}, side {}, bound {}, {{{entries}}}",
                i + 1,
                sentence.head,
                sentence.kind,
                sentence.side,
                sentence.bound
            )?;
        }
        Ok(())
    }
}

impl fmt::Display for List {
    fn fmt(&self, f: &mut fmt::Formatter) -> fmt::Result {
        for call in &self.calls {
            match call {
                Call::Need(atoms, sentences, entries) => writeln!(f, "  need {atoms} {sentences} {entries}")?,
                Call::Load(load) => writeln!(f, "  {load}")?,
                Call::Act(act) => writeln!(f, "  {act}")?,
                Call::Aside(change, acts) => {
                    writeln!(f, "  on a copy, {change:?}:")?;
                    for act in acts {
                        writeln!(f, "    {act}")?;
                    }
                }
                Call::EveryWord(seed) => writeln!(f, "  every word changed, seed {seed}")?,
            }
        }
        Ok(())
    }
}
