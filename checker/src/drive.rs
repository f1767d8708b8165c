//! Runs lists of calls on a library and on the book side by side, and compares the code, what comes with it, the result, and every lent
//! word: a refused call changes none, reports change none of the area, words past the result and past the need keep their contents.

use std::collections::BTreeMap;

use crate::book::{load, need, Book, Reply, Request};
use crate::calls::*;
use crate::library::Library;
use crate::meaning::MOST_LEVELS;
use crate::mutate::{altered, any_alter, changed};
use crate::random::Random;
use crate::reach::{self, Reach};
use crate::whole;

/// Words in front of every lent array and behind it, which nobody may touch.
const FENCE: usize = 2;

/// A lent array between its fences.
struct Lent<T> {
    buffer: Vec<T>,
}

impl<T: Copy> Lent<T> {
    fn new(contents: &[T], fence: T) -> Lent<T> {
        let mut buffer = vec![fence; FENCE];
        buffer.extend_from_slice(contents);
        buffer.extend([fence; FENCE]);
        Lent { buffer }
    }

    fn len(&self) -> usize {
        self.buffer.len() - 2 * FENCE
    }

    fn words(&self) -> &[T] {
        &self.buffer[FENCE..FENCE + self.len()]
    }

    fn lend(&mut self, many: usize) -> &mut [T] {
        &mut self.buffer[FENCE..FENCE + many]
    }
}

const AREA_FENCE: u64 = 0xfe0c_e5fe_0ce5_fe0c;
const RESULT_FENCE: i64 = -0x7e0c_e5fe_0ce5_fe0c;

/// How often each call had each code, and each way of not being whole was met; how far the calls reach.
pub struct Tally {
    pub codes: BTreeMap<(&'static str, u64), u64>,
    pub broken: BTreeMap<&'static str, u64>,
    pub whole: u64,
    pub calls: u64,
    /// Literals that propagate put on, and conflicts.
    pub derived: u64,
    pub conflicts: u64,
    pub reach: Reach,
}

impl Default for Tally {
    fn default() -> Tally {
        let reach = Reach::new(reach::CALLS);
        Tally { codes: BTreeMap::new(), broken: BTreeMap::new(), whole: 0, calls: 0, derived: 0, conflicts: 0, reach }
    }
}

/// The ways in which a search can go and end.
pub const SEARCHES: [&str; 8] = [
    "search to a conflict at once",
    "search to a conflict",
    "search to a conflict with literals behind",
    "search through its list",
    "search with literals tried and passed over",
    "search ended by the highest level",
    "search past literals at the highest level",
    "search past literals to one at the highest level",
];

impl Tally {
    fn count(&mut self, name: &'static str, code: u64) {
        self.calls += 1;
        *self.codes.entry((name, code)).or_default() += 1;
    }

    pub fn add(&mut self, other: &Tally) {
        for (key, many) in &other.codes {
            *self.codes.entry(*key).or_default() += many;
        }
        for (key, many) in &other.broken {
            *self.broken.entry(key).or_default() += many;
        }
        self.whole += other.whole;
        self.calls += other.calls;
        self.derived += other.derived;
        self.conflicts += other.conflicts;
        self.reach.add(&other.reach);
    }

    /// A call with code 0.
    fn passed(&mut self, request: &Request, reply: &Reply, before: &Book, after: &Book) {
        self.reach.meet("rows", after.length());
        self.reach.meet("levels", after.level);
        match request {
            Request::Propagate => {
                self.derived += reply.words[2] as u64;
                self.conflicts += (reply.value > 0) as u64;
                self.reach.meet("literals derived by a propagate", reply.words[2] as u64);
            }
            Request::Search(literals) => self.searched(literals, reply, before, after),
            Request::Explain(_) => self.reach.meet("literals of an explanation", reply.value),
            Request::ExplainConflict(_) => self.reach.meet("literals of a conflict's explanation", reply.value),
            Request::Origin(_) => self.reach.meet("literals of an origin", reply.value),
            _ => (),
        }
    }

    fn searched(&mut self, literals: &[i64], reply: &Reply, before: &Book, after: &Book) {
        let (gone, tried) = (reply.words[3] as usize, after.level - before.level);
        self.reach.meet("literals derived by a search", reply.words[2] as u64);
        self.reach.meet("literals of a search's list", literals.len() as u64);
        self.reach.meet("literals gone through by a search", gone as u64);
        self.reach.meet("literals tried by a search", tried);
        let last_tried = after.rows.iter().rev().find(|row| row.reason == 0 && row.level > before.level);
        let last_passed = gone > 0 && last_tried.map(|row| row.literal) != Some(literals[gone - 1]);
        let highest = reply.value == 0 && after.level == MOST_LEVELS;
        let ways = [
            reply.value > 0 && gone == 0,
            reply.value > 0 && gone > 0,
            reply.value > 0 && gone < literals.len(),
            reply.value == 0 && gone == literals.len(),
            tried > 0 && gone as u64 > tried,
            highest && gone < literals.len(),
            highest && last_passed,
            highest && last_passed && gone < literals.len(),
        ];
        for (way, _) in SEARCHES.iter().zip(ways).filter(|(_, so)| *so) {
            *self.codes.entry((way, 0)).or_default() += 1;
        }
    }
}

/// A difference: the call that met it, what it was, and a single call that stands for it where the call is a series of its own.
pub struct Difference {
    pub at: usize,
    pub what: String,
    pub instead: Option<Call>,
}

/// What a lent array holds before a call.
fn filler(seed: u64, many: usize) -> Vec<u64> {
    let mut random = Random::new(seed ^ 0xf111);
    (0..many).map(|_| random.word()).collect()
}

struct Drive<'a> {
    library: &'a dyn Library,
    tally: Tally,
    seed: u64,
}

pub fn run(library: &dyn Library, list: &List) -> Result<Tally, Difference> {
    let mut drive = Drive { library, tally: Tally::default(), seed: list.seed };
    let mut area = Lent::new(&filler(list.seed, 64), AREA_FENCE);
    let mut book: Option<Book> = None;
    for (at, call) in list.calls.iter().enumerate() {
        let mut instead = None;
        drive.step(&mut area, &mut book, call, &mut instead).map_err(|what| Difference { at, what, instead })?;
    }
    Ok(drive.tally)
}

/// A book with nothing in it, to resolve arguments by where there is no book.
fn nothing() -> Book {
    Book { atoms: 3, sentences: Vec::new(), level: 0, rows: Vec::new() }
}

impl Drive<'_> {
    fn step(&mut self, area: &mut Lent<u64>, book: &mut Option<Book>, call: &Call, instead: &mut Option<Call>) -> Result<(), String> {
        match call {
            Call::Need(atoms, sentences, entries) => {
                self.tally.count("need", 0);
                same("need", self.library.need(*atoms, *sentences, *entries), need(*atoms, *sentences, *entries))
            }
            Call::Load(load) => self.load(area, book, load),
            Call::Act(act) => {
                let state = book.clone().or_else(|| self.state(area));
                if let Some(new) = self.act(area, state.as_ref(), &state.clone().unwrap_or_else(nothing), act)? {
                    *book = Some(new);
                    self.probe(area, book.as_ref().unwrap())?;
                }
                Ok(())
            }
            Call::Aside(change, acts) => {
                let main = book.clone().unwrap_or_else(nothing);
                let mut copy = Lent::new(&changed(area.words(), &main, change), AREA_FENCE);
                let mut state = self.state(&copy);
                for act in acts {
                    if let Some(new) = self.act(&mut copy, state.as_ref(), state.as_ref().unwrap_or(&main), act)? {
                        state = Some(new);
                    }
                }
                Ok(())
            }
            Call::EveryWord(seed) => match book {
                Some(book) => self.every_word(area, book, *seed, instead),
                None => Ok(()),
            },
        }
    }

    /// What an area holds, by its own counters, if it is whole.
    fn state(&mut self, area: &Lent<u64>) -> Option<Book> {
        let (length, level) = whole::counters(area.words());
        match whole::read(area.words(), length, level) {
            Ok(book) => {
                self.tally.whole += 1;
                Some(book)
            }
            Err(why) => {
                *self.tally.broken.entry(why).or_default() += 1;
                None
            }
        }
    }

    fn load(&mut self, area: &mut Lent<u64>, book: &mut Option<Book>, call: &Load) -> Result<(), String> {
        let columns = &call.columns;
        let need = need(call.atoms, columns.heads.len() as u64, columns.weights.len() as u64) as i64;
        let many = (need + call.area).max(0) as usize;
        // A longer area is lent for a larger theory: the words of the present one, and more behind them.
        let mut words = area.words().to_vec();
        if words.len() < many {
            words.extend(filler(self.seed, many + 8).split_off(words.len()));
        }
        let mut lent = Lent::new(&words, AREA_FENCE);
        let before = lent.buffer.clone();
        let mut next = self.result(call.next);
        let next_before = next.buffer.clone();
        let (reply, loaded) = load(call.atoms, columns, many, call.next);
        let handed = columns.clone();
        let answer = self.library.load(lent.lend(many), call.atoms, &handed, next.lend(call.next), call.null);
        self.tally.count("load", reply.code);
        same("load", answer, reply.number())?;
        if handed != *columns {
            return Err("load changed a column".into());
        }
        self.result_is(&reply, &next, next_before)?;
        match loaded {
            None => unchanged(&lent, &before)?,
            Some(new) => {
                self.tally.reach.meet("sentences loaded", columns.heads.len() as u64);
                self.tally.reach.meet("entries loaded", columns.weights.len() as u64);
                self.holds(&lent, &before, &new)?;
                // What is past the lent words is not the area's any more.
                *area = Lent::new(&lent.words()[..many], AREA_FENCE);
                self.probe(area, &new)?;
                *book = Some(new);
            }
        }
        Ok(())
    }

    fn result(&self, room: usize) -> Lent<i64> {
        let words: Vec<i64> = filler(self.seed ^ 0x2e5, room).into_iter().map(|word| word as i64).collect();
        Lent::new(&words, RESULT_FENCE)
    }

    /// The result's words are the reply's, and the others as before.
    fn result_is(&self, reply: &Reply, result: &Lent<i64>, before: Vec<i64>) -> Result<(), String> {
        let mut expected = before;
        expected[FENCE..FENCE + reply.words.len()].copy_from_slice(&reply.words);
        if result.buffer == expected {
            return Ok(());
        }
        let at = (0..expected.len()).find(|i| result.buffer[*i] != expected[*i]).unwrap();
        let where_ = at as i64 - FENCE as i64;
        let (front, back) = (&reply.words, &result.buffer[FENCE..]);
        Err(format!(
            "result word {where_} of {}: {}, expected {}; result {:?}, expected {:?}",
            result.len(),
            result.buffer[at],
            expected[at],
            &back[..front.len().min(60)],
            &front[..front.len().min(60)],
        ))
    }

    /// The area holds the book, its pending marks such that it is whole, and every other lent word is as before.
    fn holds(&self, area: &Lent<u64>, before: &[u64], book: &Book) -> Result<(), String> {
        let need = book.need();
        let marks = whole::marks(area.words(), book.atoms, book.sentences.len());
        let mut expected = before.to_vec();
        expected[FENCE..FENCE + need].copy_from_slice(&whole::lay(book, &marks));
        unchanged(area, &expected)?;
        match whole::silent_without_mark(book, &marks) {
            None => Ok(()),
            Some(sentence) => Err(format!("sentence {sentence} has something to say and is not pending")),
        }
    }

    /// One call. `state` is what the area holds, if it is whole; `hint` resolves the arguments. Gives the new book of a call that steps.
    fn act(&mut self, area: &mut Lent<u64>, state: Option<&Book>, hint: &Book, act: &Act) -> Result<Option<Book>, String> {
        let request = act.asked.resolve(hint);
        let many = match act.lend {
            Lend::All => area.len(),
            Lend::Need => hint.need().min(area.len()),
            Lend::Short(k) => hint.need().saturating_sub(1 + k).min(area.len()),
        };
        let (length, level) = match state {
            Some(book) => (book.length(), book.level),
            None => whole::counters(area.words()),
        };
        let (length, level) = match act.counters {
            Counters::Right => (length, level),
            Counters::Off(a, b) => (length.wrapping_add(a as u64), level.wrapping_add(b as u64)),
            Counters::Exactly(a, b) => (a, b),
        };
        let answer = |room: usize| -> (Reply, Option<Book>) {
            match state {
                None => (Reply::refused(9, 0), None),
                Some(book) => {
                    let mut new = book.clone();
                    let reply = new.answer(request.clone(), many, length, level, room);
                    (reply, Some(new))
                }
            }
        };
        let (unbounded, new) = answer(usize::MAX);
        let fits = if unbounded.code == 0 { unbounded.words.len() } else { 4 };
        let room = match act.room {
            Room::Fits => fits,
            Room::More(k) => fits + k,
            Room::Less(k) => fits.saturating_sub(k),
        };
        let (reply, new) = if unbounded.code == 0 && room < fits { answer(room) } else { (unbounded, new) };
        let before = area.buffer.clone();
        let mut result = self.result(room);
        let result_before = result.buffer.clone();
        let given = self.library.call(&request, area.lend(many), length, level, result.lend(room), act.null);
        self.tally.count(name(&request), reply.code);
        let called = || format!("{request:?} on {many} words, counters {length} and {level}, room {room}");
        same(name(&request), given, reply.number()).map_err(|what| format!("{}: {what}", called()))?;
        self.result_is(&reply, &result, result_before).map_err(|what| format!("{}: {what}", called()))?;
        if reply.code == 0 {
            self.tally.passed(&request, &reply, state.unwrap(), new.as_ref().unwrap());
        }
        if reply.code > 0 || request.reports() {
            unchanged(area, &before).map_err(|what| format!("{}: {what}", called()))?;
            return Ok(None);
        }
        let new = new.unwrap();
        self.holds(area, &before, &new).map_err(|what| format!("{}: {what}", called()))?;
        Ok(Some(new))
    }

    /// The trail and the bounds by the calls themselves.
    fn probe(&mut self, area: &mut Lent<u64>, book: &Book) -> Result<(), String> {
        self.act(area, Some(book), book, &Act::plain(Asked::Trail))?;
        let many = book.sentences.len();
        let some = if area.len() > 2000 { 2 } else { 6 };
        for i in 0..many.min(some) {
            let which = if many <= some { i } else { (self.tally.calls as usize * 7 + i) % many };
            self.act(area, Some(book), book, &Act::plain(Asked::Bounds(Which::Around(which))))?;
        }
        Ok(())
    }

    /// Every word changed in five ways, and every kind of call on each area that comes out; of large areas some of the words.
    fn every_word(&mut self, area: &Lent<u64>, book: &Book, seed: u64, instead: &mut Option<Call>) -> Result<(), String> {
        let mut random = Random::new(seed);
        let words = area.words().to_vec();
        let step = 1 + words.len() / 300;
        let mut at = random.index(step);
        while at < words.len() {
            let mut alters = vec![Alter::Add(1), Alter::Add(u64::MAX), Alter::Flip(random.below(64) as u32), Alter::Set(random.word())];
            alters.push(any_alter(&words, at, &mut random));
            for alter in alters {
                let word = altered(words[at], alter);
                if word == words[at] {
                    continue;
                }
                let mut copy = Lent::new(&words, AREA_FENCE);
                copy.lend(at + 1)[at] = word;
                let state = self.state(&copy);
                for asked in every_kind(&mut random) {
                    let mut act = Act::plain(asked);
                    if at == 0 && random.coin() {
                        act.counters = Counters::Exactly(book.length(), book.level);
                    }
                    let mut own = Lent { buffer: copy.buffer.clone() };
                    if let Err(what) = self.act(&mut own, state.as_ref(), state.as_ref().unwrap_or(book), &act) {
                        *instead = Some(Call::Aside(Change::Words(vec![(at, alter)]), vec![act]));
                        return Err(what);
                    }
                }
            }
            at += step;
        }
        Ok(())
    }
}

/// A call of every kind.
pub fn every_kind(random: &mut Random) -> Vec<Asked> {
    let i = random.index(64);
    vec![
        Asked::Give(Literal::Open(i, random.coin())),
        Asked::Open,
        Asked::TakeBack(Back::Below(random.below(3))),
        Asked::Propagate,
        Asked::Search(vec![Literal::Open(i, random.coin()), Literal::Row(i), Literal::Open(i + 1, random.coin())]),
        Asked::Bounds(Which::Around(i)),
        Asked::Explain(Literal::Derived(i)),
        Asked::ExplainConflict(Which::InConflict),
        Asked::Origin(Literal::Row(i)),
        Asked::Trail,
    ]
}

fn same(call: &str, given: u64, expected: u64) -> Result<(), String> {
    if given == expected {
        return Ok(());
    }
    let parts = |number: u64| format!("code {} with {}", number & 255, number >> 8);
    Err(format!("{call} gave {}, expected {}", parts(given), parts(expected)))
}

fn unchanged(area: &Lent<u64>, expected: &[u64]) -> Result<(), String> {
    if area.buffer == expected {
        return Ok(());
    }
    let at = (0..expected.len()).find(|i| area.buffer[*i] != expected[*i]).unwrap();
    Err(format!("area word {}: {:#x}, expected {:#x}", at as i64 - FENCE as i64, area.buffer[at], expected[at]))
}
