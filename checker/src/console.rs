//! The console: commands line by line and the answer to each, over the checker's own book; and consoles with one fault each, with which
//! the comparison of scripts is known to find faults.

use std::collections::BTreeMap;
use std::fmt::Write;

use crate::book::{load, Book, Columns, Reply, Request};
use crate::meaning::*;
use crate::programs::Program;
use crate::reach::{self, Reach};

/// 'a line of more than 65,536 bytes answers `error LINE-NUMBER` and is passed over'
pub const LONGEST: usize = 65_536;

#[derive(Clone, Copy, PartialEq, Eq, Debug)]
pub enum Slip {
    None,
    /// An empty line between rules is passed over.
    EmptyBetweenRules,
    /// The line that broke off the rules is carried out.
    CarriesOut,
    /// The rules go on after a line that broke them off.
    GoesOnWithRules,
    /// Rules broken off take the old plan with them.
    BrokenTakesOld,
    /// A refused plan takes the old one with it.
    RefusedTakesOld,
    /// N or S outside its limits is answered after the rules.
    LimitsLate,
    /// A new plan keeps the old one's level.
    KeepsLevel,
    /// A comment breaks off the rules.
    CommentBreaksOff,
    /// 65,536 bytes are too many.
    LongestTooLong,
    /// A longer line is read up to its 65,536th byte.
    CutsLongLines,
    /// A long comment is passed over without an answer.
    LongCommentPassed,
    /// The number of the end is the last line's.
    EndNotCounted,
    /// Comments have no line number.
    CommentsNotCounted,
    /// Empty lines have no line number.
    EmptyNotCounted,
    /// A last line without LF is not read.
    LastLineLost,
    /// An unsigned number may have a `+`.
    PlusTaken,
    /// -2^63 does not fit.
    LeastRefused,
    /// 2^64 fits and is 0.
    UnsignedWraps,
    /// Numbers of more than 20 digits do not fit, whatever their value.
    ZerosRefused,
    /// A sign without digits is 0.
    SignAlone,
    /// A vertical tab is a blank.
    VerticalTab,
    /// CR is no blank but in front of LF.
    CrOnlyAtEnd,
    /// A line ends at its first zero byte.
    ZeroEnds,
    /// `#` begins a comment inside a line too.
    HashInside,
    /// Words past those of a command are passed over.
    MoreWords,
    /// A weight without a literal is passed over.
    WeightAlone,
    /// A negative head is the head of its atom.
    HeadOfAtom,
    /// Entries past 4,096 are forgotten, and the rest is loaded.
    ForgetsEntries,
    /// The entries of a plan that was broken off are counted in the next.
    CountsBroken,
    /// Infinite bounds are 0.
    InfiniteIsZero,
    /// The trail's words are counted in place of its rows.
    TrailOfWords,
    /// An empty list has a blank behind its word.
    BlankBehind,
    /// Explanations end at 1,000 literals.
    ExplanationCut,
    /// Explanations of conflicts end at 1,000 literals.
    ConflictCut,
    /// Origins end at 1,000 literals.
    OriginCut,
    /// The trail's row behind the 512th is lost.
    RowLost,
    /// An answer ends at 8,192 bytes.
    AnswerCut,
    /// The literals derived are counted modulo 613.
    CountModulo,
    /// Reading ends after so many lines.
    Outlasted,
    /// Nothing is written before the end: for a console that is typed to.
    Late,
}

/// Every slip that shows in what is printed.
pub const SLIPS: [Slip; 39] = [
    Slip::EmptyBetweenRules,
    Slip::CarriesOut,
    Slip::GoesOnWithRules,
    Slip::BrokenTakesOld,
    Slip::RefusedTakesOld,
    Slip::LimitsLate,
    Slip::KeepsLevel,
    Slip::CommentBreaksOff,
    Slip::LongestTooLong,
    Slip::CutsLongLines,
    Slip::LongCommentPassed,
    Slip::EndNotCounted,
    Slip::CommentsNotCounted,
    Slip::EmptyNotCounted,
    Slip::LastLineLost,
    Slip::PlusTaken,
    Slip::LeastRefused,
    Slip::UnsignedWraps,
    Slip::ZerosRefused,
    Slip::SignAlone,
    Slip::VerticalTab,
    Slip::CrOnlyAtEnd,
    Slip::ZeroEnds,
    Slip::HashInside,
    Slip::MoreWords,
    Slip::WeightAlone,
    Slip::HeadOfAtom,
    Slip::ForgetsEntries,
    Slip::CountsBroken,
    Slip::InfiniteIsZero,
    Slip::TrailOfWords,
    Slip::BlankBehind,
    Slip::ExplanationCut,
    Slip::ConflictCut,
    Slip::OriginCut,
    Slip::RowLost,
    Slip::AnswerCut,
    Slip::CountModulo,
    Slip::Outlasted,
];

/// How often each command had each code and each error came, and how far the answers reach.
pub struct Said {
    pub codes: BTreeMap<(&'static str, u64), u64>,
    pub reach: Reach,
}

impl Said {
    pub fn new() -> Said {
        Said { codes: BTreeMap::new(), reach: Reach::new(reach::CONSOLE) }
    }

    fn count(&mut self, name: &'static str, code: u64) {
        *self.codes.entry((name, code)).or_default() += 1;
    }

    fn add(&mut self, other: &Said) {
        for (key, many) in &other.codes {
            *self.codes.entry(*key).or_default() += many;
        }
        self.reach.add(&other.reach);
    }
}

impl Default for Said {
    fn default() -> Said {
        Said::new()
    }
}

/// A plan whose rules are awaited.
struct Plan {
    atoms: u64,
    rules: u64,
    sentences: Vec<Sentence>,
}

enum Command {
    Plan(u64, u64),
    Call(Request),
}

pub struct Console {
    pub book: Option<Book>,
    plan: Option<Plan>,
    lines: u64,
    /// Entries of plans that were broken off, for a slip.
    broken: usize,
    slip: Slip,
    pub said: Said,
}

impl Console {
    pub fn new(slip: Slip) -> Console {
        Console { book: None, plan: None, lines: 0, broken: 0, slip, said: Said::new() }
    }

    /// The rules that are still awaited.
    pub fn awaited(&self) -> u64 {
        self.plan.as_ref().map_or(0, |plan| plan.rules - plan.sentences.len() as u64)
    }

    /// What is written for a line, given without its LF.
    pub fn line(&mut self, line: &[u8]) -> String {
        self.lines += 1;
        if self.slip == Slip::Outlasted && self.lines > 65_536 {
            return String::new();
        }
        let too_long = line.len() > LONGEST || self.slip == Slip::LongestTooLong && line.len() == LONGEST;
        let line = match self.slip {
            Slip::CutsLongLines if too_long => &line[..LONGEST],
            Slip::ZeroEnds => line.split(|byte| *byte == 0).next().unwrap(),
            _ => line,
        };
        let words = self.words(line);
        // 'a line whose first word begins with `#` is a comment'
        let comment = words.first().is_some_and(|word| word[0] == b'#');
        if too_long && self.slip != Slip::CutsLongLines && !(comment && self.slip == Slip::LongCommentPassed) {
            return if self.plan.is_some() { self.broken("rules broken off by a line too long") } else { self.error("a line too long") };
        }
        self.said.reach.meet("bytes of a line", line.len() as u64);
        if comment && !(self.plan.is_some() && self.slip == Slip::CommentBreaksOff) {
            self.lines -= (self.slip == Slip::CommentsNotCounted) as u64;
            return String::new();
        }
        if let Some(plan) = &mut self.plan {
            if words.is_empty() && self.slip == Slip::EmptyBetweenRules {
                return String::new();
            }
            let Some(sentence) = self.slip.rule(&words) else {
                let by = match words.first() {
                    None => "rules broken off by an empty line",
                    Some(&b"rule") => "rules broken off by a rule misread",
                    Some(_) => "rules broken off by another line",
                };
                let mut answer = self.broken(by);
                if self.slip == Slip::CarriesOut {
                    if let Some(command) = self.slip.command(&words) {
                        answer += &self.carry_out(command);
                    }
                }
                return answer;
            };
            plan.sentences.push(sentence);
            return self.loaded();
        }
        // 'A line without words is empty'
        if words.is_empty() {
            self.lines -= (self.slip == Slip::EmptyNotCounted) as u64;
            return String::new();
        }
        match self.slip.command(&words) {
            Some(command) => self.carry_out(command),
            None => self.error("no command"),
        }
    }

    /// What is written at the end: 'The end's number is one more than the last line's.'
    pub fn end(&mut self) -> String {
        if self.plan.is_none() {
            return String::new();
        }
        self.lines += (self.slip != Slip::EndNotCounted) as u64;
        self.broken("rules broken off by the end")
    }

    /// 'Its words are its runs of bytes that are not space, tab or CR.'
    fn words<'a>(&self, line: &'a [u8]) -> Vec<&'a [u8]> {
        let mut line = line;
        if self.slip == Slip::CrOnlyAtEnd && line.ends_with(b"\r") {
            line = &line[..line.len() - 1];
        }
        let blank = |byte: &u8| match *byte {
            b' ' | b'\t' => true,
            b'\r' => self.slip != Slip::CrOnlyAtEnd,
            0x0b => self.slip == Slip::VerticalTab,
            _ => false,
        };
        let words = line.split(blank).filter(|word| !word.is_empty());
        let first = words.clone().next();
        words.take_while(|word| self.slip != Slip::HashInside || Some(*word) == first || word[0] != b'#').collect()
    }

    fn error(&mut self, what: &'static str) -> String {
        self.said.count(what, 0);
        format!("error {}\n", self.lines)
    }

    /// 'any other line or the end there answers `error LINE-NUMBER` and drops the new plan': the old one stays, and the line is not
    /// carried out.
    fn broken(&mut self, what: &'static str) -> String {
        match self.slip {
            Slip::GoesOnWithRules => (),
            _ => self.broken += self.plan.take().unwrap().sentences.iter().map(|sentence| sentence.entries.len()).sum::<usize>(),
        }
        if self.slip == Slip::BrokenTakesOld {
            self.book = None;
        }
        self.error(what)
    }

    fn carry_out(&mut self, command: Command) -> String {
        match command {
            Command::Plan(atoms, rules) => {
                // 'N or S outside its limits answers `plan 1 0` at once and expects no rules'
                if (!(1..=MOST_ATOMS).contains(&atoms) || rules > MOST_SENTENCES) && self.slip != Slip::LimitsLate {
                    return self.planned(Reply::refused(1, 0), None);
                }
                self.plan = Some(Plan { atoms, rules, sentences: Vec::new() });
                self.loaded()
            }
            Command::Call(request) => self.call(request),
        }
    }

    /// 'the answer comes after the last' rule
    fn loaded(&mut self) -> String {
        if self.awaited() > 0 {
            return String::new();
        }
        let mut plan = self.plan.take().unwrap();
        if self.slip == Slip::ForgetsEntries {
            let mut left = MOST_ENTRIES as usize;
            for sentence in &mut plan.sentences {
                sentence.entries.truncate(left);
                left -= sentence.entries.len();
            }
        }
        let columns = Columns::of(&plan.sentences);
        let (rules, entries) = (columns.heads.len() as u64, columns.weights.len() as u64);
        let (reply, book) = match self.slip {
            Slip::CountsBroken if columns.weights.len() + self.broken > MOST_ENTRIES as usize => (Reply::refused(1, 0), None),
            _ => load(plan.atoms, &columns, usize::MAX, 2),
        };
        if book.is_some() {
            self.said.reach.meet("rules", rules);
            self.said.reach.meet("entries", entries);
        }
        self.planned(reply, book)
    }

    /// '`plan` again starts a new plan; a refused plan leaves the old one'
    fn planned(&mut self, reply: Reply, mut book: Option<Book>) -> String {
        self.said.count("plan", reply.code);
        if let (Slip::KeepsLevel, Some(new), Some(old)) = (self.slip, &mut book, &self.book) {
            new.level = old.level;
        }
        if book.is_some() || self.slip == Slip::RefusedTakesOld {
            self.book = book;
        }
        self.broken = 0;
        format!("plan {} {}\n", reply.code, reply.value)
    }

    fn call(&mut self, request: Request) -> String {
        // 'before any plan every call answers 9'
        let reply = match &mut self.book {
            Some(book) => book.request(request.clone(), usize::MAX),
            None => Reply::refused(9, 0),
        };
        let reply = self.cut(&request, reply);
        let (name, word) = match request {
            Request::Give(_) => ("give", "give"),
            Request::Open => ("open", "open"),
            Request::TakeBack(_) => ("back", "back"),
            Request::Propagate => ("propagate", "still"),
            Request::Bounds(_) => ("bounds", "bounds"),
            Request::Explain(_) => ("why", "why"),
            Request::ExplainConflict(_) => ("conflict", "conflict-why"),
            Request::Origin(_) => ("origin", "origin"),
            Request::Trail => ("trail", "trail"),
            Request::Search(_) => unreachable!("the console has no search"),
        };
        self.said.count(name, reply.code);
        self.measure(&request, &reply);
        let mut answer = self.worded(&request, word, &reply);
        self.said.reach.meet("bytes of an answer", answer.len() as u64);
        if self.slip == Slip::AnswerCut {
            answer.truncate(8192);
        }
        answer
    }

    fn measure(&mut self, request: &Request, reply: &Reply) {
        if reply.code > 0 {
            return;
        }
        let (measure, value) = match request {
            Request::Open => ("levels", reply.words[1] as u64),
            Request::Propagate => ("literals derived", reply.words[2] as u64),
            Request::Explain(_) => ("literals of an explanation", reply.value),
            Request::ExplainConflict(_) => ("literals of a conflict's explanation", reply.value),
            Request::Origin(_) => ("literals of an origin", reply.value),
            Request::Trail => ("rows of a trail", reply.value / 3),
            _ => return,
        };
        self.said.reach.meet(measure, value);
    }

    /// The reply with the slip in what it lists.
    fn cut(&self, request: &Request, mut reply: Reply) -> Reply {
        match (self.slip, request) {
            (Slip::ExplanationCut, Request::Explain(_))
            | (Slip::ConflictCut, Request::ExplainConflict(_))
            | (Slip::OriginCut, Request::Origin(_)) => reply.words.truncate(1000),
            (Slip::RowLost, Request::Trail) if reply.words.len() > 3 * 512 => {
                reply.words.drain(3 * 512..3 * 513);
            }
            (Slip::CountModulo, Request::Propagate) if reply.code == 0 => reply.words[2] %= 613,
            _ => (),
        }
        reply
    }

    /// The answer's line or lines.
    fn worded(&mut self, request: &Request, word: &str, reply: &Reply) -> String {
        match request {
            Request::Give(_) | Request::Open | Request::TakeBack(_) => format!("{word} {} {}\n", reply.code, reply.value),
            _ if reply.code > 0 => format!("refused {} {}\n", reply.code, reply.value),
            Request::Propagate if reply.value > 0 => {
                self.said.count("propagate to a conflict", 0);
                format!("conflict {} {}\n", reply.words[2], reply.value)
            }
            Request::Propagate => format!("still {}\n", reply.words[2]),
            Request::Bounds(_) => {
                let bound = |mark: i64, number: i64| match mark {
                    0 => number.to_string(),
                    _ if self.slip == Slip::InfiniteIsZero => "0".into(),
                    1 => "-inf".into(),
                    _ => "inf".into(),
                };
                format!("bounds {} {}\n", bound(reply.words[0], reply.words[1]), bound(reply.words[2], reply.words[3]))
            }
            Request::Trail => {
                let mut out = String::new();
                for row in reply.words.chunks(3) {
                    writeln!(out, "t {} {} {}", row[0], row[1], row[2]).unwrap();
                }
                let many = if self.slip == Slip::TrailOfWords { reply.words.len() } else { reply.words.len() / 3 };
                out + &format!("trail {many}\n")
            }
            _ => {
                let mut out = word.to_string();
                for literal in &reply.words {
                    write!(out, " {literal}").unwrap();
                }
                if self.slip == Slip::BlankBehind && reply.words.is_empty() {
                    out.push(' ');
                }
                out + "\n"
            }
        }
    }
}

impl Slip {
    /// 'Words more or fewer than a command has: error.' A rule is none here: '`rule` outside a plan's rules: error.'
    fn command(self, words: &[&[u8]]) -> Option<Command> {
        let many = match *words.first()? {
            b"plan" => 3,
            b"open" | b"propagate" | b"trail" => 1,
            b"give" | b"back" | b"bounds" | b"why" | b"conflict" | b"origin" => 2,
            _ => return None,
        };
        if words.len() < many || words.len() > many && self != Slip::MoreWords {
            return None;
        }
        Some(match words[0] {
            b"plan" => Command::Plan(self.unsigned(words[1])?, self.unsigned(words[2])?),
            b"give" => Command::Call(Request::Give(self.signed(words[1])?)),
            b"open" => Command::Call(Request::Open),
            b"propagate" => Command::Call(Request::Propagate),
            b"back" => Command::Call(Request::TakeBack(self.unsigned(words[1])?)),
            b"bounds" => Command::Call(Request::Bounds(self.unsigned(words[1])?)),
            b"why" => Command::Call(Request::Explain(self.signed(words[1])?)),
            b"conflict" => Command::Call(Request::ExplainConflict(self.unsigned(words[1])?)),
            b"origin" => Command::Call(Request::Origin(self.signed(words[1])?)),
            _ => Command::Call(Request::Trail),
        })
    }

    /// `rule HEAD KIND SIDE BOUND W L W L ..`; 'A rule whose weights and literals do not pair: error.'
    fn rule(self, words: &[&[u8]]) -> Option<Sentence> {
        if words.len() < 5 || words[0] != b"rule" || words.len() % 2 == 0 && self != Slip::WeightAlone {
            return None;
        }
        let head = self.signed(words[1])?;
        let kinds: [&[u8]; 5] = [b"sum", b"product", b"count", b"max", b"min"];
        let kind = kinds.iter().position(|kind| *kind == words[2])? as u64;
        let side = match words[3] {
            b">=" => LOWER,
            b"<=" => UPPER,
            _ => return None,
        };
        let bound = self.signed(words[4])?;
        let numbers: Vec<i64> = words[5..].iter().map(|word| self.signed(word)).collect::<Option<_>>()?;
        let entries = numbers.chunks_exact(2).map(|pair| (pair[0], pair[1])).collect();
        // 'a negative one is handed to load as head 0'
        let head = if self == Slip::HeadOfAtom { head.unsigned_abs() } else { head.max(0) as u64 };
        Some(Sentence { head, kind, side, bound, entries })
    }

    /// 'an optional `+` or `-` and one or more digits, from -2^63 to 2^63 - 1'
    fn signed(self, word: &[u8]) -> Option<i64> {
        let (negative, digits) = match word.first()? {
            b'-' => (true, &word[1..]),
            b'+' => (false, &word[1..]),
            _ => (false, word),
        };
        let size = if digits.is_empty() && self == Slip::SignAlone { 0 } else { self.size(digits)? };
        let number = if negative { -size } else { size };
        if self == Slip::LeastRefused && number == i64::MIN as i128 {
            return None;
        }
        i64::try_from(number).ok()
    }

    /// 'one or more digits, up to 2^64 - 1'
    fn unsigned(self, word: &[u8]) -> Option<u64> {
        let word = if self == Slip::PlusTaken && word.len() > 1 && word[0] == b'+' { &word[1..] } else { word };
        match self.size(word)? {
            size if self == Slip::UnsignedWraps && size == 1 << 64 => Some(0),
            size => u64::try_from(size).ok(),
        }
    }

    /// 'Leading zeros are allowed.' What is far too large stays so.
    fn size(self, digits: &[u8]) -> Option<i128> {
        if digits.is_empty() || self == Slip::ZerosRefused && digits.len() > 20 {
            return None;
        }
        digits.iter().try_fold(0i128, |size, digit| match digit {
            b'0'..=b'9' => Some((size * 10 + (digit - b'0') as i128).min(1 << 80)),
            _ => None,
        })
    }
}

/// The lines of a script without their LF: 'A line is what stands before an LF, or before the end if it has a byte.'
pub fn lines(script: &[u8]) -> impl Iterator<Item = &[u8]> {
    script.split_inclusive(|byte| *byte == b'\n').map(|line| line.strip_suffix(b"\n").unwrap_or(line))
}

/// All that a console writes for a script; what was said is added to the tally.
pub fn answers(script: &[u8], slip: Slip, said: &mut Said) -> Vec<u8> {
    let mut console = Console::new(slip);
    let mut out = String::new();
    let whole = match slip {
        Slip::LastLineLost => script.iter().rposition(|byte| *byte == b'\n').map_or(0, |at| at + 1),
        _ => script.len(),
    };
    for line in lines(&script[..whole]) {
        out += &console.line(line);
    }
    out += &console.end();
    said.add(&console.said);
    out.into_bytes()
}

/// The checker's own console, with a slip or none.
pub struct Own(pub Slip);

impl Program for Own {
    fn print(&self, script: &[u8], _turn: usize) -> Result<Vec<u8>, String> {
        Ok(answers(script, self.0, &mut Said::new()))
    }
}
