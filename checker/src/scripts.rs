//! Scripts for the console: valid ones, ones at every limit, and damaged ones.

use crate::assignments::Said;
use crate::console::{Console, Slip, LONGEST};
use crate::generate;
use crate::meaning::*;
use crate::random::Random;
use crate::texts::Text;

const KINDS: [&str; 5] = ["sum", "product", "count", "max", "min"];

/// Lines that are no command wherever they stand, or plans outside their limits.
const ODD: &[&str] = &[
    "giv 1",
    "gives 1",
    "Give 1",
    "GIVE 1",
    "give",
    "give 1 2",
    "give one",
    "give 1.0",
    "give 0x1",
    "give 1e1",
    "give +",
    "give -",
    "give +-1",
    "give --1",
    "give 1-",
    "give 1#",
    "give 1 # a comment",
    "give #",
    "give\u{b}1",
    "give\u{c}1",
    "give\u{a0}1",
    "give 1\0",
    "give 9223372036854775808",
    "give +9223372036854775808",
    "give -9223372036854775809",
    "give 18446744073709551617",
    "give 340282366920938463463374607431768211457",
    "open 1",
    "open #",
    "propagate 0",
    "back",
    "back -0",
    "back -1",
    "back +0",
    "back 0 0",
    "back 18446744073709551616",
    "back 36893488147419103232",
    "bounds",
    "bounds +1",
    "bounds -1",
    "bounds 1 2",
    "bounds 18446744073709551617",
    "why",
    "why 1 2",
    "why x1",
    "why 9223372036854775808",
    "conflict",
    "conflict +1",
    "conflict 1 1",
    "conflict 18446744073709551616",
    "conflict-why 1",
    "origin",
    "origin 1 1",
    "origin -9223372036854775809",
    "trail 1",
    "trail;",
    "rule 1 sum >= 0",
    "rule",
    "plan",
    "plan 1",
    "plan 1 0 0",
    "plan -1 0",
    "plan +1 0",
    "plan 1 -0",
    "plan 18446744073709551616 0",
    "plan 18446744073709551617 0",
    "plan 1 18446744073709551616",
    "plan 0 18446744073709551616",
    "plan 0 0",
    "plan 0 1",
    "plan 1025 0",
    "plan 1025 2",
    "plan 1 257",
    "plan 18446744073709551615 1",
    "plan 1 18446744073709551615",
    "plan 4294967297 0",
    "plan 1 4294967296",
    "plan 0 257",
    "still 0",
    "error 1",
    "t 1 0 0",
    "quit",
    "help",
    "?",
    "\u{feff}open",
    "*",
    "0",
    "-",
];

/// Rules that are none.
const MISREAD: &[&str] = &[
    "rule",
    "rule 1",
    "rule 1 sum",
    "rule 1 sum >=",
    "rule 1 sum >= 0 1",
    "rule 1 sum >= 0 1 2 1",
    "rule 1 sum > 0",
    "rule 1 sum = 0",
    "rule 1 sum => 0",
    "rule 1 sum >=0",
    "rule 1 sum >== 0",
    "rule 1 >= sum 0",
    "rule 1 sums >= 0",
    "rule 1 su >= 0",
    "rule 1 SUM >= 0",
    "rule 1 0 >= 0",
    "rule 1 product >= x",
    "rule x count >= 0",
    "rule 1 max <= 0 1 x2",
    "rule 1 min <= 0 1",
    "rule 1 min <= 0 # 2",
    "rule 1 min <= 0 1 2 #",
    "rule 1 sum >= 9223372036854775808",
    "rule 1 sum >= -9223372036854775809",
    "rule 9223372036854775808 sum >= 0",
    "rule -9223372036854775809 sum >= 0",
    "rule 18446744073709551617 sum >= 0",
    "rule 1 sum >= 0 9223372036854775808 2",
    "rule 1 sum >= 0 1 -9223372036854775809",
    "rule 1 sum >= 0 1 18446744073709551618",
    "Rule 1 sum >= 0",
    "rules 1 sum >= 0",
    "1 sum >= 0",
];

/// What a byte is replaced by.
const CLASSES: &[u8] = b" \t\r\n#0-+>a\x00\x0b\xff";

/// Scripts that are damaged at every byte.
const DAMAGED: [&str; 2] = [
    "plan 3 1\nrule 1 sum >= 2 1 2 1 -3\ngive 1\npropagate\nwhy 2\norigin -3\ntrail\nbounds 1\n",
    "open\nplan 2 2\n# c\nrule 2 max <= +1 2 1\n#\r\nrule 1 min >= 0\t\r\n\nopen\ngive -1\nback 0\npropagate\nconflict 1\nbounds 2",
];

fn text(name: &str, bytes: impl Into<Vec<u8>>) -> Text {
    Text { name: name.to_string(), bytes: bytes.into() }
}

/// The damaged scripts, odd lines and bytes, one script for each seed from 0 on, and those at the limits, which are long: at least so
/// many in all.
pub fn scripts(many: usize) -> Vec<Text> {
    let mut all = Vec::new();
    for (i, base) in DAMAGED.iter().enumerate() {
        damage(i, base.as_bytes(), &mut all);
    }
    odd(&mut all);
    let mut limits = Vec::new();
    long_lines(&mut limits);
    plans(&mut limits);
    levels(&mut limits);
    full(&mut limits);
    rounds(&mut limits);
    let mut seed = 0;
    while all.len() + limits.len() < many {
        all.push(text(&format!("seed {seed}"), script(seed)));
        seed += 1;
    }
    all.extend(limits);
    all
}

/// The script of a seed.
pub fn script(seed: u64) -> Vec<u8> {
    let mut random = Random::new(seed);
    let damages = if seed % 3 == 2 { 1 + random.index(3) } else { 0 };
    let mut writer = Writer::new(random, seed % 4 == 1);
    writer.write(seed % 97 == 5);
    let (mut bytes, mut random) = (writer.script, writer.random);
    for _ in 0..damages {
        edit(&mut random, &mut bytes);
    }
    match random.below(12) {
        0 => bytes = bytes.split_inclusive(|byte| *byte == b'\n').flat_map(with_cr).collect(),
        1 | 2 if bytes.ends_with(b"\n") => {
            bytes.pop();
        }
        3 => bytes.truncate(random.index(bytes.len() + 1)),
        _ => (),
    }
    bytes
}

/// The line with CR LF in place of LF.
fn with_cr(line: &[u8]) -> Vec<u8> {
    match line.strip_suffix(b"\n") {
        Some(line) => [line, b"\r\n"].concat(),
        None => line.to_vec(),
    }
}

/// Writes a script with its own console beside it, so that commands have something to do with the book.
struct Writer {
    random: Random,
    /// Blanks, zeros and signs of every kind.
    wild: bool,
    script: Vec<u8>,
    console: Console,
    /// An assignment that the last plan was made for, atom a at index a.
    truth: Vec<bool>,
}

impl Writer {
    fn new(random: Random, wild: bool) -> Writer {
        Writer { random, wild, script: Vec::new(), console: Console::new(Slip::None), truth: Vec::new() }
    }

    fn line(&mut self, line: &[u8]) {
        self.script.extend(line);
        self.script.push(b'\n');
        self.console.line(line);
    }

    fn blank(&mut self) -> &'static str {
        self.random.pick(&[" ", " ", " ", "\t", "\r", "  ", " \t", "\r\r \t"])
    }

    fn words(&mut self, words: &[String]) {
        let mut line = String::new();
        for (i, word) in words.iter().enumerate() {
            if self.wild && (i > 0 || self.random.chance(4)) {
                line += self.blank();
            } else if i > 0 {
                line.push(' ');
            }
            line += word;
        }
        if self.wild && self.random.chance(4) {
            line += self.blank();
        }
        self.line(line.as_bytes());
    }

    fn zeros(&mut self) -> String {
        let many = self.random.pick(&[1, 2, 20, 40]);
        "0".repeat(if self.wild && self.random.chance(4) { many } else { 0 })
    }

    fn signed(&mut self, number: i64) -> String {
        let plus = self.wild && self.random.chance(4);
        let sign = if number < 0 || number == 0 && plus && self.random.coin() {
            "-"
        } else if plus {
            "+"
        } else {
            ""
        };
        format!("{sign}{}{}", self.zeros(), number.unsigned_abs())
    }

    fn unsigned(&mut self, number: u64) -> String {
        format!("{}{number}", self.zeros())
    }

    fn write(&mut self, large: bool) {
        if self.random.chance(3) {
            for _ in 0..self.random.index(6) {
                self.command();
            }
        }
        for _ in 0..1 + self.random.index(3) {
            self.plan(large);
            for _ in 0..self.random.index(30) {
                self.command();
            }
        }
    }

    /// A plan, at times with faults in it or broken off.
    fn plan(&mut self, large: bool) {
        let random = &mut self.random;
        let n = if large { random.pick(&[100, 1024]) } else { 1 + random.below(9) };
        let (most, entries) = if large { (30, 20) } else { (6, 5) };
        let (mut sentences, truth) = match random.below(3) {
            0 => (generate::theory(random, n, most, entries), Vec::new()),
            _ => generate::kept_theory(random, n, most, entries),
        };
        self.truth = truth;
        if self.random.chance(3) && !sentences.is_empty() {
            for _ in 0..1 + self.random.index(2) {
                let at = self.random.index(sentences.len());
                spoil(&mut self.random, n, &mut sentences[at]);
            }
        }
        let awaited = sentences.len() as u64;
        let words = ["plan".to_string(), self.unsigned(n), self.unsigned(awaited)];
        self.words(&words);
        let broken = self.random.chance(4).then(|| self.random.index(sentences.len() + 1));
        for (i, sentence) in sentences.iter().enumerate() {
            while self.random.chance(8) {
                self.comment();
            }
            if broken == Some(i) {
                self.break_off(sentence);
            }
            self.rule(sentence);
        }
    }

    fn rule(&mut self, sentence: &Sentence) {
        let head = if sentence.head == 0 {
            self.random.pick(&[0, -1, i64::MIN, i64::MIN + 1, -2])
        } else {
            i64::try_from(sentence.head).unwrap_or(i64::MAX)
        };
        let mut words = vec!["rule".to_string(), self.signed(head), KINDS[sentence.kind as usize].to_string()];
        words.push([">=", "<="][sentence.side as usize].to_string());
        words.push(self.signed(sentence.bound));
        for (weight, literal) in &sentence.entries {
            let pair = [self.signed(*weight), self.signed(*literal)];
            words.extend(pair);
        }
        self.words(&words);
    }

    fn comment(&mut self) {
        let comment = self.random.pick(&["#", "# a comment", "  # plan 1 0", "#give 1", "\t#", "\r# #", "##", "# \u{b}\0"]);
        self.line(comment.as_bytes());
    }

    fn break_off(&mut self, sentence: &Sentence) {
        match self.random.below(6) {
            0 => self.line(b""),
            1 => {
                let blanks = self.random.pick(&[" ", "\t", "\r", " \r"]);
                self.line(blanks.as_bytes());
            }
            2 => self.command(),
            3 => {
                let misread = self.random.pick(MISREAD);
                self.line(misread.as_bytes());
            }
            4 => {
                // The rule itself with a word too many, too few, or another one.
                let mut beside = Writer::new(self.random.clone(), false);
                beside.rule(sentence);
                let line = String::from_utf8(beside.script).unwrap();
                let mut words: Vec<&str> = line.split_whitespace().collect();
                let at = self.random.index(words.len());
                match self.random.below(3) {
                    0 => words.insert(at, "1"),
                    1 => {
                        words.remove(at);
                    }
                    _ => words[at] = self.random.pick(&["x", "+", "9223372036854775808", "sum", ">=", "rule", "#"]),
                }
                self.line(words.join(" ").as_bytes());
            }
            _ => {
                let odd = self.random.pick(ODD);
                self.line(odd.as_bytes());
            }
        }
    }

    fn literal(&mut self, derived: bool) -> i64 {
        let random = &mut self.random;
        let Some(book) = &self.console.book else {
            return random.pick(&[1, -1, 2, 0, 3]);
        };
        let n = book.atoms as i64;
        if random.chance(12) {
            return random.pick(&[0, n + 1, -n - 1, 1025, -1025, i64::MAX, i64::MIN, i64::MIN + 1, (1 << 32) + 1, -(1 << 32) - 1]);
        }
        let reasons: Vec<i64> = book.rows.iter().filter(|row| row.reason > 0).map(|row| row.literal).collect();
        if derived && !reasons.is_empty() && random.below(4) > 0 {
            return random.pick(&reasons);
        }
        if !book.rows.is_empty() && random.chance(if derived { 2 } else { 6 }) {
            let literal = random.pick(&book.rows).literal;
            return if random.chance(3) { -literal } else { literal };
        }
        let values = book.values();
        let open: Vec<i64> = (1..=n).filter(|atom| values[*atom as usize].is_none()).collect();
        let atom = if open.is_empty() { 1 + random.below(n as u64) as i64 } else { random.pick(&open) };
        let truth = self.truth.get(atom as usize).copied().filter(|_| random.below(4) > 0);
        if truth.unwrap_or(random.coin()) {
            atom
        } else {
            -atom
        }
    }

    fn sentence(&mut self, in_conflict: bool) -> u64 {
        let random = &mut self.random;
        let many = self.console.book.as_ref().map_or(0, |book| book.sentences.len() as u64);
        if random.chance(10) {
            return random.pick(&[0, many + 1, u64::MAX, 1 << 63, (1 << 32) + 1, 257]);
        }
        let conflict = |book: &crate::book::Book| (1..=many).find(|sentence| book.said(*sentence) == Said::Conflict);
        match self.console.book.as_ref().filter(|_| in_conflict).and_then(conflict) {
            Some(sentence) if random.below(4) > 0 => sentence,
            _ => 1 + random.below(many.max(1)),
        }
    }

    fn command(&mut self) {
        let level = self.console.book.as_ref().map_or(0, |book| book.level);
        let (word, number) = match self.random.below(40) {
            0..=9 => ("give", self.literal(false).into()),
            10..=15 => return self.words(&["propagate".to_string()]),
            16..=19 => return self.words(&["open".to_string()]),
            20..=21 => {
                let above = self.random.pick(&[level + 1, level + 1, u64::MAX, 1 << 63, 1 << 32, (1 << 32) + level]);
                let k = if self.random.chance(4) { above } else { self.random.below(level + 1) };
                ("back", k as i128)
            }
            22..=24 => ("bounds", self.sentence(false).into()),
            25..=28 => ("why", self.literal(true).into()),
            29..=30 => ("conflict", self.sentence(true).into()),
            31..=32 => ("origin", self.literal(true).into()),
            33 => return self.words(&["trail".to_string()]),
            34 => return self.comment(),
            35 => {
                let empty = self.random.pick(&["", " ", "\t", "\r", "\r\r \t"]);
                return self.line(empty.as_bytes());
            }
            36..=38 => {
                let odd = self.random.pick(ODD);
                return self.line(odd.as_bytes());
            }
            _ => {
                let misread = self.random.pick(MISREAD);
                return self.line(misread.as_bytes());
            }
        };
        let number = match word {
            "give" | "why" | "origin" => self.signed(number as i64),
            _ => self.unsigned(number as u64),
        };
        self.words(&[word.to_string(), number]);
    }
}

/// One thing wrong with a sentence, or at a limit; what comes of it, load decides.
fn spoil(random: &mut Random, n: u64, sentence: &mut Sentence) {
    let most = BOUND as i64;
    let at = random.index(sentence.entries.len());
    let any = !sentence.entries.is_empty();
    match random.below(10) {
        0 => sentence.head = random.pick(&[0, 0, n + 1, 1025, i64::MAX as u64, (1 << 32) + 1]),
        1 => sentence.bound = random.pick(&[most, -most, most + 1, -most - 1, i64::MAX, i64::MIN]),
        2 if any => sentence.entries[at].1 = random.pick(&[0, n as i64 + 1, -(n as i64) - 1, i64::MIN, i64::MAX, (1 << 32) + 1]),
        3 if any => sentence.entries[at].0 = random.pick(&[1_000_000_001, -1_000_000_001, i64::MIN, i64::MAX, 0, -1, 2, 1_000_000_000]),
        4 if any => sentence.entries[at].1 = sentence.head as i64 * random.pick(&[1, -1]),
        5 | 6 if any => {
            // Both signs, which only some kinds may have.
            let (weight, literal) = sentence.entries[at];
            sentence.kind = random.below(5);
            sentence.entries.push((weight, literal.wrapping_neg()));
        }
        7 | 8 => {
            // Products at 10^18 and above it.
            let literal = if sentence.head == 1 { 2 } else { 1 };
            sentence.kind = PRODUCT;
            sentence.entries = vec![(1_000_000_000, literal), (1_000_000_000, literal)];
            if random.below(4) > 0 {
                let more = random.pick(&[1, 2, 1_000_000_000]);
                sentence.entries.push((more, literal));
            }
        }
        9 if random.chance(4) => {
            let literal = if sentence.head == 1 { 2 } else { 1 };
            sentence.kind = SUM;
            sentence.entries.resize(random.pick(&[1023, 1024, 1025]), (1, literal));
        }
        _ => (),
    }
}

/// One damage to a script.
fn edit(random: &mut Random, bytes: &mut Vec<u8>) {
    if bytes.is_empty() {
        return;
    }
    let at = random.index(bytes.len());
    let byte = if random.coin() { random.pick(CLASSES) } else { random.below(256) as u8 };
    match random.below(8) {
        0 | 1 => bytes[at] = byte,
        2 | 3 => bytes.insert(at, byte),
        4 => {
            bytes.remove(at);
        }
        kind => {
            let mut lines: Vec<Vec<u8>> = bytes.split_inclusive(|byte| *byte == b'\n').map(<[u8]>::to_vec).collect();
            let (one, other) = (random.index(lines.len()), random.index(lines.len()));
            match kind {
                5 => lines.swap(one, other),
                6 => {
                    lines.remove(one);
                }
                _ => lines.insert(one, lines[other].clone()),
            }
            *bytes = lines.concat();
        }
    }
}

/// Every byte left out, doubled, replaced, and the script cut behind it.
fn damage(base: usize, bytes: &[u8], all: &mut Vec<Text>) {
    let mut add = |what: &str, at: usize, bytes: Vec<u8>| all.push(Text { name: format!("script {base}, byte {at} {what}"), bytes });
    for at in 0..bytes.len() {
        add("and all behind it left out", at, bytes[..at].to_vec());
        let mut other = bytes.to_vec();
        other.remove(at);
        add("left out", at, other);
        let mut other = bytes.to_vec();
        other.insert(at, bytes[at]);
        add("doubled", at, other);
        for class in 0..3 {
            let mut other = bytes.to_vec();
            other[at] = CLASSES[(at * 3 + class) % CLASSES.len()];
            add("replaced", at, other);
        }
    }
    add("not touched", 0, bytes.to_vec());
}

const PLAN: &str = "plan 3 1\nrule 1 sum >= 2 1 2 1 3\n";

/// A line of just so many bytes: the text, and blanks or zeros in it or other bytes behind it.
fn padded(form: usize, long: usize) -> Vec<u8> {
    let (before, filling, behind): (&str, u8, &str) = [
        ("give 2", b' ', ""),
        ("", b'\t', "give 3"),
        ("give ", b'0', "2"),
        ("give -", b'0', ""),
        ("give ", b'9', ""),
        ("#", b'x', ""),
        ("", b'\r', ""),
        ("", b'x', ""),
        ("# ", 0, ""),
        ("give 3", b' ', "\r"),
        ("rule 1 sum >= ", b'0', "1 1 2"),
        ("rule 1 sum >= 1 1 2", b' ', ""),
    ][form];
    let mut line = before.as_bytes().to_vec();
    line.resize(long - behind.len(), filling);
    line.extend(behind.bytes());
    line
}

/// Short scripts: ends, odd lines, rules misread, and every byte.
fn odd(all: &mut Vec<Text>) {
    all.push(text("nothing", ""));
    all.push(text("an LF", "\n"));
    all.push(text("the end at once behind a plan", "plan 1 1\n"));
    all.push(text("the end at once behind a plan without LF", "\n\nplan 1 1"));
    all.push(text("the end behind a comment", "plan 1 1\n# a comment"));
    all.push(text("odd lines before a plan", ODD.join("\n")));
    all.push(text("odd lines behind a plan", format!("{PLAN}give 1\n{}\ntrail\n", ODD.join("\n"))));
    all.push(text("misread rules without a plan", MISREAD.join("\n")));
    for (i, misread) in MISREAD.iter().enumerate() {
        let tail = "rule 1 sum >= 1 1 2\ntrail\nbounds 1\nbounds 2\ngive -1\npropagate\n";
        all.push(text(&format!("misread rule {i}"), format!("{PLAN}give 1\nplan 2 2\nrule 2 min <= 1\n{misread}\n{tail}")));
        all.push(text(&format!("misread rule {i} at the end"), format!("plan 2 1\n{misread}")));
    }
    for byte in 0..=255u8 {
        let mut bytes = PLAN.as_bytes().to_vec();
        for (before, behind) in [("give", "1"), ("", "give 2"), ("back 0", ""), ("why ", "2"), ("#", "give 3"), ("op", "en"), ("", "")] {
            bytes.extend(before.bytes());
            bytes.push(byte);
            bytes.extend(behind.bytes());
            bytes.push(b'\n');
        }
        bytes.extend(b"trail\nplan 2 1\nrule 1 sum >= 1 1");
        bytes.push(byte);
        bytes.extend(b"2\ntrail\n");
        bytes.push(byte);
        all.push(text(&format!("byte {byte}"), bytes));
    }
}

/// Lines around the longest, and around the places where a reader's pieces may end.
fn long_lines(all: &mut Vec<Text>) {
    for long in [LONGEST - 1, LONGEST, LONGEST + 1, LONGEST + 2, 2 * LONGEST, 2 * LONGEST + 1, 3 * LONGEST + 2, 300_000] {
        for form in 0..12 {
            let line = padded(form, long);
            let name = |what: &str| format!("line {form} of {long} bytes {what}");
            let join = |parts: &[&[u8]]| parts.concat();
            all.push(text(&name("among commands"), join(&[PLAN.as_bytes(), b"give 1\n", &line, b"\ntrail\nx\n"])));
            let plans =
                join(&[PLAN.as_bytes(), b"give 1\nplan 2 2\nrule 2 min >= 0\n", &line, b"\nrule 1 sum >= 1 1 2\ntrail\nbounds 2\n"]);
            all.push(text(&name("among rules"), plans));
            if form % 3 == 1 || long <= LONGEST + 1 {
                all.push(text(&name("at the end"), join(&[PLAN.as_bytes(), &line])));
                all.push(text(&name("twice"), join(&[PLAN.as_bytes(), &line, b"\n", &line, b"\ngive 1"])));
            }
        }
    }
    for long in [511, 512, 1023, 1024, 2047, 4093, 4094, 4095, 4096, 4097, 8191, 8192, 16_383, 32_767, 65_529, 65_530, 65_531, 65_535] {
        for more in 0..4 {
            let comment = format!("#{}", "c".repeat(long - 1 + more));
            all.push(text(&format!("commands behind {} bytes", long + more), format!("{comment}\n{PLAN}give 1\ngive 2\r\n\ntrail")));
        }
    }
}

/// Entries and sentences at the limits and past them.
fn plans(all: &mut Vec<Text>) {
    let pairs = |many: usize| " 1 2".repeat(many);
    let asks = "bounds 1\nbounds 256\ngive 1\npropagate\ntrail\n";
    for (sentences, each) in
        [(256, 16), (256, 17), (4, 1024), (5, 1024), (4, 1025), (1, 1024), (1, 1025), (3, 16_000), (1, 16_380), (20, 10_000)]
    {
        let mut plan = format!("{PLAN}give 3\nplan 1024 {sentences}\n");
        for _ in 0..sentences {
            plan += &format!("rule 1 sum >= 3{}\n", pairs(each));
        }
        all.push(text(&format!("{sentences} rules of {each} entries"), plan.clone() + asks));
        // What comes behind such a plan is not touched by it, also where the rules were broken off.
        all.push(text("a plan behind it", format!("{plan}plan 5 2\nrule 1 max <= 3{}\nrule 5 count >= 1{}\n{asks}", pairs(3), pairs(2))));
        let cut = plan.trim_end().rfind('\n').unwrap();
        let rule = format!("rule 1 sum >= 3{}", pairs(1000));
        let again = format!("plan 9 4\n{rule}\n{rule}\n{rule}\n{rule}\n{asks}");
        all.push(text("a plan behind it broken off", format!("{}\n\n{again}", &plan[..cut])));
    }
    // One entry past the limit, with other things wrong: load's 1 comes first.
    for wrong in ["rule 0 sum >= 0", "rule -1 sum >= 0", "rule 1 count >= 0 2 1", "rule 1 sum >= 9223372036854775807 1 1"] {
        for many in [4094, 4095, 4096, 4097] {
            let fill: String = (0..4).map(|i| format!("rule 1 sum >= 0{}\n", pairs(many / 4 + (i < many % 4) as usize))).collect();
            all.push(text("entries at the limit and a rule refused", format!("{PLAN}plan 2 5\n{wrong}\n{fill}trail\nbounds 1\n")));
            all.push(text("entries at the limit, then a rule refused", format!("{PLAN}plan 2 5\n{fill}{wrong}\ntrail\nbounds 1\n")));
        }
    }
    for atoms in ["0", "1", "1023", "1024", "1025", "01024", "18446744073709551615", "18446744073709551616"] {
        for many in ["0", "1", "256", "257", "18446744073709551615", "18446744073709551616"] {
            let rules = "rule 1 sum >= 0\n".repeat(many.parse().unwrap_or(2).min(257));
            let plan = format!("plan {atoms} {many}\n{rules}open\ntrail\nbounds 256\ngive 1024\ngive -1025\nplan {atoms} {many}\n");
            all.push(text(&format!("plan {atoms} {many}"), plan.clone()));
            all.push(text(&format!("plan {atoms} {many} behind a plan"), format!("{PLAN}give 1\n{plan}")));
        }
    }
}

/// All levels opened, with a literal at each, and taken back; long lists.
fn levels(all: &mut Vec<Text>) {
    let pairs: String = (2..=1024).map(|atom| format!(" 1 {atom}")).collect();
    let mut script = format!("plan 1024 2\nrule 1 sum >= 1023{pairs}\nrule 2 count <= 3 1 3 1 4\n");
    for atom in 1..=1024 {
        script += &format!("open\ngive {}\n", if atom == 1 { -1 } else { atom });
    }
    script += "open\ngive 1\nopen\ntrail\nconflict 1\npropagate\nconflict 1\nback 1025\nback 1024\nback 1023\nopen\nback 2\ntrail\nopen\n";
    all.push(text("all levels", script));
    let mut script =
        format!("plan 1024 1\nrule 1 sum >= 1023{pairs}\ngive 1\npropagate\nwhy 1024\nwhy 2\norigin 1024\ntrail\nbounds 1\nback 0\n");
    script += "propagate\nplan 1024 1\n";
    script += &format!("rule 1 sum >= 1023{pairs}\ngive -2\nbounds 1\n");
    for atom in 3..=1024 {
        script += &format!("give {atom}\n");
    }
    script += "propagate\nwhy -1\norigin -1\nconflict 1\ntrail\n";
    all.push(text("long lists", script));
}

/// As many rules and entries as there may be, each rule forcing three atoms at a level of its own, until every atom is on the trail.
fn full(all: &mut Vec<Text>) {
    let mut script = String::from("plan 1024 256\n");
    for rule in 0..256 {
        script += &format!("rule {} sum >= 0", 769 + rule);
        for i in 0..16 {
            // The own atoms first, then earlier ones, which are false, and in the first rules the own ones again.
            let atom = 3 * rule + 1 + i % 3;
            script += &if i < 3 || rule < 5 { format!(" -1 {atom}") } else { format!(" 1 {}", atom - i) };
        }
        script += "\n";
    }
    for rule in 0..256 {
        script += &format!("open\ngive {}\npropagate\n", 769 + rule);
    }
    script += "trail\nwhy -768\norigin -768\norigin -700\nbounds 256\nopen\npropagate\nback 100\ntrail\npropagate\n";
    all.push(text("a full plan", script));
}

/// Forty thousand gives and take-backs.
fn rounds(all: &mut Vec<Text>) {
    let mut script = String::from("plan 4 2\nrule 1 sum >= 2 1 2 1 3\nrule 4 max >= 1 1 -1 1 3\n");
    for round in 0..40_000 {
        script += ["open\ngive 1\nback 0\n", "open\ngive -2\npropagate\nback 0\n", "open\ngive 3\nback 0\n# round\n"][round % 3];
        if round % 1000 == 999 {
            script += "trail\nbounds 1\nx\n";
        }
    }
    script += "give 1\npropagate\ntrail\n";
    all.push(text("forty thousand gives and take-backs", script));
}
