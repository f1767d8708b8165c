//! OPB texts that come up to the limits, and mostly to several at once: trails of 1,024 rows with over 1,000 literals derived, 256
//! sentences with 4,096 entries, bounds of 13 digits, listings of over 20,000 bytes, texts of 65,536 bytes.

use crate::meaning::{MOST_ATOMS, MOST_ENTRIES, MOST_IN_A_SENTENCE};
use crate::opb::MOST_BYTES;
use crate::random::Random;
use crate::texts::{first_line, Text};

/// Texts of random shape, beside those of a shape of their own.
const RANDOM: usize = 24;

#[derive(Clone, Copy, PartialEq, Debug)]
enum Weights {
    One,
    Small,
    Billion,
    /// Rows and sums of many bytes: variables are derived false but for the first constraint's, of which one has all other weights.
    Wide,
}

#[derive(Clone, Copy, PartialEq, Debug)]
enum End {
    /// Every variable is derived.
    Still,
    /// The last constraint is in conflict when every variable was derived.
    Conflict,
    /// Some right sides leave room, so that variables stay open.
    Open,
}

#[derive(Clone, Copy, Debug)]
struct Shape {
    constraints: u64,
    /// This many of them, the first ones, are `=`.
    equal: u64,
    /// Entries in all, if they fit.
    entries: u64,
    weights: Weights,
    end: End,
    /// The constraints in an order other than that in which they derive.
    mixed: bool,
    /// The text is filled up to so many bytes.
    bytes: usize,
}

struct Constraint {
    terms: Vec<(i64, usize)>,
    equal: bool,
    right: i64,
}

pub fn texts(random: &mut Random) -> Vec<Text> {
    let mut all = Vec::new();
    let mut push = |name: String, bytes: Vec<u8>| all.push(Text { name, bytes });
    let every = |weight: &str, v: u64| (1..=v).map(|i| format!("{weight} x{i} ")).collect::<String>();
    for (v, right) in [(1000, 1000), (1023, 1023), (1023, 1022)] {
        push(format!("{v} variables, at least {right}"), format!("{}{}>= {right} ;\n", first_line(v, 1), every("+1", v)).into_bytes());
    }
    // The widest sums: 1,024 entries, of which the last has its variable again.
    for (weight, rights) in [("+1000000000", [">= 1024000000000", ">= 1", "= 0"]), ("-1000000000", ["= -1024000000000", ">= -1", ">= 0"])] {
        for right in rights {
            let set = every(weight, 1023) + weight + " x1023";
            push(format!("1,024 times {weight}, {right}"), format!("{}{set} {right} ;\n", first_line(1023, 1)).into_bytes());
        }
    }
    for shape in shapes(random) {
        push(format!("largest text of {shape:?}"), text(random, shape));
    }
    all
}

fn shapes(random: &mut Random) -> Vec<Shape> {
    let most = Shape {
        constraints: 256,
        equal: 0,
        entries: MOST_ENTRIES,
        weights: Weights::Small,
        end: End::Still,
        mixed: false,
        bytes: MOST_BYTES,
    };
    let mut shapes = Vec::new();
    for end in [End::Still, End::Conflict, End::Open] {
        // All sentences, entries and bytes; the largest listing.
        shapes.push(Shape { end, ..most });
        shapes.push(Shape { end, constraints: 128, equal: 128, mixed: true, ..most });
        shapes.push(Shape { end, weights: Weights::Billion, entries: 3400, ..most });
        shapes.push(Shape { end, weights: Weights::Billion, constraints: 128, equal: 128, mixed: true, ..most });
        // The longest sets, with the widest sums.
        shapes.push(Shape { end, constraints: 3, entries: 3072, weights: Weights::Billion, ..most });
        shapes.push(Shape { end, constraints: 2, equal: 1, weights: Weights::Billion, bytes: 0, ..most });
        shapes.push(Shape { end, constraints: 4, ..most });
        shapes.push(Shape { end, weights: Weights::Wide, ..most });
        shapes.push(Shape { end, weights: Weights::Wide, constraints: 128, equal: 128, mixed: true, ..most });
    }
    for bytes in [MOST_BYTES - 1, MOST_BYTES + 1, MOST_BYTES + 2] {
        shapes.push(Shape { bytes, ..most });
    }
    for _ in 0..RANDOM {
        let constraints = random.pick(&[1, 2, 3, 4, 10, 40, 128, 200, 256]);
        let equal = random.pick(&[0, 0, 1, constraints / 2, constraints]).min(256 - constraints).min(constraints);
        shapes.push(Shape {
            constraints,
            equal,
            entries: random.pick(&[0, 2000, 3400, 4095, 4096]),
            weights: random.pick(&[Weights::One, Weights::Small, Weights::Billion]),
            end: random.pick(&[End::Still, End::Conflict, End::Open]),
            mixed: random.coin(),
            bytes: random.pick(&[0, 0, 20_000, MOST_BYTES - 1, MOST_BYTES]),
        });
    }
    shapes
}

fn text(random: &mut Random, shape: Shape) -> Vec<u8> {
    let mut constraints = constraints(random, shape);
    if shape.mixed {
        // The last one stays: a conflict is told there when all else was derived.
        for i in (1..constraints.len().saturating_sub(1)).rev() {
            let other = random.index(i + 1);
            constraints.swap(i, other);
        }
    }
    let mut text = first_line(MOST_ATOMS - shape.constraints, shape.constraints);
    for constraint in &constraints {
        for (weight, variable) in &constraint.terms {
            text += &format!("{weight:+} x{variable} ");
        }
        text += &format!("{} {} ;\n", if constraint.equal { "=" } else { ">=" }, constraint.right);
    }
    filled(random, text.into_bytes(), shape.bytes)
}

/// Constraints in the making: each forces the variables of a part of its own, once those of the parts before are on the trail.
struct Making<'a> {
    random: &'a mut Random,
    shape: Shape,
    truth: Vec<bool>,
    /// The variables of the parts before.
    known: Vec<usize>,
}

fn constraints(random: &mut Random, shape: Shape) -> Vec<Constraint> {
    let v = (MOST_ATOMS - shape.constraints) as usize;
    let mut variables: Vec<usize> = (1..=v).collect();
    match random.below(3) {
        _ if shape.weights == Weights::Wide => (),
        0 => variables.reverse(),
        1 => (1..v).rev().for_each(|i| variables.swap(i, random.index(i + 1))),
        _ => (),
    }
    // A conflict's constraint has no part.
    let parts = if shape.end == End::Conflict && shape.constraints > 1 { shape.constraints - 1 } else { shape.constraints };
    let copies = |i: u64| if i < shape.equal { 2 } else { 1 };
    let size = |i: u64| if i < parts { (v as u64 + i) / parts } else { 0 };
    let mut left = shape.entries.saturating_sub((0..parts).map(|i| copies(i) * size(i)).sum());
    let mut making = Making { random, shape, truth: vec![false; v + 1], known: Vec::new() };
    let mut all = Vec::new();
    for i in 0..shape.constraints {
        let own: Vec<usize> = variables.drain(..size(i) as usize).collect();
        // An even share of the entries that the parts leave.
        let more = (left / copies(i) / (shape.constraints - i)).min(MOST_IN_A_SENTENCE - size(i));
        left -= copies(i) * more;
        all.push(making.constraint(i, own, more));
    }
    all
}

impl Making<'_> {
    /// The right side is the greatest sum, or for the upper side of `=` the least, that the variables before leave the own ones.
    fn constraint(&mut self, i: u64, own: Vec<usize>, more: u64) -> Constraint {
        let equal = i < self.shape.equal;
        let upper = equal && self.random.coin();
        let mut terms = Vec::new();
        for variable in &own {
            let weight = match self.shape.weights {
                Weights::Wide if (i == 0) == upper => -1,
                Weights::Wide => 1,
                _ => self.weight(),
            };
            self.truth[*variable] = (weight > 0) != upper;
            terms.push((weight, *variable));
        }
        for _ in 0..more {
            let term = self.one_more(&own, upper);
            terms.insert(self.random.index(terms.len() + 1), term);
        }
        if terms.is_empty() {
            terms.push((1, self.known[0]));
        }
        self.known.extend(own);
        let sum: i64 = terms.iter().filter(|(_, variable)| self.truth[*variable]).map(|(weight, _)| weight).sum();
        let right = match self.shape.end {
            End::Conflict if i + 1 == self.shape.constraints => sum + 1,
            End::Open if self.random.coin() => sum - self.random.between(0, 3),
            _ => sum,
        };
        Constraint { terms, equal, right }
    }

    /// A weight of a variable before; in the first constraint of an own one, with the sign that this one has.
    fn one_more(&mut self, own: &[usize], upper: bool) -> (i64, usize) {
        let weight = self.weight();
        if self.known.is_empty() {
            let variable = self.random.pick(own);
            return (if self.truth[variable] != upper { weight.abs() } else { -weight.abs() }, variable);
        }
        let wide = self.shape.weights == Weights::Wide;
        (weight, if wide { self.known[0] } else { self.random.pick(&self.known) })
    }

    fn weight(&mut self) -> i64 {
        let size = match self.shape.weights {
            Weights::One => 1,
            Weights::Small => 1 + self.random.below(4) as i64,
            Weights::Billion => 1_000_000_000 - self.random.pick(&[0, 0, 0, 1, 999]),
            Weights::Wide => return -1_000_000_000,
        };
        if self.random.chance(3) {
            -size
        } else {
            size
        }
    }
}

/// The text with blanks or comments put in, up to so many bytes; its last byte is the last constraint's `;` or an LF behind it.
fn filled(random: &mut Random, mut text: Vec<u8>, bytes: usize) -> Vec<u8> {
    if random.coin() {
        text.pop();
    }
    let first = text.iter().position(|byte| *byte == b'\n').unwrap_or(0) + 1;
    while text.len() < bytes {
        let missing = bytes - text.len();
        let many = if random.coin() { missing } else { 1 + random.index(missing) };
        let at = first + random.index(text.len() - first);
        let filling: Vec<u8> = match text[at] {
            b' ' => (0..many).map(|_| random.pick(b"  \t\r\n")).collect(),
            b'\n' if many >= 2 && text[at - 1] == b';' => [b"\n*".as_slice(), &vec![b'c'; many - 2]].concat(),
            _ => continue,
        };
        text.splice(at..at, filling);
    }
    text
}
