//! OPB texts: valid ones in many forms, texts at every limit, and damaged ones.

use crate::largest;
use crate::random::Random;

/// Document 01's input.
pub const EXAMPLE: &str = "* #variable= 3 #constraint= 2\n+2 x1 +3 x2 -1 x3 >= 4 ;\n+1 x1 +1 x3 >= 1 ;\n";

/// The texts that are damaged at every byte.
const DAMAGED: [&str; 4] = [
    EXAMPLE,
    "* #variable= 4 #constraint= 3\r\n* a comment; >= x1\r\n-2 x1\t+03 x4 = -1;+1 x2 = 1\r\n;\n\n*\n 1 x3 -1 x3 >= +0 ;* no",
    "* #variable= 1020 #constraint= 4\n1 x1020 >= 1;1 x9 = 00;\n",
    "* #variable= 10 #constraint= 2\n+1 x10 -0 x1 = 000000000000000001 ; -999999999999999999 x2 >= 999999999999999999;",
];

/// What a byte is replaced by: two or more of each class, and bytes that a careless reader might take for one.
const CLASSES: &[u8] = b" \t\r\n\x0b07+-*x>=;#aX\x00\xff";

/// A text with a name.
pub struct Text {
    pub name: String,
    pub bytes: Vec<u8>,
}

fn text(name: &str, bytes: impl Into<Vec<u8>>) -> Text {
    Text { name: name.to_string(), bytes: bytes.into() }
}

/// The generated texts, at least so many; the largest come last.
pub fn texts(seed: u64, many: usize) -> Vec<Text> {
    let mut all = Vec::new();
    for (i, base) in DAMAGED.iter().enumerate() {
        damage(i, base.as_bytes(), &mut all);
    }
    limits(&mut all);
    let random = &mut Random::new(seed);
    let mut i = 0;
    while all.len() < many {
        let bytes = match i % 20 {
            0..=7 => valid(random, 9, 6, 5),
            8 | 9 => valid(random, 3, 3, 8),
            10 => valid(random, 60, 30, 12),
            11 => soup(random),
            12 if i % 200 == 12 => valid(random, 1000, 256, 14),
            12 if i % 200 == 32 => chain(random),
            13 => numbers(random),
            _ => {
                let mut bytes = valid(random, 9, 5, 4);
                for _ in 0..1 + random.index(2) {
                    edit(random, &mut bytes);
                }
                bytes
            }
        };
        all.push(text(&format!("random text {i}"), bytes));
        i += 1;
    }
    all.extend(largest::texts(random));
    all
}

/// 'byte deleted, doubled, replaced by each class; cut at every place'
fn damage(which: usize, base: &[u8], all: &mut Vec<Text>) {
    for at in 0..base.len() {
        let mut push = |how: &str, middle: &[u8], from: usize| {
            let bytes = [&base[..at], middle, &base[from..]].concat();
            all.push(text(&format!("damaged text {which}, byte {at} {how}"), bytes));
        };
        push("deleted", &[], at + 1);
        push("doubled", &[base[at], base[at]], at + 1);
        push("and the rest cut off", &[], base.len());
        for class in CLASSES.iter().filter(|class| **class != base[at]) {
            push(&format!("replaced by {class}"), &[*class], at + 1);
        }
    }
    all.push(text(&format!("text {which} as it is"), base));
}

pub fn first_line(v: u64, c: u64) -> String {
    format!("* #variable= {v} #constraint= {c}\n")
}

/// A constraint with so many terms over x1 to xV.
fn terms(many: usize, v: usize) -> String {
    (0..many).map(|i| format!("+1 x{} ", i % v + 1)).collect()
}

fn limits(all: &mut Vec<Text>) {
    let mut push = |name: &str, bytes: String| all.push(text(name, bytes));
    // V + C
    for (v, c) in [(1023, 1), (1024, 0), (1024, 1), (1023, 2), (1025, 0), (1, 0), (0, 1), (0, 0), (0, 2000), (1, 1024), (1, 1023)] {
        push(&format!("V {v}, C {c}, nothing else"), first_line(v, c));
        push(&format!("V {v}, C {c}, one constraint"), first_line(v, c) + &format!("1 x{} >= 1;\n", v.max(1)));
    }
    for v in [
        "00",
        "01",
        "0001",
        "000000000000000001",
        "0000000000000000001",
        "0000000000000000000",
        "1000000000000000000",
        "99999999999999999999999999999999999999999",
    ] {
        push(&format!("V {v}"), format!("* #variable= {v} #constraint= 1\n1 x1 >= 1;"));
        push(&format!("C {v}"), format!("* #variable= 3 #constraint= {v}\n1 x1 >= 1;"));
        push(&format!("V and C {v}"), format!("* #variable= {v} #constraint= {v}\n1 x1 >= 1;"));
        push(&format!("C {v} at the end"), format!("* #variable= 1023 #constraint= {v}"));
        push(&format!("V {v} at the end"), format!("* #variable= {v}"));
        push(&format!("V {v} and a wrong byte"), format!("* #variable= {v}x"));
        push(&format!("weight {v}"), format!("* #variable= 3 #constraint= 1\n{v} x1 >= 1;"));
        push(&format!("right side {v}"), format!("* #variable= 3 #constraint= 1\n1 x1 >= -{v};"));
        push(&format!("right side {v} and a wrong byte"), format!("* #variable= 3 #constraint= 1\n1 x1 >= {v}x"));
        push(&format!("variable {v}"), format!("* #variable= 3 #constraint= 1\n1 x{v} >= 1;"));
        push(&format!("variable 3{v}"), format!("* #variable= 3 #constraint= 1\n1 x3{v}y >= 1;"));
    }
    // Weights and bounds at load's limits, and text faults that come before load's refusals.
    for weight in ["1000000000", "1000000001", "-1000000000", "-1000000001", "0999999999", "999999999999999999"] {
        for rest in ["", "1 x1 >= 1;", "1 x4 >= 1;", "* c", "x"] {
            push("weight at its limit", format!("* #variable= 3 #constraint= 1\n{weight} x1 >= {weight};\n{rest}"));
        }
        push("weight at its limit, second", format!("* #variable= 3 #constraint= 2\n1 x1 = 1;{weight} x1 = {weight};\n"));
    }
    // Constraints fewer and more than C.
    for c in 0..4 {
        for many in 0..4 {
            push("constraints", first_line(2, c) + &"1 x1 >= 1;\n".repeat(many));
        }
    }
    // Sentences.
    for (equal, lower) in [(0, 255), (0, 256), (0, 257), (0, 300), (128, 0), (127, 2), (127, 3), (128, 1), (129, 0)] {
        for (rest, more) in [("", 0), ("1 x1 = 1;", 1), ("1 x1 =x", 0), ("1 x3 = 1;", 0), ("1 x1 >x", 0), ("1 x1 >=x", 0), ("1 x1 ", 0)] {
            let body = "+1 x1 = 1;\n".repeat(equal) + &"+1 x2 >= 0;\n".repeat(lower) + rest;
            push(&format!("{equal} equal and {lower} lower constraints"), first_line(2, (equal + lower + more) as u64) + &body);
        }
    }
    // Entries, in all and in a constraint.
    for parts in [
        vec![1024, 1024, 1024, 1024],
        vec![1024, 1024, 1024, 1023],
        vec![1024, 1024, 1024, 1024, 1],
        vec![1023, 1025, 1024, 1024],
        vec![1025],
        vec![1024],
        vec![4096],
        vec![4097],
        vec![2048, 2048],
        vec![2049, 2047],
        vec![4096, 1],
        vec![1, 4095],
    ] {
        for equal in [usize::MAX, 0, parts.len() - 1] {
            for rest in ["", "1 x2 ", "1 x3 ", "1 x2y", "1"] {
                let mut body = String::new();
                for (i, part) in parts.iter().enumerate() {
                    body += &terms(*part, 2);
                    body += if i == equal { "= 1;\n" } else { ">= 1;\n" };
                }
                let c = parts.len() as u64;
                push(&format!("entries {parts:?}, equal {equal}, then '{rest}'"), first_line(2, c) + &body + rest);
            }
        }
    }
    for many in [2047, 2048, 2049] {
        for relation in ["= 1;", "=", "=x", ">= 1;", ">", "y"] {
            push("second copies", first_line(2, 1) + &terms(many, 2) + relation);
            push("second copies behind one", first_line(2, 2) + "1 x1 >= 0;" + &terms(many, 2) + relation);
        }
    }
    // Bytes.
    for many in [65_535, 65_536, 65_537, 65_538, 131_072, 200_000] {
        for pad in [" ", "\n", "* comment\n", "*", "x"] {
            let mut body = EXAMPLE.to_string();
            while body.len() + pad.len() <= many {
                body += pad;
            }
            while body.len() < many {
                body += "\n";
            }
            push(&format!("{many} bytes"), body);
        }
        push(&format!("{many} bytes of nothing"), "\0".repeat(many));
    }
    push("no byte", String::new());
}

/// Blanks as a style has them.
fn blanks(random: &mut Random, wild: bool, least: usize) -> String {
    if !wild {
        return " ".repeat(least);
    }
    let many = least + if random.chance(3) { random.index(3) } else { 0 };
    (0..many).map(|_| random.pick(&[" ", " ", "\t", "\r\n", "\n", "\r"])).collect()
}

fn integer(random: &mut Random, number: i64, wild: bool) -> String {
    let sign = match number {
        ..=-1 => "-",
        _ if random.coin() => "+",
        0 if wild && random.coin() => "-",
        _ => "",
    };
    let zeros = if wild && random.chance(10) { "0".repeat(1 + random.index(3)) } else { String::new() };
    format!("{sign}{zeros}{}", number.unsigned_abs())
}

/// A text of the form, mostly with as many constraints as it says.
pub fn valid(random: &mut Random, most_variables: u64, most_constraints: u64, most_terms: u64) -> Vec<u8> {
    let wild = random.coin();
    let v = 1 + random.below(most_variables);
    let c = random.below(most_constraints + 1).min(1024 - v);
    let said = if random.chance(30) { c.saturating_add(random.below(3)).saturating_sub(1) } else { c };
    let end = if random.chance(3) { "\r\n" } else { "\n" };
    let mut out = format!("* #variable= {v} #constraint= {said}{end}");
    let large = random.chance(25);
    // Half of the texts have a full assignment that satisfies them, with right sides that leave little room.
    let kept = random.coin();
    let truth: Vec<bool> = (0..=v + 1).map(|_| random.coin()).collect();
    for _ in 0..c {
        if wild && random.chance(4) {
            out += &blanks(random, true, 0);
            if out.ends_with('\n') {
                out += random.pick(&["*\n", "* 1 x1 >= 2 ;\n", "*** \r\n", "*x\t\n\n"]);
            }
        }
        let mut sum = 0;
        for _ in 0..1 + random.below(most_terms) {
            let weight = match random.below(8) {
                0 if large => random.between(-1_000_000_000, 1_000_000_000),
                0..=3 => 1,
                4 => -1,
                _ => random.between(-4, 4),
            };
            // Now and then a variable above V.
            let above = random.chance(400) as u64;
            let variable = 1 + random.below(v + above);
            let taken = if kept { truth[variable as usize] } else { random.coin() == (weight > 0) };
            sum += if taken { weight } else { 0 };
            out += &integer(random, weight, wild);
            out += &blanks(random, wild, 1);
            out += &format!("x{variable}");
            out += &blanks(random, wild, 1);
        }
        let relation = random.pick(&[">=", ">=", "="]);
        out += relation;
        out += &blanks(random, wild, 1);
        let right = match (kept, relation) {
            (true, "=") => sum,
            (true, _) => sum - random.below(2) as i64,
            _ => sum + random.between(-1, 2),
        };
        out += &integer(random, right, wild);
        let (before, behind) = (random.index(2), random.index(2));
        out += &blanks(random, wild, before);
        out += ";";
        out += &blanks(random, wild, behind);
        if !wild || random.coin() {
            out += end;
        }
    }
    if wild && random.chance(4) {
        out += random.pick(&["*", "* the end", "\n", " ", "\n* end\n"]);
    }
    out.into_bytes()
}

/// A long chain of implications, in the text's order or against it, so that much is derived.
fn chain(random: &mut Random) -> Vec<u8> {
    let many = 100 + random.below(155);
    let mut lines: Vec<String> = (1..many).map(|i| format!("-1 x{i} +1 x{} >= 0 ;\n", i + 1)).collect();
    lines.push("+1 x1 >= 1 ;\n".into());
    if random.coin() {
        lines.reverse();
    }
    if random.coin() {
        let last = random.index(lines.len());
        lines[last] = format!("-1 x{many} >= 0 ;\n");
    }
    (first_line(many, lines.len() as u64) + &lines.concat()).into_bytes()
}

/// Numbers with many digits or zeros at every place.
fn numbers(random: &mut Random) -> Vec<u8> {
    let mut number = |most: usize| -> String {
        let many = 1 + random.index(most);
        let digits: String = (0..many).map(|_| random.pick(&["0", "0", "1", "9", "5"])).collect();
        if random.coin() {
            digits
        } else {
            random.pick(&["1", "2", "3"]).to_string()
        }
    };
    let (v, c) = (number(20), number(20));
    let body: String =
        (0..2).map(|_| format!("{} x{} +{} x{} >= -{} ;\n", number(20), number(20), number(19), number(2), number(20))).collect();
    format!("* #variable= {v} #constraint= {c}\n{body}").into_bytes()
}

/// Pieces of texts in any order, mostly behind a first line.
fn soup(random: &mut Random) -> Vec<u8> {
    let pieces: &[&str] = &[
        "+1",
        "-",
        "+",
        "x1",
        "x",
        "x2 ",
        " ",
        "\n",
        ";",
        ">=",
        "=",
        ">",
        "*",
        "* c\n",
        "1 x1 >= 1 ;",
        "0",
        "12",
        "\r\n",
        "\t",
        "a",
        "\n*",
        " x3",
        "\r",
        "-1 x2 = 0;\n",
    ];
    let mut out = if random.chance(8) { String::new() } else { first_line(3, random.below(3)) };
    for _ in 0..random.index(12) {
        out += random.pick(pieces);
    }
    out.into_bytes()
}

/// One byte or run deleted, doubled, replaced or moved.
fn edit(random: &mut Random, bytes: &mut Vec<u8>) {
    if bytes.is_empty() {
        return;
    }
    let at = random.index(bytes.len());
    match random.below(6) {
        0 => {
            bytes.remove(at);
        }
        1 => bytes.insert(at, bytes[at]),
        2 => bytes[at] = random.pick(CLASSES),
        3 => bytes.insert(at, random.pick(CLASSES)),
        4 => {
            let to = (at + 1 + random.index(6)).min(bytes.len());
            bytes.drain(at..to);
        }
        _ => {
            let other = random.index(bytes.len());
            bytes.swap(at, other);
        }
    }
}
