//! Random theories and lists of calls.

use crate::book::Columns;
use crate::calls::*;
use crate::drive::every_kind;
use crate::meaning::*;
use crate::random::Random;

/// A sentence that load takes, over atoms 1 to `n`, with up to `most` entries.
pub fn sentence(random: &mut Random, n: u64, most: u64) -> Sentence {
    let head = 1 + random.below(n);
    let kind = random.below(5);
    let side = random.below(2);
    let many = if n == 1 { 0 } else { random.below(most + 1) };
    let scale = random.below(12);
    let mut signs = std::collections::HashMap::new();
    let mut entries = Vec::new();
    let mut product: i128 = 1;
    for _ in 0..many {
        let mut atom = 1 + random.below(n - 1);
        if atom >= head {
            atom += 1;
        }
        let mut literal = if random.chance(3) { -(atom as i64) } else { atom as i64 };
        let weight = match kind {
            COUNT => 1,
            PRODUCT => match scale {
                0 => random.pick(&[1, 10, 1_000, 1_000_000, 1_000_000_000]),
                _ => random.pick(&[1, 2, 2, 3, 4, 5, 7]),
            },
            _ => match scale {
                0 => random.pick(&[1_000_000_000, -1_000_000_000, 999_999_999, 1, 0]),
                1 => random.between(-1_000_000_000, 1_000_000_000),
                2 => random.between(-1, 1),
                3 => 1,
                _ => random.between(-6, 6),
            },
        };
        if kind != SUM && kind != COUNT {
            literal = *signs.entry(atom).or_insert(literal);
        }
        if kind == PRODUCT {
            if product * weight as i128 > BOUND {
                continue;
            }
            product *= weight as i128;
        }
        entries.push((weight, literal));
    }
    let bound = bound_near(random, n, kind, &entries);
    Sentence { head, kind, side, bound, entries }
}

/// A bound near a value that the set can have, so that propagation has something to find.
fn bound_near(random: &mut Random, n: u64, kind: u64, entries: &[(i64, i64)]) -> i64 {
    if random.chance(40) {
        let most = BOUND as i64;
        return random.pick(&[most, -most, most - 1, 0]);
    }
    let truth: Vec<bool> = (0..=n).map(|_| random.coin()).collect();
    match value(kind, entries, &truth) {
        Value::Number(z) => (z as i64 + random.between(-2, 2)).clamp(-(BOUND as i64), BOUND as i64),
        _ => random.between(-7, 7),
    }
}

pub fn theory(random: &mut Random, n: u64, sentences: u64, entries: u64) -> Vec<Sentence> {
    (0..random.below(sentences + 1)).map(|_| sentence(random, n, entries)).collect()
}

/// A theory that a full assignment satisfies, and that assignment, atom a at index a. Bounds are tight, so that much is derived.
pub fn kept_theory(random: &mut Random, n: u64, sentences: u64, entries: u64) -> (Vec<Sentence>, Vec<bool>) {
    let truth: Vec<bool> = (0..=n).map(|_| random.coin()).collect();
    let mut theory = theory(random, n, sentences, entries);
    for sentence in &mut theory {
        let head = truth[sentence.head as usize];
        let slack = if random.chance(3) { random.between(0, 3) } else { 0 };
        match value(sentence.kind, &sentence.entries, &truth) {
            Value::Number(z) => {
                // The greatest bound that is at most the value, or the least above it; and the other way round.
                let lower = sentence.side == LOWER;
                let bound = z as i64
                    + if head {
                        0
                    } else if lower {
                        1
                    } else {
                        -1
                    };
                let away = if head == lower { -slack } else { slack };
                sentence.bound = (bound + away).clamp(-(BOUND as i64), BOUND as i64);
            }
            // Below every number only an upper side holds, above every number only a lower one.
            Value::Below => sentence.side = if head { UPPER } else { LOWER },
            Value::Above => sentence.side = if head { LOWER } else { UPPER },
        }
    }
    theory.retain(|sentence| holds(sentence, &truth));
    (theory, truth)
}

/// A large theory: up to the limits on sentences and written entries together.
fn large_theory(random: &mut Random, n: u64) -> Vec<Sentence> {
    let mut left = MOST_ENTRIES;
    let many = random.pick(&[4, 40, 256]);
    let mut sentences: Vec<Sentence> = Vec::new();
    for _ in 0..many {
        let most = random.pick(&[0, 3, 16, 1024]).min(left).min(MOST_IN_A_SENTENCE);
        let mut one = sentence(random, n, most);
        if one.kind == SUM && most == 1024 && left >= 1024 {
            // Just as many as a sentence may have.
            while one.entries.len() < 1024 {
                let literal = one.entries.get(random.index(one.entries.len())).map_or(1 + (one.head % n) as i64, |entry| entry.1);
                one.entries.push((random.between(-3, 3), literal));
            }
        }
        left -= one.entries.len() as u64;
        sentences.push(one);
    }
    if random.coin() {
        // As many entries as there may be, in all.
        for one in sentences.iter_mut().filter(|one| one.kind == SUM && one.head > 1) {
            while left > 0 && one.entries.len() < 1024 {
                one.entries.push((1, 1));
                left -= 1;
            }
        }
    }
    sentences
}

fn load(random: &mut Random, atoms: u64, sentences: &[Sentence]) -> Load {
    Load {
        atoms,
        columns: Columns::of(sentences),
        area: random.pick(&[0, 0, 0, 1, 5]),
        next: random.pick(&[2, 2, 3, 5]),
        null: random.coin(),
    }
}

/// One thing wrong with a load, or at a limit; what comes of it, the book decides.
fn spoil(random: &mut Random, load: &mut Load) {
    let c = &mut load.columns;
    let n = load.atoms as i64;
    // A sentence and an entry that all columns have.
    let sentences = [c.heads.len(), c.kinds.len(), c.sides.len(), c.bounds.len(), c.counts.len()].into_iter().min().unwrap();
    let entries = c.weights.len().min(c.literals.len());
    let (s, e) = (random.index(sentences), random.index(entries));
    let (some, any) = (sentences > 0, entries > 0);
    match random.below(23) {
        0 => load.area = -1 - random.between(0, 3),
        1 => load.next = random.index(2),
        2 => load.atoms = random.pick(&[0, 1025, u64::MAX, 1 << 32, load.atoms.saturating_sub(1)]),
        3 if some => c.kinds[s] = random.pick(&[5, 6, u64::MAX, 1 << 32]),
        4 if some => c.sides[s] = random.pick(&[2, 3, u64::MAX, 1 << 32]),
        5 if some => c.heads[s] = random.pick(&[0, (n as u64).wrapping_add(1), u64::MAX, 1 << 32, (1 << 32) + 1]),
        6 if any => {
            c.literals[e] = random.pick(&[0, n.wrapping_add(1), n.wrapping_neg().wrapping_sub(1), i64::MIN, i64::MAX, (1 << 32) + 1])
        }
        7 if any => c.weights[e] = random.pick(&[1_000_000_001, -1_000_000_001, i64::MIN, i64::MAX, 0, -1, 2, 1_000_000_000]),
        8 if some => c.bounds[s] = random.pick(&[i64::MIN, i64::MAX, BOUND as i64 + 1, -(BOUND as i64) - 1, BOUND as i64]),
        9 if some && any => {
            // The head's atom in its own set, where the entry is that sentence's.
            let head = c.heads[s] as i64;
            c.literals[e] = if random.coin() { head } else { head.wrapping_neg() };
        }
        10 if any => {
            let other = random.index(entries);
            c.literals[e] = c.literals[other].wrapping_neg();
        }
        11 if some => c.kinds[s] = random.below(5),
        12 if any => {
            // Products at 10^18 and above it.
            let other = random.below(4) > 0;
            c.kinds.iter_mut().filter(|_| other).for_each(|kind| *kind = PRODUCT);
            c.weights.iter_mut().for_each(|weight| *weight = random.pick(&[1_000_000_000, 1, 2]));
            c.literals.iter_mut().filter(|_| other).for_each(|literal| *literal = literal.wrapping_abs());
        }
        13 => {
            c.heads.pop();
        }
        14 => c.kinds.push(0),
        15 => c.sides.push(0),
        16 => {
            c.bounds.pop();
        }
        17 if some => c.counts[s] = random.pick(&[c.counts[s].wrapping_add(1), c.counts[s].wrapping_sub(1), u64::MAX, 1 << 63]),
        18 if random.coin() => c.weights.push(1),
        18 => c.literals.push(1),
        19 if some => {
            // Counts that add up modulo 2^64 only.
            let other = random.index(sentences);
            c.counts[s] = c.counts[s].wrapping_add(1 << 63);
            c.counts[other] = c.counts[other].wrapping_add(1 << 63);
        }
        20 if some => {
            let most = random.pick(&[1024, 1025, 1026]);
            fill_sentence(c, s, most);
        }
        21 => fill_sentences(random, c),
        22 => {
            fill_sentences(random, c);
            let many: usize = random.pick(&[4095, 4096, 4097]);
            for s in 0..5.min(c.heads.len()) {
                let most = many.saturating_sub(c.weights.len()) as u64 + c.counts[s].min(1024);
                fill_sentence(c, s, most.min(1024));
            }
        }
        _ => (),
    }
}

/// More entries for a sentence, up to so many, all of one literal.
fn fill_sentence(c: &mut Columns, s: usize, most: u64) {
    let more = most.saturating_sub(c.counts[s]);
    let before: u128 = c.counts[..s].iter().map(|count| *count as u128).sum();
    let at = (before.min(usize::MAX as u128) as usize).min(c.weights.len()).min(c.literals.len());
    let literal = if c.heads[s] == 1 { 2 } else { 1 };
    for _ in 0..more {
        c.weights.insert(at, 1);
        c.literals.insert(at, literal);
    }
    c.counts[s] += more;
}

/// More sentences, up to the limit, or one above it.
fn fill_sentences(random: &mut Random, c: &mut Columns) {
    let limit = random.pick(&[256, 257]);
    while c.heads.len() < limit {
        c.heads.push(1);
        c.kinds.push(random.below(5));
        c.sides.push(random.below(2));
        c.bounds.push(random.between(-2, 2));
        c.counts.push(0);
    }
}

/// A literal to give, or to ask about; `truth` is the full assignment to keep to, if there is one.
fn literal(random: &mut Random, on_trail: bool, truth: &[bool]) -> Literal {
    let i = random.index(64);
    if !on_trail && !truth.is_empty() && !random.chance(4) {
        let atom = 1 + random.index(truth.len() - 1);
        return Literal::Number(if truth[atom] { atom as i64 } else { -(atom as i64) });
    }
    match random.below(20) {
        0 => Literal::Number(random.pick(&[0, i64::MIN, i64::MAX, 1 << 32, (1 << 32) + 1])),
        1 => Literal::Past(if random.coin() { 1 } else { -1 }),
        2 => Literal::NotRow(i),
        3 | 4 if on_trail => Literal::Open(i, random.coin()),
        5..=8 if on_trail => Literal::Row(i),
        3 if !on_trail => Literal::Row(i),
        _ if on_trail => Literal::Derived(i),
        _ => Literal::Open(i, random.coin()),
    }
}

/// A list to search over: literals to try, some on the trail, and at times one of no atom, mostly the last.
fn search(random: &mut Random, truth: &[bool]) -> Asked {
    let many = random.pick(&[0, 1, 2, 4, 8, 30]);
    let mut literals: Vec<Literal> = (0..many)
        .map(|_| match random.below(8) {
            0 => Literal::Row(random.index(64)),
            1 => Literal::NotRow(random.index(64)),
            2..=4 if !truth.is_empty() => {
                let atom = 1 + random.index(truth.len() - 1);
                Literal::Number(if truth[atom] { atom as i64 } else { -(atom as i64) })
            }
            _ => Literal::Open(random.index(64), random.coin()),
        })
        .collect();
    if random.chance(4) {
        let wrong = random.pick(&[0, i64::MIN, i64::MAX, 1 << 32, (1 << 32) + 1]);
        let wrong = random.pick(&[Literal::Number(wrong), Literal::Past(1), Literal::Past(-1)]);
        let at = if random.chance(4) { random.index(literals.len() + 1) } else { literals.len() };
        literals.insert(at, wrong);
    }
    Asked::Search(literals)
}

fn which(random: &mut Random) -> Which {
    match random.below(12) {
        0 => Which::Number(random.pick(&[0, u64::MAX, 1 << 32, (1 << 32) + 1])),
        1 => Which::Past(1),
        _ => Which::Around(random.index(64)),
    }
}

fn asked(random: &mut Random, truth: &[bool]) -> Asked {
    match random.below(42) {
        0..=12 => Asked::Give(literal(random, false, truth)),
        13..=16 => Asked::Open,
        17..=24 => Asked::Propagate,
        25..=27 => Asked::TakeBack(match random.below(8) {
            0 => Back::Above(random.pick(&[1, 1, 5, 1 << 32, u64::MAX])),
            1 => Back::Below(0),
            2 => Back::Below(100),
            _ => Back::Below(1 + random.below(2)),
        }),
        28 | 29 => Asked::Bounds(which(random)),
        30..=32 => Asked::Explain(literal(random, true, truth)),
        33 | 34 => Asked::ExplainConflict(if random.coin() { Which::InConflict } else { which(random) }),
        35..=37 => Asked::Origin(literal(random, true, truth)),
        38 | 39 => search(random, truth),
        _ => Asked::Trail,
    }
}

fn act(random: &mut Random, truth: &[bool]) -> Act {
    let mut act = Act::plain(asked(random, truth));
    vary(random, &mut act);
    act
}

fn vary(random: &mut Random, act: &mut Act) {
    act.lend = match random.below(24) {
        0 => Lend::Short(random.pick(&[0, 0, 1, 7, 10_000])),
        1 | 2 => Lend::Need,
        _ => Lend::All,
    };
    act.counters = match random.below(24) {
        0 => Counters::Off(random.pick(&[0, 1, -1, 1 << 16, 1 << 32]), random.pick(&[0, 1, -1, 1 << 16, 1 << 32])),
        1 => Counters::Exactly(random.pick(&[0, 1, u64::MAX]), random.pick(&[0, 1, u64::MAX])),
        _ => Counters::Right,
    };
    act.room = match random.below(10) {
        0 => Room::Less(1),
        1 => Room::Less(1 + random.index(6)),
        2..=4 => Room::More(1 + random.index(4)),
        _ => Room::Fits,
    };
    act.null = random.coin();
}

fn aside(random: &mut Random) -> Call {
    let change = match random.below(10) {
        0 => Change::Random(random.word()),
        1 | 2 => Change::Words(
            (0..1 + random.index(3))
                .map(|_| {
                    let at = random.index(120);
                    let alter = match random.below(4) {
                        0 => Alter::Add(1),
                        1 => Alter::Add(u64::MAX),
                        2 => Alter::Flip(random.below(64) as u32),
                        _ => Alter::Set(random.below(6)),
                    };
                    (at, alter)
                })
                .collect(),
        ),
        _ => Change::Mutant(random.word()),
    };
    if random.chance(8) {
        return searches_at_the_top(random);
    }
    let kinds = every_kind(random);
    let acts = (0..1 + random.index(3))
        .map(|_| {
            let mut act = Act::plain(if random.coin() { random.pick(&kinds) } else { asked(random, &[]) });
            if random.chance(4) {
                vary(random, &mut act);
            }
            act
        })
        .collect();
    Call::Aside(change, acts)
}

/// Searches that come to the highest level, with literals on the trail and others behind.
fn searches_at_the_top(random: &mut Random) -> Call {
    let level = MOST_LEVELS - random.below(4);
    let acts = (0..1 + random.index(3))
        .map(|_| {
            let mut act = Act::plain(search(random, &[]));
            if random.chance(4) {
                vary(random, &mut act);
            }
            act
        })
        .collect();
    Call::Aside(Change::Level(level), acts)
}

/// The list of calls of a seed.
pub fn list(seed: u64) -> List {
    let mut random = Random::new(seed.wrapping_mul(0x1000_0001));
    let random = &mut random;
    let mut calls = Vec::new();
    if seed % 250 == 7 {
        return List { seed, calls: large(random) };
    }
    if seed % 1000 == 509 {
        return List { seed, calls: long_search(random) };
    }
    if seed % 5000 == 759 {
        return List { seed, calls: wide_sets(random) };
    }
    if seed % 1000 == 8 {
        return List { seed, calls: levels(random) };
    }
    if random.chance(20) {
        calls.push(Call::Act(act(random, &[])));
        calls.push(Call::Aside(Change::Random(random.word()), vec![act(random, &[])]));
    }
    if random.chance(4) {
        let mut near = |limit: u64| {
            let below = random.below(limit);
            random.pick(&[0, 1, below, limit, limit + 1, u64::MAX])
        };
        calls.push(Call::Need(near(MOST_ATOMS), near(MOST_SENTENCES), near(MOST_ENTRIES)));
    }
    let n = if random.chance(8) { 1 + random.below(24) } else { 2 + random.below(7) };
    let (sentences, entries) = random.pick(&[(1, 4), (3, 4), (5, 5), (8, 3), (3, 9)]);
    let (mut own, truth) = match random.below(5) {
        0 => kept_theory(random, n + 6, 2 * sentences + 4, entries),
        1 | 2 => kept_theory(random, n, sentences + 2, entries),
        _ => (theory(random, n, sentences, entries), Vec::new()),
    };
    let n = if truth.is_empty() { n } else { truth.len() as u64 - 1 };
    if random.chance(6) && own.len() >= 2 {
        // The same set again, for the other side.
        let copy = own[0].clone();
        own.push(Sentence { side: 1 - copy.side, ..copy });
    }
    for _ in 0..random.pick(&[0, 0, 0, 0, 1, 3, 6]) {
        let mut spoilt = load(random, n, &own);
        for _ in 0..1 + random.index(2) {
            spoil(random, &mut spoilt);
        }
        calls.push(Call::Load(Box::new(spoilt)));
    }
    calls.push(Call::Load(Box::new(load(random, n, &own))));
    let many = random.pick(&[4, 10, 20, 30]);
    for _ in 0..many {
        calls.push(Call::Act(act(random, &truth)));
        if random.chance(4) {
            calls.push(aside(random));
        }
        if random.chance(200) {
            let again = theory(random, n, sentences, entries);
            calls.push(Call::Load(Box::new(load(random, n, &again))));
        }
    }
    if random.chance(4) {
        calls.push(Call::EveryWord(random.word()));
    }
    List { seed, calls }
}

/// Theories up to the limits, and few calls.
fn large(random: &mut Random) -> Vec<Call> {
    let n = random.pick(&[1024, 1024, 300]);
    let (own, truth) = if random.coin() { kept_theory(random, n, 256, 15) } else { (large_theory(random, n), Vec::new()) };
    let mut load = load(random, n, &own);
    load.area = random.pick(&[0, 3, -1]);
    let mut calls = vec![Call::Load(Box::new(Load { area: 0, ..load.clone() })), Call::Load(Box::new(load))];
    for _ in 0..12 {
        calls.push(Call::Act(act(random, &truth)));
        calls.push(Call::Act(Act::plain(Asked::Give(Literal::Open(random.index(1024), random.coin())))));
    }
    calls.push(Call::Act(Act::plain(Asked::Propagate)));
    for _ in 0..4 {
        calls.push(aside(random));
    }
    calls
}

/// Searches over every atom of a theory at the limits, and questions about what they put on.
fn long_search(random: &mut Random) -> Vec<Call> {
    let n = MOST_ATOMS;
    let (own, truth) = if random.below(4) > 0 { kept_theory(random, n, 256, 15) } else { (large_theory(random, n), vec![true; 1025]) };
    let mut load = load(random, n, &own);
    load.area = 0;
    let mut literals: Vec<Literal> = (1..=n as i64).map(|atom| Literal::Number(if truth[atom as usize] { atom } else { -atom })).collect();
    for i in (1..literals.len()).rev() {
        let other = random.index(i + 1);
        literals.swap(i, other);
    }
    if random.coin() {
        // Against the theory, at some place.
        let at = random.index(literals.len());
        if let Literal::Number(literal) = &mut literals[at] {
            *literal = -*literal;
        }
    }
    let mut calls = vec![Call::Load(Box::new(load))];
    let mut ask = |asked: Asked| calls.push(Call::Act(Act::plain(asked)));
    let some = random.index(literals.len());
    ask(Asked::Search(literals[..some].to_vec()));
    ask(Asked::Search(literals));
    for i in [0, 200, 511, 1022] {
        ask(Asked::Explain(Literal::Derived(i)));
        ask(Asked::Origin(Literal::Derived(i)));
    }
    ask(Asked::ExplainConflict(Which::InConflict));
    ask(Asked::TakeBack(Back::Below(1 + random.below(40))));
    ask(Asked::Propagate);
    calls
}

/// Two sentences over all atoms but their heads: over a thousand literals derived at once, explained, in conflict, and as origin.
fn wide_sets(random: &mut Random) -> Vec<Call> {
    let most = MOST_ATOMS as i64;
    let (kind, weight) = random.pick(&[(SUM, 1), (COUNT, 1), (SUM, 1_000_000_000)]);
    let entries: Vec<(i64, i64)> = (3..=most).map(|atom| (weight, atom)).collect();
    let set = |head: u64| Sentence { head, kind, side: LOWER, bound: weight * (most - 2), entries: entries.clone() };
    let mut load = load(random, MOST_ATOMS, &[set(1), set(2)]);
    load.area = 0;
    let mut calls = vec![Call::Load(Box::new(load))];
    let mut ask = |asked: Asked| calls.push(Call::Act(Act::plain(asked)));
    let list = |literals: &[i64]| Asked::Search(literals.iter().map(|literal| Literal::Number(*literal)).collect());
    // The first sentence derives every entry, and the second is in conflict.
    ask(list(&[-2, 1, 5, 7]));
    ask(Asked::ExplainConflict(Which::InConflict));
    ask(Asked::Explain(Literal::Derived(1021)));
    ask(Asked::Origin(Literal::Derived(1021)));
    ask(Asked::TakeBack(Back::Below(2)));
    ask(list(&[1, 2, -4, 1024]));
    ask(Asked::TakeBack(Back::Below(1000)));
    ask(Asked::Open);
    ask(Asked::Give(Literal::Number(1)));
    ask(Asked::Propagate);
    ask(Asked::TakeBack(Back::Below(1)));
    // Every entry tried at a level of its own but the last, which is derived.
    ask(Asked::Give(Literal::Number(-1)));
    ask(Asked::Search((3..=most).map(Literal::Number).collect()));
    ask(Asked::Explain(Literal::Derived(random.index(3))));
    ask(Asked::Origin(Literal::Derived(0)));
    ask(Asked::Origin(Literal::Derived(1)));
    calls
}

/// Up to the last level and one further, with a literal now and then, and back.
fn levels(random: &mut Random) -> Vec<Call> {
    let n = 2 + random.below(30);
    let own = theory(random, n, 2, 5);
    let mut calls = vec![Call::Load(Box::new(load(random, n, &own)))];
    for i in 0..1026 {
        calls.push(Call::Act(Act::plain(Asked::Open)));
        if i % 64 == 5 {
            calls.push(Call::Act(Act::plain(Asked::Give(Literal::Open(random.index(64), random.coin())))));
            calls.push(Call::Act(Act::plain(Asked::Propagate)));
        }
    }
    calls.push(Call::Act(Act::plain(search(random, &[]))));
    calls.push(Call::Act(Act::plain(Asked::TakeBack(Back::Below(random.below(4))))));
    calls.push(Call::Act(Act::plain(search(random, &[]))));
    calls.push(Call::Act(Act::plain(Asked::TakeBack(Back::Below(1 + random.below(600))))));
    calls.push(Call::Act(Act::plain(Asked::Open)));
    calls.push(Call::Act(Act::plain(Asked::TakeBack(Back::Below(2000)))));
    calls
}
