//! A morning: answers given and taken back, a propagate after each, a report now and then. It is made once, on the library and the twin
//! side by side, and every answer, every list and every word of the two areas is compared at every call. Then it is a list of calls.

use crate::calls::{Calls, Library};
use crate::plan::Plan;
use crate::random::Random;
use crate::twin::Twin;

#[derive(Clone, Copy)]
pub enum Call {
    Give(i64),
    Open,
    TakeBack(u64),
    Propagate,
    Bounds(u64),
    Explain(i64),
    ExplainConflict(u64),
    Origin(i64),
    Trail,
}

pub const NAMES: [&str; 9] = ["give", "open", "take_back", "propagate", "bounds", "explain", "explain_conflict", "origin", "trail"];

impl Call {
    pub fn number(self) -> usize {
        match self {
            Call::Give(_) => 0,
            Call::Open => 1,
            Call::TakeBack(_) => 2,
            Call::Propagate => 3,
            Call::Bounds(_) => 4,
            Call::Explain(_) => 5,
            Call::ExplainConflict(_) => 6,
            Call::Origin(_) => 7,
            Call::Trail => 8,
        }
    }
}

/// An area with its counters, and the words that calls hand results back in.
pub struct Desk {
    pub area: Vec<u64>,
    pub next: [u64; 3],
    pub list: Vec<i64>,
}

impl Desk {
    pub fn new<C: Calls>(plan: &Plan) -> Desk {
        let mut desk = Desk { area: vec![0; plan.words()], next: [0; 3], list: vec![0; 3 * 1024] };
        let answer = C::load(&mut desk.area, plan.atoms, &plan.columns, &mut desk.next);
        assert_eq!(answer, 0, "the plan is refused");
        desk
    }

    #[inline(always)]
    pub fn run<C: Calls>(&mut self, call: Call) -> u64 {
        let Desk { area, next, list } = self;
        let (length, level) = (next[0], next[1]);
        match call {
            Call::Give(literal) => C::give(area, length, level, literal, next),
            Call::Open => C::open(area, length, level, next),
            Call::TakeBack(k) => C::take_back(area, length, level, k, next),
            Call::Propagate => C::propagate(area, length, level, next),
            Call::Bounds(s) => C::bounds(area, length, level, s, list),
            Call::Explain(l) => C::explain(area, length, level, l, list),
            Call::ExplainConflict(s) => C::explain_conflict(area, length, level, s, list),
            Call::Origin(l) => C::origin(area, length, level, l, list),
            Call::Trail => C::trail(area, length, level, list),
        }
    }
}

/// The library and the twin side by side.
struct Pair<'a> {
    plan: &'a Plan,
    library: Desk,
    twin: Desk,
    calls: Vec<Call>,
    marks_differ: u64,
    puts: u64,
    conflicts: u64,
    longest: u64,
}

/// The words are the same, but for pending marks.
fn compare(plan: &Plan, a: &[u64], b: &[u64], marks_differ: &mut u64) {
    if a == b {
        return;
    }
    let n = plan.atoms as usize;
    let tags = 4 * n..4 * n + 8 * plan.columns.heads.len();
    for i in 0..a.len() {
        if a[i] == b[i] {
            continue;
        }
        let tag = tags.contains(&i) && (i - tags.start) % 8 == 1;
        assert!(tag && a[i] & 15 == b[i] & 15, "word {i}: library {} twin {}", a[i], b[i]);
        *marks_differ += 1;
    }
}

impl Pair<'_> {
    fn run(&mut self, call: Call) -> u64 {
        let a = self.library.run::<Library>(call);
        let b = self.twin.run::<Twin>(call);
        assert_eq!(a, b, "{}: library {a} twin {b}", NAMES[call.number()]);
        assert_eq!(self.library.next, self.twin.next, "{}", NAMES[call.number()]);
        assert!(self.library.list == self.twin.list, "{}: lists differ", NAMES[call.number()]);
        compare(self.plan, &self.library.area, &self.twin.area, &mut self.marks_differ);
        self.calls.push(call);
        self.longest = self.longest.max(self.library.next[0]);
        a
    }

    fn row(&self, i: u64) -> (i64, u64) {
        let n = self.plan.atoms;
        let l = self.library.area[(2 * n + i) as usize];
        let reason = self.library.area[(3 * n + i) as usize] >> 16 & 0xffff;
        (if l & 1 == 0 { (l / 2) as i64 } else { -((l / 2) as i64) }, reason)
    }

    /// Propagates; at a conflict explains it, and takes levels back until it is still.
    fn settle(&mut self, random: &mut Random) {
        loop {
            let answer = self.run(Call::Propagate);
            self.puts += self.library.next[2];
            assert_eq!(answer & 255, 0);
            if answer == 0 {
                return;
            }
            self.conflicts += 1;
            self.run(Call::ExplainConflict(answer >> 8));
            let level = self.library.next[1];
            assert!(level > 0, "the plan is in conflict by itself");
            let back = (1 + random.below(3)).min(level);
            self.run(Call::TakeBack(level - back));
        }
    }

    fn report(&mut self, random: &mut Random) {
        let length = self.library.next[0];
        match random.below(4) {
            0 => {
                let s = 1 + random.below(self.plan.columns.heads.len() as u64);
                self.run(Call::Bounds(s));
            }
            1 => {
                self.run(Call::Trail);
            }
            which if length > 0 => {
                let (literal, reason) = self.row(random.below(length));
                if which == 2 && reason != 0 {
                    self.run(Call::Explain(literal));
                } else {
                    self.run(Call::Origin(literal));
                }
            }
            _ => {}
        }
    }
}

pub struct Morning {
    pub calls: Vec<Call>,
    pub gives: u64,
    pub puts: u64,
    pub conflicts: u64,
    pub longest: u64,
    pub marks_differ: u64,
}

/// So many answers, each at a level of its own, with a report for every eight; from time to time some levels are taken back.
pub fn morning(plan: &Plan, gives: u64, seed: u64) -> Morning {
    let mut random = Random::new(seed);
    let mut pair = Pair {
        plan,
        library: Desk::new::<Library>(plan),
        twin: Desk::new::<Twin>(plan),
        calls: Vec::new(),
        marks_differ: 0,
        puts: 0,
        conflicts: 0,
        longest: 0,
    };
    compare(plan, &pair.library.area, &pair.twin.area, &mut pair.marks_differ);
    pair.settle(&mut random);
    let n = plan.atoms;
    let deep = n / 3;
    let mut done = 0;
    while done < gives {
        let level = pair.library.next[1];
        let length = pair.library.next[0];
        if level > 0 && (level >= deep || length == n || random.chance(8)) {
            // a few levels, or where it is deep any number of them
            let back = if level >= deep || length == n { 1 + random.below(level) } else { 1 + random.below(8).min(level - 1) };
            let k = level - back;
            pair.run(Call::TakeBack(k));
            pair.settle(&mut random);
            continue;
        }
        // every fourth answer is about a head
        let among = if random.chance(4) { plan.columns.heads.len() as u64 } else { n };
        let mut a = 1 + random.below(among);
        while pair.library.area[(n - 1 + a) as usize] != 0 {
            a = a % n + 1;
        }
        pair.run(Call::Open);
        let literal = if random.chance(2) { a as i64 } else { -(a as i64) };
        pair.run(Call::Give(literal));
        done += 1;
        pair.settle(&mut random);
        if random.chance(8) {
            pair.report(&mut random);
        }
    }
    pair.run(Call::TakeBack(0));
    pair.settle(&mut random);
    Morning {
        calls: pair.calls,
        gives: done,
        puts: pair.puts,
        conflicts: pair.conflicts,
        longest: pair.longest,
        marks_differ: pair.marks_differ,
    }
}

/// How often library and twin refused broken areas, and how often both took a changed one as whole.
pub struct Broken {
    pub refused: u64,
    pub whole: u64,
}

/// Areas with one or two words changed, at states along a morning: both must give the same answer, and change the same words.
pub fn broken(plan: &Plan, calls: &[Call], times: u64, seed: u64) -> Broken {
    let mut random = Random::new(seed);
    let mut desk = Desk::new::<Library>(plan);
    let mut told = Broken { refused: 0, whole: 0 };
    let stretch = calls.len() as u64 / 200 + 1;
    let n = plan.atoms as usize;
    for (i, &call) in calls.iter().enumerate() {
        desk.run::<Library>(call);
        if i as u64 % stretch != 0 {
            continue;
        }
        for _ in 0..times / 200 {
            let mut a = Desk { area: desk.area.clone(), next: desk.next, list: vec![0; 3 * 1024] };
            for _ in 0..1 + random.below(2) {
                // half of the changes are in the words of the trail and the records, by place or by value
                let at = if random.chance(2) {
                    random.below((4 * n + 8 * plan.columns.heads.len()) as u64)
                } else {
                    random.below(a.area.len() as u64)
                } as usize;
                let other = a.area[random.below(a.area.len() as u64) as usize];
                let word = a.area[at];
                a.area[at] = match random.below(7) {
                    0 => word ^ 1 << random.below(64),
                    1 => word ^ 1 << random.below(12),
                    2 => word.wrapping_add(1),
                    3 => word.wrapping_sub(1),
                    4 => 0,
                    5 => other,
                    _ => word ^ 16,
                };
            }
            if random.chance(16) {
                let cut = random.below(a.area.len() as u64) as usize;
                a.area.truncate(cut);
            }
            if random.chance(16) {
                a.next[random.below(2) as usize] ^= 1;
            }
            let mut b = Desk { area: a.area.clone(), next: a.next, list: a.list.clone() };
            let literal = random.between(-(n as i64) - 1, n as i64 + 1);
            let call = match random.below(8) {
                0 => Call::Give(literal),
                1 => Call::Open,
                2 => Call::TakeBack(random.below(a.next[1] + 2)),
                3 => Call::Propagate,
                4 => Call::Bounds(random.below(plan.columns.heads.len() as u64 + 2)),
                5 => Call::Explain(literal),
                6 => Call::ExplainConflict(random.below(plan.columns.heads.len() as u64 + 2)),
                _ => Call::Origin(literal),
            };
            let x = a.run::<Library>(call);
            let y = b.run::<Twin>(call);
            assert_eq!(x, y, "{} on a changed area: library {x} twin {y}", NAMES[call.number()]);
            assert!(a.next == b.next && a.list == b.list);
            compare(plan, &a.area, &b.area, &mut 0);
            if x == 9 {
                told.refused += 1;
            } else {
                told.whole += 1;
            }
        }
    }
    told
}

/// Plans with some numbers changed, loaded by both: how often each refusal came, 0 for none.
pub fn loads(plan: &Plan, times: u64, seed: u64) -> [u64; 19] {
    let mut random = Random::new(seed);
    let mut told = [0; 19];
    for _ in 0..times {
        let mut c = plan.columns.clone();
        let mut atoms = plan.atoms;
        let s = random.below(c.heads.len() as u64) as usize;
        let e = random.below(c.literals.len() as u64) as usize;
        let f = (e + 1).min(c.literals.len() - 1);
        let big = [-1_000_000_000_000_000_001, -1_000_000_001, -1, 0, 1, 1_000_000_000, 1_000_000_001, 1_000_000_000_000_000_000];
        let number = big[random.below(8) as usize];
        for _ in 0..1 + random.below(2) {
            match random.below(13) {
                0 => c.heads[s] = random.below(atoms + 3),
                1 => c.kinds[s] = random.below(6),
                2 => c.sides[s] = random.below(3),
                3 => c.bounds[s] = number,
                4 => c.counts[s] += random.below(2),
                5 | 6 if e < c.weights.len() => c.weights[e] = number,
                7 => c.literals[e] = random.between(-(atoms as i64) - 1, atoms as i64 + 1),
                8 => c.literals[f] = c.literals[e],
                9 => c.literals[f] = -c.literals[e],
                10 => c.literals[e] = c.heads[s] as i64,
                11 => c.weights.truncate(e),
                _ => atoms = random.below(1026),
            }
        }
        let lent = plan.words() - random.chance(16) as usize;
        let mut a = vec![7; lent];
        let mut b = vec![7; lent];
        let room = if random.chance(16) { 1 } else { 2 };
        let (mut x, mut y) = (vec![5; room], vec![5; room]);
        let answer = Library::load(&mut a, atoms, &c, &mut x);
        assert_eq!(answer, Twin::load(&mut b, atoms, &c, &mut y), "load of changed columns");
        assert!(x == y && a == b, "load of changed columns: words");
        told[(answer & 255) as usize] += 1;
    }
    told
}
