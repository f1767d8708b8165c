//! Times of the library's calls beside those of a twin in plain Rust and of one pass over the area; a whole morning; growth with size.

mod calls;
mod morning;
mod plan;
#[allow(dead_code)]
#[path = "../../checker/src/random.rs"]
mod random;
mod twin;

use calls::{Calls, Library};
use morning::{broken, loads, morning, Call, Desk, Morning, NAMES};
use plan::{plan, Plan};
use std::hint::black_box;
use std::time::Instant;
use twin::Twin;

const SEED: u64 = 20_261_116;

/// Calls that are run on one side before it is the other's turn.
const STRETCH: usize = 500;

/// How often a call of the library reads the entries, by its design (docs/PERFORMANCE.md): the check, and what the call does after it.
const CHECK: &str = "2 to 4";
const DESIGN: [&str; 9] = ["3 to 5", CHECK, "3 to 5", "", CHECK, CHECK, CHECK, CHECK, CHECK];

fn median<T: Copy + PartialOrd>(of: &mut [T]) -> T {
    of.sort_by(|a, b| a.partial_cmp(b).unwrap());
    of[of.len() / 2]
}

/// The times of one side, in ns: each call of each repetition by its kind, the propagates that put nothing on, the others with how many
/// they put on, and each stretch.
struct Side {
    calls: [Vec<f64>; 9],
    quiet: Vec<f64>,
    putting: Vec<(f64, f64)>,
    stretches: Vec<Vec<f64>>,
}

impl Side {
    fn new(stretches: usize) -> Side {
        Side { calls: Default::default(), quiet: Vec::new(), putting: Vec::new(), stretches: vec![Vec::new(); stretches] }
    }

    fn run<C: Calls>(&mut self, desk: &mut Desk, calls: &[Call], stretch: usize, count: bool) -> u64 {
        let mut sum = 0u64;
        let mut total = 0.0;
        for &call in calls {
            let start = Instant::now();
            let answer = desk.run::<C>(call);
            let time = start.elapsed().as_nanos() as f64;
            sum = sum.wrapping_mul(31).wrapping_add(answer).wrapping_add(desk.next[0]);
            total += time;
            if count {
                self.calls[call.number()].push(time);
                if let Call::Propagate = call {
                    match desk.next[2] {
                        0 => self.quiet.push(time),
                        put => self.putting.push((time, put as f64)),
                    }
                }
            }
        }
        if count {
            self.stretches[stretch].push(total);
        }
        sum
    }

    fn morning(&mut self) -> f64 {
        self.stretches.iter_mut().map(|s| median(s)).sum()
    }
}

struct Figures {
    words: usize,
    pass: f64,
    load: [f64; 2],
    calls: [[f64; 2]; 9],
    many: [usize; 9],
    quiet: [f64; 2],
    /// what each literal put on adds to a propagate that puts nothing on
    put: [f64; 2],
    morning: [f64; 2],
    told: Morning,
}

/// One pass over the area, summing its words: the best of the medians on some areas, since where an area lies tells.
fn one_pass(plan: &Plan) -> f64 {
    let desks: Vec<Desk> = (0..8).map(|_| Desk::new::<Library>(plan)).collect();
    let pass = |desk: &Desk| {
        let start = Instant::now();
        for _ in 0..10 {
            let area = black_box(&desk.area[..]);
            black_box(area.iter().fold(0u64, |sum, &w| sum.wrapping_add(w)));
        }
        start.elapsed().as_nanos() as f64 / 10.0
    };
    let medians = desks.iter().map(|desk| median(&mut (0..100).map(|_| pass(desk)).collect::<Vec<f64>>()));
    medians.fold(f64::INFINITY, f64::min)
}

fn load_time(plan: &Plan) -> [f64; 2] {
    let mut times = [Vec::new(), Vec::new()];
    let mut desk = Desk::new::<Library>(plan);
    for _ in 0..200 {
        let start = Instant::now();
        black_box(Library::load(&mut desk.area, plan.atoms, &plan.columns, &mut desk.next));
        times[0].push(start.elapsed().as_nanos() as f64);
        let start = Instant::now();
        black_box(Twin::load(&mut desk.area, plan.atoms, &plan.columns, &mut desk.next));
        times[1].push(start.elapsed().as_nanos() as f64);
    }
    times.map(|mut t| median(&mut t))
}

fn measure(plan: &Plan, gives: u64, repetitions: usize) -> Figures {
    let told = morning(plan, gives, SEED + 1);
    let many = told.calls.len().div_ceil(STRETCH);
    let mut sides = [Side::new(many), Side::new(many)];
    for repetition in 0..repetitions + 1 {
        // the first is a warm-up; then library and twin take turns in going first
        let count = repetition > 0;
        let mut library = Desk::new::<Library>(plan);
        let mut twin = Desk::new::<Twin>(plan);
        let calls = if count { &told.calls[..] } else { &told.calls[..told.calls.len() / 4] };
        for (i, stretch) in calls.chunks(STRETCH).enumerate() {
            let (a, b);
            if (i + repetition) % 2 == 0 {
                a = sides[0].run::<Library>(&mut library, stretch, i, count);
                b = sides[1].run::<Twin>(&mut twin, stretch, i, count);
            } else {
                b = sides[1].run::<Twin>(&mut twin, stretch, i, count);
                a = sides[0].run::<Library>(&mut library, stretch, i, count);
            }
            assert_eq!(a, b, "library and twin answered differently");
        }
    }
    let [mut library, mut twin] = sides;
    let quiet = [median(&mut library.quiet), median(&mut twin.quiet)];
    let put = std::array::from_fn(|i| {
        let putting = if i == 0 { &library.putting } else { &twin.putting };
        let mut each: Vec<f64> = putting.iter().map(|(time, put)| (time - quiet[i]) / put).collect();
        median(&mut each)
    });
    Figures {
        words: plan.words(),
        pass: one_pass(plan),
        load: load_time(plan),
        many: std::array::from_fn(|k| library.calls[k].len() / repetitions),
        calls: std::array::from_fn(|k| {
            if library.calls[k].is_empty() {
                return [f64::NAN; 2];
            }
            [median(&mut library.calls[k]), median(&mut twin.calls[k])]
        }),
        quiet,
        put,
        morning: [library.morning(), twin.morning()],
        told,
    }
}

fn line(name: &str, many: &str, times: [f64; 2], f: &Figures, design: &str) {
    println!(
        "{name:<26}{many:>9}{:>11.2}{:>11.2}{:>8.2}{:>10.2}{:>9.1}{:>9.1}  {design}",
        times[0] / 1e3,
        times[1] / 1e3,
        times[0] / times[1],
        times[0] / f.words as f64,
        times[0] / f.pass,
        times[1] / f.pass,
    );
}

fn table(plan: &Plan, f: &Figures) {
    let c = &plan.columns;
    println!(
        "{}: {} atoms, {} sentences, {} entries, {} words; one pass over the area {:.2} us",
        plan.name,
        plan.atoms,
        c.heads.len(),
        c.weights.len(),
        f.words,
        f.pass / 1e3
    );
    println!(
        "morning: {} answers, {} calls, {} literals put on by propagate, {} conflicts, longest trail {}",
        f.told.gives,
        f.told.calls.len(),
        f.told.puts,
        f.told.conflicts,
        f.told.longest
    );
    println!();
    println!("call                          calls library us    twin us   ratio  ns/word   passes   twin's  read by design");
    for k in 0..9 {
        line(NAMES[k], &f.many[k].to_string(), f.calls[k], f, DESIGN[k]);
    }
    line("propagate, none put on", "", f.quiet, f, "2 to 5");
    line("propagate, each literal", "", f.put, f, "1 to 3");
    line("load", "", f.load, f, "");
    println!("morning, in ms {:>31.1}{:>11.1}{:>8.2}", f.morning[0] / 1e6, f.morning[1] / 1e6, f.morning[0] / f.morning[1]);
    println!();
}

fn growth(figures: &[Figures]) {
    let full = &figures[2];
    println!("Growth: time of the library in us, and (in brackets) the time over the area's words, the quarter's being 1");
    println!("call                            quarter          half          full");
    let row = |name: &str, of: &dyn Fn(&Figures) -> f64| {
        let unit = of(&figures[0]) / figures[0].words as f64;
        let cells: Vec<String> = figures.iter().map(|f| format!("{:>8.2} ({:.2})", of(f) / 1e3, of(f) / f.words as f64 / unit)).collect();
        println!("{name:<24}{:>15}{:>14}{:>14}", cells[0], cells[1], cells[2]);
    };
    for k in 0..9 {
        if k != Call::Propagate.number() {
            row(NAMES[k], &|f| f.calls[k][0]);
        }
    }
    row("propagate, none put on", &|f| f.quiet[0]);
    row("propagate, each literal", &|f| f.put[0]);
    row("load", &|f| f.load[0]);
    row("one pass", &|f| f.pass);
    let cells: Vec<String> = figures.iter().map(|f| f.words.to_string()).collect();
    println!("words                   {:>15}{:>14}{:>14}", cells[0], cells[1], cells[2]);
    println!();
    let give = full.calls[0][0] / full.calls[0][1];
    let whole = full.morning[0] / full.morning[1];
    let bar = |met: bool| if met { "met" } else { "not met" };
    println!("Bars at full size:");
    println!("  a give below 1.5 times the twin's: {give:.2}, {}", bar(give < 1.5));
    println!("  a morning below 1.5 times the twin's: {whole:.2}, {}", bar(whole < 1.5));
    println!(
        "  a give in fewer than six passes over the area: {} by its design; its time is that of {:.1} summing passes",
        DESIGN[0],
        full.calls[0][0] / full.pass
    );
    let grown = |of: &dyn Fn(&Figures) -> f64| of(full) / of(&figures[0]) / (full.words as f64 / figures[0].words as f64);
    let mut worst: f64 = 0.0;
    for k in 0..9 {
        if k != Call::Propagate.number() {
            worst = worst.max(grown(&|f| f.calls[k][0]));
        }
    }
    worst = worst.max(grown(&|f| f.quiet[0])).max(grown(&|f| f.put[0])).max(grown(&|f| f.load[0]));
    println!("  growth from a quarter to full over that of the area, the fastest growing call: {worst:.2}");
}

/// The library's calls alone, or its load alone, for a profiler.
fn profile(plan: &Plan, load: bool) {
    let mut desk = Desk::new::<Library>(plan);
    if load {
        for _ in 0..10_000 {
            black_box(Library::load(&mut desk.area, plan.atoms, &plan.columns, &mut desk.next));
        }
        return;
    }
    let told = morning(plan, 4_000, SEED + 1);
    for _ in 0..10 {
        desk = Desk::new::<Library>(plan);
        for &call in &told.calls {
            black_box(desk.run::<Library>(call));
        }
    }
}

fn main() {
    let quick = std::env::args().any(|a| a == "quick");
    let gives = if quick { 4_000 } else { 40_000 };
    let repetitions = if quick { 3 } else { 5 };
    let plans = [
        plan("A plan of a quarter", 256, 64, SEED),
        plan("A plan of half the size", 512, 128, SEED),
        plan("A plan at the limits", 1024, 256, SEED),
    ];
    if std::env::args().any(|a| a == "profile") {
        return profile(&plans[2], std::env::args().any(|a| a == "load"));
    }
    let figures: Vec<Figures> = plans.iter().map(|p| measure(p, gives, repetitions)).collect();
    for (p, f) in plans.iter().zip(&figures) {
        let told = broken(p, &f.told.calls, if quick { 4_000 } else { 40_000 }, SEED + 2);
        println!(
            "{}: library and twin agreed on {} calls, words and lists compared at each (pending marks that differed: {}), and on {} changed \
             areas, {} refused and {} whole",
            p.name,
            f.told.calls.len(),
            f.told.marks_differ,
            told.refused + told.whole,
            told.refused,
            told.whole
        );
    }
    let told = loads(&plans[0], if quick { 2_000 } else { 20_000 }, SEED + 3);
    let codes: Vec<String> = (0..19).filter(|&c| told[c] > 0).map(|c| format!("{c}: {}", told[c])).collect();
    println!("Loads of changed columns, with the same answers and words; by code {}", codes.join(", "));
    println!();
    table(&plans[2], &figures[2]);
    growth(&figures);
}
