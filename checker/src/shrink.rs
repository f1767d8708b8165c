//! Makes a failing list of calls or text shorter while it keeps failing.

use std::time::{Duration, Instant};

use crate::book::Columns;
use crate::calls::*;

/// Leaves out runs of items, halves first and single ones last, as long as what is left fails.
pub fn shorten<T: Clone>(items: &[T], fails: &mut dyn FnMut(&[T]) -> bool) -> Vec<T> {
    shorten_while(items, &|| true, fails)
}

/// The same, no longer than there is time.
pub fn shorten_while<T: Clone>(items: &[T], time: &dyn Fn() -> bool, fails: &mut dyn FnMut(&[T]) -> bool) -> Vec<T> {
    let mut kept = items.to_vec();
    let mut run = kept.len().div_ceil(2).max(1);
    loop {
        let mut at = 0;
        let mut shorter = false;
        while at < kept.len() && time() {
            let mut without = kept[..at].to_vec();
            without.extend_from_slice(&kept[(at + run).min(kept.len())..]);
            if without.len() < kept.len() && fails(&without) {
                kept = without;
                shorter = true;
            } else {
                at += run;
            }
        }
        if run == 1 && !shorter || !time() {
            return kept;
        }
        if run > 1 {
            run = run.div_ceil(2);
        }
    }
}

/// A shorter list that fails: calls left out, then calls aside, sentences, entries and odd arguments. What is found in the time counts.
pub fn list(list: &List, time: Duration, fails: &dyn Fn(&List) -> bool) -> List {
    let start = Instant::now();
    let fails = |list: &List| start.elapsed() < time && fails(list);
    let mut best = list.clone();
    for _ in 0..4 {
        let before = best.clone();
        best.calls = shorten(&best.calls, &mut |calls| fails(&List { seed: list.seed, calls: calls.to_vec() }));
        for at in 0..best.calls.len() {
            let call = best.calls[at].clone();
            let mut attempt = |call: Call| {
                let mut other = best.clone();
                other.calls[at] = call;
                let better = other != best && fails(&other);
                if better {
                    best = other;
                }
                better
            };
            simplify(call, &mut attempt);
        }
        if best == before {
            break;
        }
    }
    best
}

/// Tries simpler forms of one call.
fn simplify(call: Call, attempt: &mut dyn FnMut(Call) -> bool) {
    match call {
        Call::Act(act) => {
            let asked = match &act.asked {
                Asked::Search(literals) => {
                    let with = |kept: &[Literal]| Call::Act(Act { asked: Asked::Search(kept.to_vec()), ..act.clone() });
                    Asked::Search(shorten(literals, &mut |kept| attempt(with(kept))))
                }
                asked => asked.clone(),
            };
            attempt(Call::Act(Act::plain(asked)));
        }
        Call::Aside(change, acts) => {
            let acts = shorten(&acts, &mut |acts| attempt(Call::Aside(change.clone(), acts.to_vec())));
            let plain = acts.iter().map(|act| Act::plain(act.asked.clone())).collect();
            attempt(Call::Aside(change.clone(), plain));
            if let Change::Words(words) = change {
                shorten(&words, &mut |words| attempt(Call::Aside(Change::Words(words.to_vec()), acts.clone())));
            }
        }
        Call::Load(load) => {
            let Some(mut sentences) = load.columns.sentences() else {
                return;
            };
            let with =
                |sentences: &[crate::meaning::Sentence]| Call::Load(Box::new(Load { columns: Columns::of(sentences), ..(*load).clone() }));
            sentences = shorten(&sentences, &mut |sentences| attempt(with(sentences)));
            for s in 0..sentences.len() {
                let entries = sentences[s].entries.clone();
                let kept = shorten(&entries, &mut |entries| {
                    let mut other = sentences.clone();
                    other[s].entries = entries.to_vec();
                    attempt(with(&other))
                });
                sentences[s].entries = kept;
            }
            attempt(Call::Load(Box::new(Load { columns: Columns::of(&sentences), area: 0, next: 2, null: false, ..(*load).clone() })));
        }
        _ => (),
    }
}
