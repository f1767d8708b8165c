//! The twin: the same calls over the same words, in plain Rust, unverified and written for speed. Every clause of wholeness is decided at
//! every call. The check is one walk over the area: a sentence's entries are read once, for their ranges, for atoms met twice (stamps in a
//! small table), for the product, and for both extremes; the sentences that have the atom of a give are noted on the way.
//!
//! Indexes are not checked where the clauses decided before have shown them to be inside.

use crate::calls::Calls;
use crate::plan::Columns;

const ATOMS: usize = 1024;
const SENTENCES: usize = 256;
const ENTRIES: usize = 4096;
const EACH: u64 = 1024;
const LEVELS: u64 = 1024;

/// The word of 0, and that of a value above every number.
const HALF: u64 = 1 << 62;
const TOP: u64 = 1 << 63;
const WEIGHT: u64 = 1_000_000_000;
const BOUND: u64 = 1_000_000_000_000_000_000;

const SUM: u64 = 0;
const PRODUCT: u64 = 1;
const COUNT: u64 = 2;
const MAX: u64 = 3;
const MIN: u64 = 4;

const PENDING: u64 = 16;

/// Some of the sentences.
#[derive(Clone, Copy)]
struct Set([u64; SENTENCES / 64]);

impl Set {
    const NONE: Set = Set([0; SENTENCES / 64]);

    #[inline(always)]
    fn put(&mut self, s: usize) {
        self.0[s / 64 % (SENTENCES / 64)] |= 1 << (s % 64);
    }

    #[inline(always)]
    fn drop(&mut self, s: usize) {
        self.0[s / 64 % (SENTENCES / 64)] &= !(1 << (s % 64));
    }

    #[inline(always)]
    fn first(&self) -> Option<usize> {
        for (i, &w) in self.0.iter().enumerate() {
            if w != 0 {
                return Some(64 * i + w.trailing_zeros() as usize);
            }
        }
        None
    }
}

/// The area's words, its atoms and sentences, and where its entries start.
#[derive(Clone, Copy)]
struct View {
    words: *mut u64,
    n: usize,
    count: usize,
    entries: usize,
}

impl View {
    #[inline(always)]
    unsafe fn at(&self, i: usize) -> u64 {
        *self.words.add(i)
    }

    #[inline(always)]
    unsafe fn set(&self, i: usize, x: u64) {
        *self.words.add(i) = x
    }

    #[inline(always)]
    fn base(&self, s: usize) -> usize {
        4 * self.n + 8 * s
    }

    /// Where the entries of the sentence at `base` start.
    #[inline(always)]
    unsafe fn start(&self, base: usize) -> usize {
        self.entries + 2 * self.at(base + 6) as usize
    }

    #[inline(always)]
    unsafe fn merged(&self, base: usize) -> usize {
        (self.at(base + 7) >> 16) as usize
    }

    #[inline(always)]
    unsafe fn value(&self, atom: u64) -> u64 {
        *self.words.add(self.n - 1 + atom as usize)
    }
}

#[inline(always)]
unsafe fn all_zero(words: *const u64, from: usize, to: usize) -> bool {
    let mut any = 0;
    for i in from..to {
        any |= *words.add(i);
    }
    any == 0
}

/// One more entry in both folds.
#[inline(always)]
fn fold<const K: u64>(least: &mut u64, greatest: &mut u64, w: u64, l: u64, v: u64) {
    let open = v == 0;
    let holds = (v ^ l) & 1 != 0;
    match K {
        SUM | COUNT => {
            let d = w.wrapping_sub(HALF) as i64;
            let fixed = if holds { d } else { 0 };
            *least = least.wrapping_add(if open { d.min(0) } else { fixed } as u64);
            *greatest = greatest.wrapping_add(if open { d.max(0) } else { fixed } as u64);
        }
        PRODUCT => {
            let f = w.wrapping_sub(HALF);
            let fixed = !open & holds;
            *least = least.wrapping_mul(if fixed { f } else { 1 });
            *greatest = greatest.wrapping_mul(if open | fixed { f } else { 1 });
        }
        MAX => {
            let fixed = !open & holds;
            *least = (*least).max(if fixed { w } else { 0 });
            *greatest = (*greatest).max(if open | fixed { w } else { 0 });
        }
        _ => {
            let fixed = !open & holds;
            *least = (*least).min(if open | fixed { w } else { TOP });
            *greatest = (*greatest).min(if fixed { w } else { TOP });
        }
    }
}

/// Where the folds start; a product's are numbers, not words.
#[inline(always)]
fn start<const K: u64>(constant: u64) -> u64 {
    match K {
        SUM | COUNT => constant,
        PRODUCT => 1,
        MAX => 0,
        _ => TOP,
    }
}

#[inline(always)]
fn finish<const K: u64>(x: u64) -> u64 {
    if K == PRODUCT {
        HALF + x
    } else {
        x
    }
}

#[inline(always)]
unsafe fn folds<const K: u64>(view: View, base: usize) -> (u64, u64) {
    let at = view.start(base);
    let first = start::<K>(view.at(base + 3));
    let (mut least, mut greatest) = (first, first);
    for i in 0..view.merged(base) {
        let w = view.at(at + 2 * i);
        let l = view.at(at + 2 * i + 1);
        fold::<K>(&mut least, &mut greatest, w, l, view.value(l >> 1));
    }
    (finish::<K>(least), finish::<K>(greatest))
}

#[inline(always)]
unsafe fn extremes(view: View, base: usize) -> (u64, u64) {
    match view.at(base + 1) & 7 {
        SUM | COUNT => folds::<SUM>(view, base),
        PRODUCT => folds::<PRODUCT>(view, base),
        MAX => folds::<MAX>(view, base),
        _ => folds::<MIN>(view, base),
    }
}

enum Said {
    Silent,
    Conflict,
    Forced(u64, usize),
}

#[inline(always)]
fn keeps(up: bool, limit: u64, e: u64) -> bool {
    (limit <= e) == up
}

/// The second best of a maximum up, of a minimum down.
#[inline(always)]
unsafe fn second<const UP: bool>(view: View, at: usize, merged: usize) -> u64 {
    let empty = if UP { 0 } else { TOP };
    let (mut best, mut next) = (empty, empty);
    for i in 0..merged {
        let w = view.at(at + 2 * i);
        let l = view.at(at + 2 * i + 1);
        let v = view.value(l >> 1);
        let x = if v == 0 || (v ^ l) & 1 != 0 { w } else { empty };
        if UP {
            next = next.max(best.min(x));
            best = best.max(x);
        } else {
            next = next.min(best.max(x));
            best = best.min(x);
        }
    }
    next
}

#[inline(always)]
unsafe fn first_turning(view: View, at: usize, merged: usize, up: bool, empty: u64, turns: impl Fn(u64) -> bool) -> Said {
    for i in 0..merged {
        let l = view.at(at + 2 * i + 1);
        if view.value(l >> 1) == 0 {
            let w = view.at(at + 2 * i);
            if turns(w) {
                let along = if up { w >= empty } else { w <= empty };
                return Said::Forced(if along { l } else { l ^ 1 }, i + 1);
            }
        }
    }
    Said::Silent
}

/// What the sentence at `base`, whose head is fixed, says, by its stored bounds.
unsafe fn body(view: View, base: usize, tag: u64, limit: u64, v: u64) -> Said {
    let up = (tag & 8 == 0) == (v & 1 == 1);
    let (least, greatest) = (view.at(base + 4), view.at(base + 5));
    let (e, o) = if up { (greatest, least) } else { (least, greatest) };
    if !keeps(up, limit, e) {
        return Said::Conflict;
    }
    if keeps(up, limit, o) {
        return Said::Silent;
    }
    let at = view.start(base);
    let merged = view.merged(base);
    match (tag & 7, up) {
        (SUM | COUNT, true) => {
            let room = e - limit;
            first_turning(view, at, merged, true, HALF, |w| (w.wrapping_sub(HALF) as i64).unsigned_abs() > room)
        }
        (SUM | COUNT, false) => {
            let room = limit - e;
            first_turning(view, at, merged, false, HALF, |w| (w.wrapping_sub(HALF) as i64).unsigned_abs() >= room)
        }
        (PRODUCT, true) => first_turning(view, at, merged, true, HALF + 1, |w| HALF + (e - HALF) / (w - HALF) < limit),
        (PRODUCT, false) => first_turning(view, at, merged, false, HALF + 1, |w| HALF + (e - HALF) * (w - HALF) >= limit),
        (MAX, true) => {
            if second::<true>(view, at, merged) >= limit {
                return Said::Silent;
            }
            first_turning(view, at, merged, true, 0, |w| w == e)
        }
        (MAX, false) => first_turning(view, at, merged, false, 0, |w| w >= limit),
        (_, true) => first_turning(view, at, merged, true, TOP, |w| w < limit),
        (_, false) => {
            if second::<false>(view, at, merged) < limit {
                return Said::Silent;
            }
            first_turning(view, at, merged, false, TOP, |w| w == e)
        }
    }
}

/// What the sentence at `base` says first, by its stored bounds.
#[inline(always)]
unsafe fn says(view: View, base: usize) -> Said {
    let head = view.at(base);
    let tag = view.at(base + 1);
    let upper = tag & 8 != 0;
    let limit = view.at(base + 2) + upper as u64;
    let v = view.value(head);
    if v != 0 {
        return body(view, base, tag, limit, v);
    }
    let (least, greatest) = (view.at(base + 4), view.at(base + 5));
    if limit <= least {
        return Said::Forced(2 * head + upper as u64, 0);
    }
    if greatest < limit {
        return Said::Forced(2 * head + !upper as u64, 0);
    }
    Said::Silent
}

// ---- the check

/// The entries of a sentence, its bounds and its silence. `stamp` is the sentence's own.
#[inline(always)]
unsafe fn sentence_ok<const K: u64>(view: View, s: usize, base: usize, seen: &mut [u16; ATOMS + 1], asked: u64, hits: &mut Set) -> bool {
    let stamp = s as u16 + 1;
    let head = view.at(base);
    let counts = view.at(base + 7);
    let written = counts & 0xffff;
    let merged = (counts >> 16) as usize;
    let reach = match K {
        SUM | COUNT => WEIGHT * written,
        _ => WEIGHT,
    };
    let constant = view.at(base + 3);
    if K == SUM || K == COUNT {
        if constant.wrapping_sub(HALF - reach) > 2 * reach {
            return false;
        }
    } else if constant != 0 {
        return false;
    }
    let at = view.start(base);
    let first = start::<K>(constant);
    let (mut least, mut greatest) = (first, first);
    let mut product = 1u64;
    let mut hit = head == asked;
    // the head is met already
    *seen.get_unchecked_mut(head as usize) = stamp;
    for i in 0..merged {
        let w = view.at(at + 2 * i);
        let l = view.at(at + 2 * i + 1);
        let a = l >> 1;
        if a.wrapping_sub(1) >= view.n as u64 {
            return false;
        }
        let met = seen.get_unchecked_mut(a as usize);
        if *met == stamp {
            return false;
        }
        *met = stamp;
        match K {
            SUM | COUNT => {
                if l & 1 != 0 || w == HALF || w.wrapping_sub(HALF - reach) > 2 * reach {
                    return false;
                }
            }
            PRODUCT => {
                let f = w.wrapping_sub(HALF);
                match product.checked_mul(f) {
                    Some(p) if p.wrapping_sub(1) < BOUND => product = p,
                    _ => return false,
                }
            }
            _ => {
                if w.wrapping_sub(HALF - reach) > 2 * reach {
                    return false;
                }
            }
        }
        hit |= a == asked;
        fold::<K>(&mut least, &mut greatest, w, l, view.value(a));
    }
    if view.at(base + 4) != finish::<K>(least) || view.at(base + 5) != finish::<K>(greatest) {
        return false;
    }
    if hit {
        hits.put(s);
    }
    if !all_zero(view.words, at + 2 * merged, at + 2 * written as usize) {
        return false;
    }
    if view.at(base + 1) >= PENDING {
        return true;
    }
    matches!(says(view, base), Said::Silent)
}

/// The area as a view where it is whole with these counters; the sentences that have the asked atom go into `hits`.
#[inline(always)]
unsafe fn check(area: *mut u64, words: usize, length: u64, level: u64, asked: u64, hits: &mut Set) -> Option<View> {
    if words == 0 {
        return None;
    }
    let h = *area;
    let n = (h & 0xffff) as usize;
    let count = (h >> 16 & 0xffff) as usize;
    let rows = length as usize;
    if n == 0 || n > ATOMS || count > SENTENCES || words < 4 * n + 8 * count {
        return None;
    }
    if h >> 32 & 0xffff != length || h >> 48 != level || level > LEVELS || rows > n {
        return None;
    }
    let view = View { words: area, n, count, entries: 4 * n + 8 * count };
    // the records: places and ranges
    let mut before = 0;
    for s in 0..count {
        let base = view.base(s);
        let counts = view.at(base + 7);
        let written = counts & 0xffff;
        if view.at(base + 6) != before || written > EACH || counts >> 16 > written {
            return None;
        }
        before += written;
        let tag = view.at(base + 1);
        if view.at(base).wrapping_sub(1) >= n as u64 || tag >= 32 || tag & 7 > MIN {
            return None;
        }
        if view.at(base + 2).wrapping_sub(HALF - BOUND) > 2 * BOUND {
            return None;
        }
    }
    if before > ENTRIES as u64 || words < view.entries + 2 * before as usize {
        return None;
    }
    // the trail: each row's literal has its value, and no other atom has one
    if !all_zero(area, 1, n) || !all_zero(area, 2 * n + rows, 3 * n) || !all_zero(area, 3 * n + rows, 4 * n) {
        return None;
    }
    let mut fixed = 0;
    for a in n..2 * n {
        fixed += (view.at(a) != 0) as usize;
    }
    if fixed != rows {
        return None;
    }
    let mut high = 0;
    for i in 0..rows {
        let l = view.at(2 * n + i);
        let a = l >> 1;
        if a.wrapping_sub(1) >= n as u64 || view.value(a) != 1 + 2 * i as u64 + (l & 1) {
            return None;
        }
        let mark = view.at(3 * n + i);
        let own = mark & 0xffff;
        if own < high {
            return None;
        }
        high = own;
        let reason = (mark >> 16 & 0xffff) as usize;
        let place = (mark >> 32) as usize;
        if reason == 0 {
            if place != 0 {
                return None;
            }
            continue;
        }
        if reason > count {
            return None;
        }
        let base = view.base(reason - 1);
        let there = if place == 0 {
            view.at(base)
        } else if place > view.merged(base) {
            return None;
        } else {
            view.at(view.start(base) + 2 * place - 1) >> 1
        };
        if there != a {
            return None;
        }
    }
    if high > level {
        return None;
    }
    // the sentences
    let mut seen = [0u16; ATOMS + 1];
    for s in 0..count {
        let base = view.base(s);
        let right = match view.at(base + 1) & 7 {
            SUM | COUNT => sentence_ok::<SUM>(view, s, base, &mut seen, asked, hits),
            PRODUCT => sentence_ok::<PRODUCT>(view, s, base, &mut seen, asked, hits),
            MAX => sentence_ok::<MAX>(view, s, base, &mut seen, asked, hits),
            _ => sentence_ok::<MIN>(view, s, base, &mut seen, asked, hits),
        };
        if !right {
            return None;
        }
    }
    Some(view)
}

#[inline(never)]
unsafe fn whole(area: *mut u64, words: usize, length: u64, level: u64) -> Option<View> {
    let mut hits = Set::NONE;
    check(area, words, length, level, 0, &mut hits)
}

#[inline(never)]
unsafe fn whole_with(area: *mut u64, words: usize, length: u64, level: u64, asked: u64, hits: &mut Set) -> Option<View> {
    check(area, words, length, level, asked, hits)
}

fn reading(area: &[u64], length: u64, level: u64) -> Option<View> {
    // nothing is written through a view of a call that reads
    unsafe { whole(area.as_ptr().cast_mut(), area.len(), length, level) }
}

// ---- steps

#[inline(always)]
unsafe fn put(view: View, length: usize, literal: u64, mark: u64) {
    view.set(0, view.at(0) + (1 << 32));
    view.set(view.n - 1 + (literal >> 1) as usize, 1 + 2 * length as u64 + (literal & 1));
    view.set(2 * view.n + length, literal);
    view.set(3 * view.n + length, mark);
}

#[inline(always)]
unsafe fn renew(view: View, s: usize) {
    let base = view.base(s);
    let (least, greatest) = extremes(view, base);
    view.set(base + 4, least);
    view.set(base + 5, greatest);
    view.set(base + 1, view.at(base + 1) | PENDING);
}

/// The sentences that have the atom.
#[inline(always)]
unsafe fn having(view: View, atom: u64) -> Set {
    let mut hits = Set::NONE;
    for s in 0..view.count {
        let base = view.base(s);
        let at = view.start(base);
        let mut hit = view.at(base) == atom;
        for i in 0..view.merged(base) {
            hit |= view.at(at + 2 * i + 1) >> 1 == atom;
        }
        if hit {
            hits.put(s);
        }
    }
    hits
}

#[inline(always)]
unsafe fn renew_all(view: View, mut hits: Set) {
    while let Some(s) = hits.first() {
        hits.drop(s);
        renew(view, s);
    }
}

fn counters(next: &mut [u64], length: u64, level: u64) -> u64 {
    next[0] = length;
    next[1] = level;
    0
}

const fn too_short(needed: usize) -> u64 {
    needed as u64 * 256 + 18
}

fn literal_of(x: u64) -> i64 {
    let a = (x >> 1) as i64;
    if x & 1 == 0 {
        a
    } else {
        -a
    }
}

fn literal_word(l: i64) -> u64 {
    2 * l.unsigned_abs() + (l < 0) as u64
}

/// The position of a literal on the trail; the refusal where it has none.
#[inline(always)]
unsafe fn position(view: View, literal: i64) -> Result<usize, u64> {
    let size = literal.unsigned_abs();
    if size.wrapping_sub(1) >= view.n as u64 {
        return Err(10);
    }
    let v = view.value(size);
    if v == 0 || (v - 1) & 1 != (literal < 0) as u64 {
        return Err(12);
    }
    Ok((v - 1) as usize / 2)
}

/// The causes among the first `limit` rows that the sentence at `base` names, given to `f` by position.
#[inline(always)]
unsafe fn causes(view: View, base: usize, limit: usize, mut f: impl FnMut(usize)) {
    let mut one = |atom: u64| {
        // an open atom's position is past every limit
        let p = (view.value(atom).wrapping_sub(1) >> 1) as usize;
        if p < limit {
            f(p);
        }
    };
    one(view.at(base));
    let at = view.start(base);
    for i in 0..view.merged(base) {
        one(view.at(at + 2 * i + 1) >> 1);
    }
}

/// The negations of the causes behind `front` words of the list, counted first only where the list might be too short.
#[inline(always)]
unsafe fn explanation(view: View, base: usize, limit: usize, front: Option<i64>, list: &mut [i64]) -> u64 {
    let lead = front.is_some() as usize;
    if list.len() < view.merged(base) + 1 + lead {
        let mut needed = lead;
        causes(view, base, limit, |_| needed += 1);
        if list.len() < needed {
            return too_short(needed);
        }
    }
    if let Some(l) = front {
        list[0] = l;
    }
    let mut at = lead;
    causes(view, base, limit, |p| {
        *list.get_unchecked_mut(at) = -literal_of(view.at(2 * view.n + p));
        at += 1;
    });
    at as u64 * 256
}

// ---- load

/// The refusal of one sentence, 0 for none. `signs` has a mark of each atom's sign with the sentence's stamp.
fn refused(n: u64, head: u64, kind: u64, side: u64, bound: i64, weights: &[i64], literals: &[i64], signs: &mut [u32], stamp: u32) -> u64 {
    if kind > MIN || side > 1 || literals.len() as u64 > EACH {
        return 3;
    }
    if head.wrapping_sub(1) >= n {
        return 4;
    }
    let (low, high) = match kind {
        PRODUCT => (1, WEIGHT as i64),
        COUNT => (1, 1),
        _ => (-(WEIGHT as i64), WEIGHT as i64),
    };
    let (mut unfit, mut inside, mut mixed, mut great) = (false, false, false, false);
    let mut product = 1u64;
    for (&w, &l) in weights.iter().zip(literals) {
        let a = l.unsigned_abs();
        if a.wrapping_sub(1) >= n {
            return 4;
        }
        unfit |= w < low || w > high;
        inside |= a == head;
        let own = 2 * stamp + (l < 0) as u32;
        let met = unsafe { signs.get_unchecked_mut(a as usize) };
        mixed |= *met == own ^ 1;
        *met = own;
        if kind == PRODUCT {
            match product.checked_mul(w as u64) {
                Some(p) if p <= BOUND => product = p,
                _ => great = true,
            }
        }
    }
    if unfit || bound.unsigned_abs() > BOUND {
        return 5;
    }
    if inside {
        return 6;
    }
    if mixed && kind != SUM && kind != COUNT {
        return 7;
    }
    if great {
        return 8;
    }
    0
}

/// A written set merged into the words of its room: how many entries are left, and the word of the constant. `places` has, at a literal's
/// word, the sentence's stamp and the place of its entry; `met` the stamp.
fn merge(room: &mut [u64], kind: u64, weights: &[i64], literals: &[i64], places: &mut [u32], met: &mut [u16], stamp: u32) -> (usize, u64) {
    let mixing = kind == SUM || kind == COUNT;
    let mut constant = HALF;
    let mut count = 0;
    for (&weight, &literal) in weights.iter().zip(literals) {
        let mut x = HALF.wrapping_add(weight as u64);
        let mut l = literal_word(literal);
        if kind == COUNT {
            let before = &mut met[l as usize];
            if *before == stamp as u16 {
                continue;
            }
            *before = stamp as u16;
        }
        if mixing && l & 1 != 0 {
            constant = constant.wrapping_add(x.wrapping_sub(HALF));
            x = TOP - x;
            l -= 1;
        }
        let place = &mut places[l as usize];
        if *place >> 16 == stamp {
            let y = &mut room[2 * (*place & 0xffff) as usize];
            *y = match kind {
                SUM | COUNT => *y + x - HALF,
                PRODUCT => HALF + (*y - HALF) * (x - HALF),
                MAX => x.max(*y),
                _ => x.min(*y),
            };
            continue;
        }
        *place = stamp << 16 | count as u32;
        room[2 * count] = x;
        room[2 * count + 1] = l;
        count += 1;
    }
    if mixing {
        let all = count;
        count = 0;
        for k in 0..all {
            let (x, l) = (room[2 * k], room[2 * k + 1]);
            room[2 * count] = x;
            room[2 * count + 1] = l;
            count += (x != HALF) as usize;
        }
    }
    room[2 * count..].fill(0);
    (count, if mixing { constant } else { 0 })
}

pub struct Twin;

impl Calls for Twin {
    fn load(area: &mut [u64], atoms: u64, c: &Columns, next: &mut [u64]) -> u64 {
        let count = c.heads.len();
        let entries = c.weights.len();
        if atoms == 0 || atoms > ATOMS as u64 || count > SENTENCES || entries > ENTRIES {
            return 1;
        }
        if c.kinds.len() != count
            || c.sides.len() != count
            || c.bounds.len() != count
            || c.counts.len() != count
            || c.literals.len() != entries
        {
            return 1;
        }
        let mut left = entries as u64;
        for &k in &c.counts {
            if k > left {
                return 1;
            }
            left -= k;
        }
        if left != 0 {
            return 1;
        }
        let n = atoms as usize;
        if area.len() < 4 * n + 8 * count + 2 * entries {
            return 2;
        }
        let mut signs = [0u32; ATOMS + 1];
        let mut from = 0;
        for s in 0..count {
            let to = from + c.counts[s] as usize;
            let (weights, literals) = (&c.weights[from..to], &c.literals[from..to]);
            let code = refused(atoms, c.heads[s], c.kinds[s], c.sides[s], c.bounds[s], weights, literals, &mut signs, s as u32 + 1);
            if code != 0 {
                return (s as u64 + 1) * 256 + code;
            }
            from = to;
        }
        if next.len() < 2 {
            return too_short(2);
        }
        area[..4 * n].fill(0);
        area[0] = atoms | (count as u64) << 16;
        let view = View { words: area.as_mut_ptr(), n, count, entries: 4 * n + 8 * count };
        let mut places = [0u32; 2 * ATOMS + 2];
        let mut met = [0u16; 2 * ATOMS + 2];
        let mut from = 0;
        for s in 0..count {
            let to = from + c.counts[s] as usize;
            let at = view.entries + 2 * from;
            let room = &mut area[at..at + 2 * (to - from)];
            let (weights, literals) = (&c.weights[from..to], &c.literals[from..to]);
            let (merged, constant) = merge(room, c.kinds[s], weights, literals, &mut places, &mut met, s as u32 + 1);
            let base = view.base(s);
            area[base] = c.heads[s];
            area[base + 1] = c.kinds[s] + 8 * c.sides[s] + PENDING;
            area[base + 2] = HALF.wrapping_add(c.bounds[s] as u64);
            area[base + 3] = constant;
            area[base + 6] = from as u64;
            area[base + 7] = (to - from) as u64 | (merged as u64) << 16;
            let view = View { words: area.as_mut_ptr(), ..view };
            unsafe { renew(view, s) };
            from = to;
        }
        counters(next, 0, 0)
    }

    fn give(area: &mut [u64], length: u64, level: u64, literal: i64, next: &mut [u64]) -> u64 {
        let size = literal.unsigned_abs();
        let mut hits = Set::NONE;
        unsafe {
            let Some(view) = whole_with(area.as_mut_ptr(), area.len(), length, level, size, &mut hits) else {
                return 9;
            };
            if size.wrapping_sub(1) >= view.n as u64 {
                return 10;
            }
            if view.value(size) != 0 {
                return 11;
            }
            if next.len() < 2 {
                return too_short(2);
            }
            put(view, length as usize, literal_word(literal), level);
            renew_all(view, hits);
        }
        counters(next, length + 1, level)
    }

    fn open(area: &mut [u64], length: u64, level: u64, next: &mut [u64]) -> u64 {
        if unsafe { whole(area.as_mut_ptr(), area.len(), length, level) }.is_none() {
            return 9;
        }
        if level >= LEVELS {
            return 14;
        }
        if next.len() < 2 {
            return too_short(2);
        }
        area[0] += 1 << 48;
        counters(next, length, level + 1)
    }

    fn take_back(area: &mut [u64], length: u64, level: u64, k: u64, next: &mut [u64]) -> u64 {
        unsafe {
            let Some(view) = whole(area.as_mut_ptr(), area.len(), length, level) else {
                return 9;
            };
            if k > level {
                return 15;
            }
            if next.len() < 2 {
                return too_short(2);
            }
            let n = view.n;
            let mut touched = [false; ATOMS + 1];
            let mut left = length as usize;
            while left > 0 && view.at(3 * n + left - 1) & 0xffff > k {
                left -= 1;
                let a = (view.at(2 * n + left) >> 1) as usize;
                view.set(n - 1 + a, 0);
                view.set(2 * n + left, 0);
                view.set(3 * n + left, 0);
                *touched.get_unchecked_mut(a) = true;
            }
            view.set(0, view.at(0) & 0xffff_ffff | (left as u64) << 32 | k << 48);
            if left < length as usize {
                for s in 0..view.count {
                    let base = view.base(s);
                    let at = view.start(base);
                    let mut hit = *touched.get_unchecked(view.at(base) as usize);
                    for i in 0..view.merged(base) {
                        hit |= *touched.get_unchecked((view.at(at + 2 * i + 1) >> 1) as usize);
                    }
                    if hit {
                        renew(view, s);
                    }
                }
            }
            counters(next, left as u64, k)
        }
    }

    fn propagate(area: &mut [u64], length: u64, level: u64, next: &mut [u64]) -> u64 {
        unsafe {
            let Some(view) = whole(area.as_mut_ptr(), area.len(), length, level) else {
                return 9;
            };
            if next.len() < 3 {
                return too_short(3);
            }
            // the sentences that may speak: the marked ones, without those found silent since their last change
            let mut may = Set::NONE;
            for s in 0..view.count {
                if view.at(view.base(s) + 1) >= PENDING {
                    may.put(s);
                }
            }
            let mut now = length as usize;
            let mut answer = 0;
            while let Some(s) = may.first() {
                match says(view, view.base(s)) {
                    Said::Silent => may.drop(s),
                    Said::Conflict => {
                        answer = (s as u64 + 1) * 256;
                        break;
                    }
                    Said::Forced(literal, place) => {
                        put(view, now, literal, level | (s as u64 + 1) << 16 | (place as u64) << 32);
                        now += 1;
                        let hits = having(view, literal >> 1);
                        renew_all(view, hits);
                        for (m, h) in may.0.iter_mut().zip(hits.0) {
                            *m |= h;
                        }
                    }
                }
            }
            if answer == 0 {
                for s in 0..view.count {
                    let at = view.base(s) + 1;
                    view.set(at, view.at(at) & 15);
                }
            }
            next[2] = now as u64 - length;
            counters(next, now as u64, level) + answer
        }
    }

    fn bounds(area: &[u64], length: u64, level: u64, sentence: u64, out: &mut [i64]) -> u64 {
        let Some(view) = reading(area, length, level) else {
            return 9;
        };
        if sentence.wrapping_sub(1) >= view.count as u64 {
            return 16;
        }
        if out.len() < 4 {
            return too_short(4);
        }
        let base = view.base(sentence as usize - 1);
        for i in 0..2 {
            let x = area[base + 4 + i];
            let (mark, number) = match x {
                0 => (1, 0),
                TOP.. => (2, 0),
                _ => (0, x as i64 - HALF as i64),
            };
            out[2 * i] = mark;
            out[2 * i + 1] = number;
        }
        0
    }

    fn explain(area: &[u64], length: u64, level: u64, literal: i64, list: &mut [i64]) -> u64 {
        let Some(view) = reading(area, length, level) else {
            return 9;
        };
        unsafe {
            let p = match position(view, literal) {
                Ok(p) => p,
                Err(code) => return code,
            };
            let reason = (view.at(3 * view.n + p) >> 16 & 0xffff) as usize;
            if reason == 0 {
                return 13;
            }
            explanation(view, view.base(reason - 1), p, Some(literal), list)
        }
    }

    fn explain_conflict(area: &[u64], length: u64, level: u64, sentence: u64, list: &mut [i64]) -> u64 {
        let Some(view) = reading(area, length, level) else {
            return 9;
        };
        if sentence.wrapping_sub(1) >= view.count as u64 {
            return 16;
        }
        let base = view.base(sentence as usize - 1);
        unsafe {
            if !matches!(says(view, base), Said::Conflict) {
                return 17;
            }
            explanation(view, base, length as usize, None, list)
        }
    }

    fn origin(area: &[u64], length: u64, level: u64, literal: i64, list: &mut [i64]) -> u64 {
        let Some(view) = reading(area, length, level) else {
            return 9;
        };
        unsafe {
            let top = match position(view, literal) {
                Ok(p) => p,
                Err(code) => return code,
            };
            let mut marked = [false; ATOMS];
            marked[top] = true;
            let mut needed = 0;
            for p in (0..=top).rev() {
                if !marked[p] {
                    continue;
                }
                let reason = (view.at(3 * view.n + p) >> 16 & 0xffff) as usize;
                if reason == 0 {
                    needed += 1;
                    continue;
                }
                // what is left marked are given literals
                marked[p] = false;
                causes(view, view.base(reason - 1), p, |q| *marked.get_unchecked_mut(q) = true);
            }
            if list.len() < needed {
                return too_short(needed);
            }
            let mut at = 0;
            for p in 0..=top {
                if marked[p] {
                    list[at] = literal_of(view.at(2 * view.n + p));
                    at += 1;
                }
            }
            needed as u64 * 256
        }
    }

    fn trail(area: &[u64], length: u64, level: u64, list: &mut [i64]) -> u64 {
        let Some(view) = reading(area, length, level) else {
            return 9;
        };
        let rows = length as usize;
        if list.len() < 3 * rows {
            return too_short(3 * rows);
        }
        for (i, row) in list.chunks_exact_mut(3).take(rows).enumerate() {
            let mark = area[3 * view.n + i];
            row[0] = literal_of(area[2 * view.n + i]);
            row[1] = (mark & 0xffff) as i64;
            row[2] = (mark >> 16 & 0xffff) as i64;
        }
        3 * length * 256
    }
}
