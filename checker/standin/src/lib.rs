//! The functions of include/dalelead.h over the checker's own book. The modules are compiled into this crate again, so that an archive of
//! it can be linked into the checker.

#[path = "../../src/assignments.rs"]
mod assignments;
#[path = "../../src/book.rs"]
mod book;
#[path = "../../src/direct.rs"]
mod direct;
#[path = "../../src/library.rs"]
mod library;
#[path = "../../src/meaning.rs"]
mod meaning;
#[path = "../../src/merge.rs"]
mod merge;
#[path = "../../src/standin.rs"]
mod standin;
#[path = "../../src/whole.rs"]
mod whole;

use book::{Columns, Request};
use library::Library;
use standin::{Fault, Standin};

const STANDIN: Standin = Standin { fault: Fault::None };

/// A lent array; null stands for an empty one.
unsafe fn lent<'a, T>(from: *const T, many: usize) -> &'a [T] {
    if many == 0 {
        &[]
    } else {
        std::slice::from_raw_parts(from, many)
    }
}

unsafe fn lent_mut<'a, T>(from: *mut T, many: usize) -> &'a mut [T] {
    if many == 0 {
        &mut []
    } else {
        std::slice::from_raw_parts_mut(from, many)
    }
}

#[no_mangle]
pub extern "C" fn dalelead_need(atoms: u64, sentences: u64, entries: u64) -> u64 {
    STANDIN.need(atoms, sentences, entries)
}

#[no_mangle]
pub unsafe extern "C" fn dalelead_load(
    area: *mut u64,
    area_len: usize,
    atoms: u64,
    heads: *const u64,
    heads_len: usize,
    kinds: *const u64,
    kinds_len: usize,
    sides: *const u64,
    sides_len: usize,
    bounds: *const i64,
    bounds_len: usize,
    counts: *const u64,
    counts_len: usize,
    weights: *const i64,
    weights_len: usize,
    literals: *const i64,
    literals_len: usize,
    next: *mut u64,
    next_len: usize,
) -> u64 {
    let columns = Columns {
        heads: lent(heads, heads_len).to_vec(),
        kinds: lent(kinds, kinds_len).to_vec(),
        sides: lent(sides, sides_len).to_vec(),
        bounds: lent(bounds, bounds_len).to_vec(),
        counts: lent(counts, counts_len).to_vec(),
        weights: lent(weights, weights_len).to_vec(),
        literals: lent(literals, literals_len).to_vec(),
    };
    STANDIN.load(lent_mut(area, area_len), atoms, &columns, lent_mut(next.cast(), next_len), false)
}

/// A call that steps and hands back counters.
macro_rules! steps {
    ($name:ident, $request:expr $(, $argument:ident: $type:ty)?) => {
        #[no_mangle]
        pub unsafe extern "C" fn $name(area: *mut u64, area_len: usize, length: u64, level: u64 $(, $argument: $type)?, next: *mut u64, next_len: usize) -> u64 {
            STANDIN.call(&$request, lent_mut(area, area_len), length, level, lent_mut(next.cast(), next_len), false)
        }
    };
}

#[no_mangle]
pub unsafe extern "C" fn dalelead_search(
    area: *mut u64,
    area_len: usize,
    length: u64,
    level: u64,
    literals: *const i64,
    literals_len: usize,
    next: *mut u64,
    next_len: usize,
) -> u64 {
    let request = Request::Search(lent(literals, literals_len).to_vec());
    STANDIN.call(&request, lent_mut(area, area_len), length, level, lent_mut(next.cast(), next_len), false)
}

/// A report: the area is only read.
macro_rules! reports {
    ($name:ident, $request:expr $(, $argument:ident: $type:ty)?) => {
        #[no_mangle]
        pub unsafe extern "C" fn $name(area: *const u64, area_len: usize, length: u64, level: u64 $(, $argument: $type)?, list: *mut i64, list_len: usize) -> u64 {
            let mut words = lent(area, area_len).to_vec();
            STANDIN.call(&$request, &mut words, length, level, lent_mut(list, list_len), false)
        }
    };
}

steps!(dalelead_give, Request::Give(literal), literal: i64);
steps!(dalelead_open, Request::Open);
steps!(dalelead_take_back, Request::TakeBack(k), k: u64);
steps!(dalelead_propagate, Request::Propagate);
reports!(dalelead_bounds, Request::Bounds(sentence), sentence: u64);
reports!(dalelead_explain, Request::Explain(literal), literal: i64);
reports!(dalelead_explain_conflict, Request::ExplainConflict(sentence), sentence: u64);
reports!(dalelead_origin, Request::Origin(literal), literal: i64);
reports!(dalelead_trail, Request::Trail);
