//! The calls of include/dalelead.h as the drivers use them, and the linked library.

use crate::book::{Columns, Request};

/// A library under test. `null` says that arrays of length 0 are lent as null pointers. `result` is the call's `next`, `out` or `list`.
pub trait Library {
    fn need(&self, atoms: u64, sentences: u64, entries: u64) -> u64;
    fn load(&self, area: &mut [u64], atoms: u64, columns: &Columns, next: &mut [i64], null: bool) -> u64;
    fn call(&self, request: &Request, area: &mut [u64], length: u64, level: u64, result: &mut [i64], null: bool) -> u64;
}

#[cfg(dalelead_linked)]
pub use linked::Linked;

#[cfg(dalelead_linked)]
mod linked {
    use super::*;
    use std::ptr;

    include!(concat!(env!("CARGO_MANIFEST_DIR"), "/../include/dalelead.rs"));

    /// The static archive libdalelead_c.a.
    pub struct Linked;

    fn lent<T>(array: &[T], null: bool) -> *const T {
        if null && array.is_empty() {
            ptr::null()
        } else {
            array.as_ptr()
        }
    }

    fn lent_mut<T>(array: &mut [T], null: bool) -> *mut T {
        if null && array.is_empty() {
            ptr::null_mut()
        } else {
            array.as_mut_ptr()
        }
    }

    impl Library for Linked {
        fn need(&self, atoms: u64, sentences: u64, entries: u64) -> u64 {
            // No pointer is lent.
            unsafe { dalelead_need(atoms, sentences, entries) }
        }

        fn load(&self, area: &mut [u64], atoms: u64, columns: &Columns, next: &mut [i64], null: bool) -> u64 {
            let c = columns;
            // Every array is lent with its own length for the time of the call, and none overlaps another.
            unsafe {
                dalelead_load(
                    lent_mut(area, null),
                    area.len(),
                    atoms,
                    lent(&c.heads, null),
                    c.heads.len(),
                    lent(&c.kinds, null),
                    c.kinds.len(),
                    lent(&c.sides, null),
                    c.sides.len(),
                    lent(&c.bounds, null),
                    c.bounds.len(),
                    lent(&c.counts, null),
                    c.counts.len(),
                    lent(&c.weights, null),
                    c.weights.len(),
                    lent(&c.literals, null),
                    c.literals.len(),
                    lent_mut(next, null).cast(),
                    next.len(),
                )
            }
        }

        fn call(&self, request: &Request, area: &mut [u64], length: u64, level: u64, result: &mut [i64], null: bool) -> u64 {
            let (words, many) = (lent_mut(area, null), area.len());
            let (to, room) = (lent_mut(result, null), result.len());
            let next = to.cast::<u64>();
            // As above.
            unsafe {
                match *request {
                    Request::Search(ref literals) => {
                        // One literal read too many would be 0.
                        let list = [&[0], literals.as_slice(), &[0]].concat();
                        let from = lent(&list[1..list.len() - 1], null);
                        let answer = dalelead_search(words, many, length, level, from, literals.len(), next, room);
                        assert!(list[1..list.len() - 1] == *literals, "search changed its list");
                        answer
                    }
                    Request::Give(literal) => dalelead_give(words, many, length, level, literal, next, room),
                    Request::Open => dalelead_open(words, many, length, level, next, room),
                    Request::TakeBack(k) => dalelead_take_back(words, many, length, level, k, next, room),
                    Request::Propagate => dalelead_propagate(words, many, length, level, next, room),
                    Request::Bounds(sentence) => dalelead_bounds(words, many, length, level, sentence, to, room),
                    Request::Explain(literal) => dalelead_explain(words, many, length, level, literal, to, room),
                    Request::ExplainConflict(sentence) => dalelead_explain_conflict(words, many, length, level, sentence, to, room),
                    Request::Origin(literal) => dalelead_origin(words, many, length, level, literal, to, room),
                    Request::Trail => dalelead_trail(words, many, length, level, to, room),
                }
            }
        }
    }
}
