//! The calls of include/dalelead.h over slices, and the static library behind them.

use crate::plan::Columns;

pub trait Calls {
    fn load(area: &mut [u64], atoms: u64, columns: &Columns, next: &mut [u64]) -> u64;
    fn give(area: &mut [u64], length: u64, level: u64, literal: i64, next: &mut [u64]) -> u64;
    fn open(area: &mut [u64], length: u64, level: u64, next: &mut [u64]) -> u64;
    fn take_back(area: &mut [u64], length: u64, level: u64, k: u64, next: &mut [u64]) -> u64;
    fn propagate(area: &mut [u64], length: u64, level: u64, next: &mut [u64]) -> u64;
    fn bounds(area: &[u64], length: u64, level: u64, sentence: u64, out: &mut [i64]) -> u64;
    fn explain(area: &[u64], length: u64, level: u64, literal: i64, list: &mut [i64]) -> u64;
    fn explain_conflict(area: &[u64], length: u64, level: u64, sentence: u64, list: &mut [i64]) -> u64;
    fn origin(area: &[u64], length: u64, level: u64, literal: i64, list: &mut [i64]) -> u64;
    fn trail(area: &[u64], length: u64, level: u64, list: &mut [i64]) -> u64;
}

include!(concat!(env!("CARGO_MANIFEST_DIR"), "/../include/dalelead.rs"));

/// The static library. Every array is lent with its own length for the time of the call, and none overlaps another.
pub struct Library;

impl Calls for Library {
    fn load(area: &mut [u64], atoms: u64, c: &Columns, next: &mut [u64]) -> u64 {
        unsafe {
            dalelead_load(
                area.as_mut_ptr(),
                area.len(),
                atoms,
                c.heads.as_ptr(),
                c.heads.len(),
                c.kinds.as_ptr(),
                c.kinds.len(),
                c.sides.as_ptr(),
                c.sides.len(),
                c.bounds.as_ptr(),
                c.bounds.len(),
                c.counts.as_ptr(),
                c.counts.len(),
                c.weights.as_ptr(),
                c.weights.len(),
                c.literals.as_ptr(),
                c.literals.len(),
                next.as_mut_ptr(),
                next.len(),
            )
        }
    }

    fn give(area: &mut [u64], length: u64, level: u64, literal: i64, next: &mut [u64]) -> u64 {
        unsafe { dalelead_give(area.as_mut_ptr(), area.len(), length, level, literal, next.as_mut_ptr(), next.len()) }
    }

    fn open(area: &mut [u64], length: u64, level: u64, next: &mut [u64]) -> u64 {
        unsafe { dalelead_open(area.as_mut_ptr(), area.len(), length, level, next.as_mut_ptr(), next.len()) }
    }

    fn take_back(area: &mut [u64], length: u64, level: u64, k: u64, next: &mut [u64]) -> u64 {
        unsafe { dalelead_take_back(area.as_mut_ptr(), area.len(), length, level, k, next.as_mut_ptr(), next.len()) }
    }

    fn propagate(area: &mut [u64], length: u64, level: u64, next: &mut [u64]) -> u64 {
        unsafe { dalelead_propagate(area.as_mut_ptr(), area.len(), length, level, next.as_mut_ptr(), next.len()) }
    }

    fn bounds(area: &[u64], length: u64, level: u64, sentence: u64, out: &mut [i64]) -> u64 {
        unsafe { dalelead_bounds(area.as_ptr(), area.len(), length, level, sentence, out.as_mut_ptr(), out.len()) }
    }

    fn explain(area: &[u64], length: u64, level: u64, literal: i64, list: &mut [i64]) -> u64 {
        unsafe { dalelead_explain(area.as_ptr(), area.len(), length, level, literal, list.as_mut_ptr(), list.len()) }
    }

    fn explain_conflict(area: &[u64], length: u64, level: u64, sentence: u64, list: &mut [i64]) -> u64 {
        unsafe { dalelead_explain_conflict(area.as_ptr(), area.len(), length, level, sentence, list.as_mut_ptr(), list.len()) }
    }

    fn origin(area: &[u64], length: u64, level: u64, literal: i64, list: &mut [i64]) -> u64 {
        unsafe { dalelead_origin(area.as_ptr(), area.len(), length, level, literal, list.as_mut_ptr(), list.len()) }
    }

    fn trail(area: &[u64], length: u64, level: u64, list: &mut [i64]) -> u64 {
        unsafe { dalelead_trail(area.as_ptr(), area.len(), length, level, list.as_mut_ptr(), list.len()) }
    }
}
