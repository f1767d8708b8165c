// The functions of dalelead.h, for Rust: to be included where the static library is linked. dalelead.h says what each does.

#[allow(dead_code)]
extern "C" {
    fn dalelead_need(atoms: u64, sentences: u64, entries: u64) -> u64;
    fn dalelead_load(
        area: *mut u64,
        area_len: usize,
        atoms: u64,
        heads: *const u64,
        heads_len: usize,
        kinds: *const u64,
        kinds_len: usize,
        sides: *const u64,
        sides_len: usize,
        bounds: *const i64,
        bounds_len: usize,
        counts: *const u64,
        counts_len: usize,
        weights: *const i64,
        weights_len: usize,
        literals: *const i64,
        literals_len: usize,
        next: *mut u64,
        next_len: usize,
    ) -> u64;
    fn dalelead_give(area: *mut u64, area_len: usize, length: u64, level: u64, literal: i64, next: *mut u64, next_len: usize) -> u64;
    fn dalelead_open(area: *mut u64, area_len: usize, length: u64, level: u64, next: *mut u64, next_len: usize) -> u64;
    fn dalelead_take_back(area: *mut u64, area_len: usize, length: u64, level: u64, k: u64, next: *mut u64, next_len: usize) -> u64;
    fn dalelead_propagate(area: *mut u64, area_len: usize, length: u64, level: u64, next: *mut u64, next_len: usize) -> u64;
    fn dalelead_search(
        area: *mut u64,
        area_len: usize,
        length: u64,
        level: u64,
        literals: *const i64,
        literals_len: usize,
        next: *mut u64,
        next_len: usize,
    ) -> u64;
    fn dalelead_bounds(area: *const u64, area_len: usize, length: u64, level: u64, sentence: u64, out: *mut i64, out_len: usize) -> u64;
    fn dalelead_explain(area: *const u64, area_len: usize, length: u64, level: u64, literal: i64, list: *mut i64, list_len: usize) -> u64;
    fn dalelead_explain_conflict(
        area: *const u64,
        area_len: usize,
        length: u64,
        level: u64,
        sentence: u64,
        list: *mut i64,
        list_len: usize,
    ) -> u64;
    fn dalelead_origin(area: *const u64, area_len: usize, length: u64, level: u64, literal: i64, list: *mut i64, list_len: usize) -> u64;
    fn dalelead_trail(area: *const u64, area_len: usize, length: u64, level: u64, list: *mut i64, list_len: usize) -> u64;
}
