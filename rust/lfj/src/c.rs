//! The functions of the static libraries, as `include/lfj.h` declares them.
//!
//! Each answers one word: bits 56 to 63 the refusal's number, 0 if accepted; bits 0 to 31
//! the refusal's place; with number 13 its four goals at bits 32, 38, 44 and 50, six bits
//! each. What an accepted call answers stands with each function.
//!
//! # Safety
//!
//! Of each function: a pointer is not null, also where the length behind it is 0, and that
//! many bytes may be read there; at `out` they may be written, and no other argument
//! overlaps them. The same holds of the elements of `rows`, `head`, `sets`, `ticks` and `heads`,
//! which are aligned as their types.

use crate::dispatch::Head;

unsafe extern "C" {
    /// The goal count.
    pub fn lfj_read(record: *const u8, n: usize) -> u64;
    /// The goals that `goal` is before, goal g at bit g - 1.
    pub fn lfj_after(record: *const u8, n: usize, goal: u32) -> u64;
    /// The length of the fork-join expression, which stands at `out`.
    pub fn lfj_form(record: *const u8, n: usize, out: *mut u8, room: usize) -> u64;
    /// The form's length.
    pub fn lfj_form_length(record: *const u8, n: usize) -> u64;
    /// The length of the MEL annotation, which stands at `out`.
    pub fn lfj_mel(record: *const u8, n: usize, out: *mut u8, room: usize) -> u64;
    /// The place of the goal's text, and at bits 32 to 47 its length.
    pub fn lfj_goal_text(record: *const u8, n: usize, goal: u32) -> u64;
    /// 0 for the same order, else i at bits 0 to 7 and j at bits 8 to 15.
    pub fn lfj_check(record: *const u8, n: usize, text: *const u8, m: usize) -> u64;
    /// The goal count. Row g - 1: the goals that wait for goal g.
    pub fn lfj_order(record: *const u8, n: usize, rows: *mut [u32; 32]) -> u64;
    /// The number of passes, 1 to 6.
    pub fn lfj_passes(record: *const u8, n: usize) -> u64;
    /// The variable count; the head set at `head`.
    pub fn lfj_head(record: *const u8, n: usize, head: *mut u64) -> u64;
    /// The goal count. Place g - 1: the variables of goal g.
    pub fn lfj_goal_sets(record: *const u8, n: usize, sets: *mut [u64; 32]) -> u64;
    /// The goal count. Place g - 1: the variables known ground at goal g.
    pub fn lfj_ground_sets(record: *const u8, n: usize, sets: *mut [u64; 32]) -> u64;
    /// The goal count. Place g - 1: the ticks of goal g.
    pub fn lfj_ticks(record: *const u8, n: usize, ticks: *mut [u32; 32]) -> u64;
    /// The variable count. Place x: the variables listed as independent of variable x.
    pub fn lfj_listed(record: *const u8, n: usize, rows: *mut [u64; 64]) -> u64;
    /// 0: no goal has ended. All `k` heads are made idle.
    pub fn lfj_start(record: *const u8, n: usize, heads: *mut Head, k: usize) -> u64;
    /// The set of ended goals after the tick.
    pub fn lfj_tick(record: *const u8, n: usize, heads: *mut Head, k: usize, ended: u32) -> u64;
    /// The library's version, no answer word: major * 10000 + minor * 100 + patch.
    pub fn lfj_version() -> u32;
}
