//! The proved engines, linked from the static library of the crate `c_interface`.
use crate::ring::{Answer, Ring};

#[repr(C)]
#[derive(Debug, PartialEq)]
pub struct Told {
    pub refusal: u64,
    pub bags: u64,
    pub weight: u64,
    pub given_away: u64,
}

unsafe extern "C" {
    fn weigh_by_scan(rule: *const u32, n: usize, weights: *const u32, m: usize, ages: *const u32, k: usize) -> u64;
    fn weigh_by_halves(rule: *const u32, n: usize, weights: *const u32, m: usize, ages: *const u32, k: usize, entries: *mut u64, e: usize) -> u64;
    fn weigh_by_table(rule: *const u32, n: usize, weights: *const u32, m: usize, ages: *const u32, k: usize, bytes: *mut u8, b: usize) -> u64;
    fn weigh_season(rule: *const u32, n: usize, weights: *mut u32, m: usize, ages: *mut u32, k: usize, handfuls: *const u32, h: usize, bags: u32, entries: *mut u64, e: usize, bytes: *mut u8, b: usize) -> Told;
}

/// Pans times 2^32 and the weight; 0 for none; a refusal is a number below 2^32, and no ring here is refused.
fn answer(told: u64) -> Answer {
    if told == 0 {
        return None;
    }
    assert!(told >> 32 > 0, "refused {told}");
    Some(((told >> 32) as u32, told as u32))
}

pub fn scan(r: &Ring) -> Answer {
    answer(unsafe { weigh_by_scan(r.rule.as_ptr(), 4, r.weights.as_ptr(), r.weights.len(), r.ages.as_ptr(), r.ages.len()) })
}

pub fn halves(r: &Ring, entries: &mut [u64]) -> Answer {
    answer(unsafe {
        weigh_by_halves(r.rule.as_ptr(), 4, r.weights.as_ptr(), r.weights.len(), r.ages.as_ptr(), r.ages.len(), entries.as_mut_ptr(), entries.len())
    })
}

pub fn table(r: &Ring, bytes: &mut [u8]) -> Answer {
    answer(unsafe {
        weigh_by_table(r.rule.as_ptr(), 4, r.weights.as_ptr(), r.weights.len(), r.ages.as_ptr(), r.ages.len(), bytes.as_mut_ptr(), bytes.len())
    })
}

pub fn season(r: &mut Ring, handfuls: &[u32], bags: u32, entries: &mut [u64], bytes: &mut [u8]) -> Told {
    unsafe {
        weigh_season(
            r.rule.as_ptr(), 4, r.weights.as_mut_ptr(), r.weights.len(), r.ages.as_mut_ptr(), r.ages.len(),
            handfuls.as_ptr(), handfuls.len(), bags, entries.as_mut_ptr(), entries.len(), bytes.as_mut_ptr(), bytes.len(),
        )
    }
}
