//! The proved board, agenda and timer, in the static library.

use crate::call::Call;
use crate::workloads::Contestant;

unsafe extern "C" {
    fn bench_perform(
        factor: u64,
        nodes: usize,
        calls: *const Call,
        length: usize,
        answers: *mut u64,
        places: usize,
    );
    fn bench_perform_four(
        factor: u64,
        nodes: usize,
        calls: *const Call,
        length: usize,
        answers: *mut u64,
        places: usize,
    );
    fn bench_advances(calls: *const Call, length: usize, n: u64, times: u64) -> u64;
    fn bench_agenda_fill(entries: *const Call, length: usize, times: u64) -> u64;
    fn bench_agenda_steady(entries: *const Call, length: usize, times: u64) -> u64;
    fn bench_timer_skip(word: u8, low: u8, high: u8, n: u64, times: u64) -> u64;
    fn bench_timer_announce(word: u8, low: u8, high: u8, n: u64, times: u64) -> u64;
}

pub struct Proved;

// Safety, throughout: the exports take plain numbers and slices, each as a pointer with its length, and are safe for all of them.
impl Contestant for Proved {
    fn advances(calls: &[Call], n: u64, times: u64) -> u64 {
        unsafe { bench_advances(calls.as_ptr(), calls.len(), n, times) }
    }

    fn timer_skip(word: u8, count: u16, n: u64, times: u64) -> u64 {
        let [low, high] = count.to_le_bytes();
        unsafe { bench_timer_skip(word, low, high, n, times) }
    }

    fn timer_announce(word: u8, count: u16, n: u64, times: u64) -> u64 {
        let [low, high] = count.to_le_bytes();
        unsafe { bench_timer_announce(word, low, high, n, times) }
    }
}

pub fn perform(factor: u64, nodes: usize, calls: &[Call], answers: &mut [u64]) {
    unsafe {
        bench_perform(
            factor,
            nodes,
            calls.as_ptr(),
            calls.len(),
            answers.as_mut_ptr(),
            answers.len(),
        )
    }
}

pub fn perform_four(factor: u64, nodes: usize, calls: &[Call], answers: &mut [u64]) {
    unsafe {
        bench_perform_four(
            factor,
            nodes,
            calls.as_ptr(),
            calls.len(),
            answers.as_mut_ptr(),
            answers.len(),
        )
    }
}

pub fn agenda_fill(entries: &[Call], times: u64) -> u64 {
    unsafe { bench_agenda_fill(entries.as_ptr(), entries.len(), times) }
}

pub fn agenda_steady(entries: &[Call], times: u64) -> u64 {
    unsafe { bench_agenda_steady(entries.as_ptr(), entries.len(), times) }
}
