//! What is measured, for each contestant: the same loops as in the static library.

use crate::call::{Board, Call, Fitted, MOST_NODES, QueuedWrite, Timer};
use std::cmp::Reverse;
use std::collections::BinaryHeap;
use std::marker::PhantomData;

pub trait Contestant {
    /// Performs the calls on a new board, and then advances it by `n` for so many times. Answers the sum of the advances' answers.
    fn advances(calls: &[Call], n: u64, times: u64) -> u64;
    /// Programs channel 0 of a timer, skips `n` for so many times, and answers how often OUT was high then.
    fn timer_skip(word: u8, count: u16, n: u64, times: u64) -> u64;
    /// The same, but announces after each skip, and answers the sum of that.
    fn timer_announce(word: u8, count: u16, n: u64, times: u64) -> u64;
}

/// A board and a timer that are written in Rust.
pub struct Rust<B, T>(PhantomData<(B, T)>);

const REFUSED: u64 = 1 << 63;

fn refused(number: u8) -> u64 {
    REFUSED | u64::from(number)
}

fn perform_one<B: Board>(board: &mut B, call: &Call) -> u64 {
    match call.kind {
        0 => board.advance(call.number).unwrap_or_else(refused),
        1 => u64::from(board.read(call.port)),
        2 => {
            board.write(call.port, call.byte);
            0
        }
        3 => u64::from(board.acknowledge()),
        4 => board.queue(call.queued()).map_or_else(refused, |()| 0),
        _ => 0,
    }
}

fn programmed<T: Timer>(word: u8, count: u16) -> T {
    let mut timer = T::power_on();
    timer.write(3, word);
    for byte in count.to_le_bytes() {
        timer.write(0, byte);
    }
    timer
}

/// A way to do that: with the divider's factor, the number of nodes, and places for the answers.
pub type Perform = fn(u64, usize, &[Call], &mut [u64]);

/// Performs the calls on a new board with so many nodes, and stores each one's answer.
#[inline(never)]
pub fn perform<B: Fitted>(factor: u64, nodes: usize, calls: &[Call], answers: &mut [u64]) {
    let mut board = B::fitted(factor, nodes);
    for (call, answer) in calls.iter().zip(answers) {
        *answer = perform_one(&mut board, call);
    }
}

impl<B: Fitted, T: Timer> Contestant for Rust<B, T> {
    #[inline(never)]
    fn advances(calls: &[Call], n: u64, times: u64) -> u64 {
        let mut board = B::fitted(12, MOST_NODES);
        for call in calls {
            perform_one(&mut board, call);
        }
        let mut sum = 0u64;
        for _ in 0..times {
            sum = sum.wrapping_add(board.advance(n).unwrap_or_else(refused));
        }
        sum
    }

    #[inline(never)]
    fn timer_skip(word: u8, count: u16, n: u64, times: u64) -> u64 {
        let mut timer: T = programmed(word, count);
        let mut sum = 0u64;
        for _ in 0..times {
            timer.skip(n);
            sum = sum.wrapping_add(u64::from(timer.level()));
        }
        sum
    }

    #[inline(never)]
    fn timer_announce(word: u8, count: u16, n: u64, times: u64) -> u64 {
        let mut timer: T = programmed(word, count);
        let mut sum = 0u64;
        for _ in 0..times {
            timer.skip(n);
            if let Some(ticks) = timer.announce() {
                sum = sum.wrapping_add(ticks);
            }
        }
        sum
    }
}

fn mixed(sum: u64, write: QueuedWrite) -> u64 {
    sum.wrapping_mul(31)
        .wrapping_add(write.tick ^ u64::from(write.port))
}

/// Pushes all entries into a heap of the standard library and pops them again, for so many times.
#[inline(never)]
pub fn heap_fill(entries: &[Call], times: u64) -> u64 {
    let mut heap = BinaryHeap::with_capacity(MOST_NODES);
    let mut sum = 0u64;
    for _ in 0..times {
        for entry in entries {
            heap.push(Reverse(entry.queued()));
        }
        for _ in entries {
            if let Some(Reverse(write)) = heap.pop() {
                sum = mixed(sum, write);
            }
        }
    }
    sum
}

/// Fills a heap with the entries, and then, for so many times and for each entry, pops one and pushes it again, later by that
/// entry's number of ticks.
#[inline(never)]
pub fn heap_steady(entries: &[Call], times: u64) -> u64 {
    let mut heap = BinaryHeap::with_capacity(MOST_NODES);
    for entry in entries {
        heap.push(Reverse(entry.queued()));
    }
    let mut sum = 0u64;
    for _ in 0..times {
        for entry in entries {
            if let Some(Reverse(write)) = heap.pop() {
                sum = mixed(sum, write);
                heap.push(Reverse(QueuedWrite {
                    tick: write.tick.wrapping_add(entry.number),
                    ..write
                }));
            }
        }
    }
    sum
}
