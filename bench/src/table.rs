//! The workloads, what each takes, and the ratios.

use crate::call::{Call, HORIZON};
use crate::check::both_initialised;
use crate::proved::{self, Proved};
use crate::random::Random;
use crate::workloads::{self, Contestant, Perform};
use crate::{Events, Ticking, events, ticking};
use std::process::ExitCode;
use std::time::Instant;

/// Each time is that of the fastest of so many runs.
const RUNS: usize = 7;

/// A clock of 14,318,180 ticks a second, for an hour.
const HOUR: u64 = 3_600 * 14_318_180;

struct Row {
    workload: String,
    unit: &'static str,
    proved: f64,
    events: f64,
    ticking: Option<f64>,
    /// The ticking board did less, and its time was multiplied by the ratio of the ticks.
    scaled: bool,
}

/// What a workload answered, and the seconds it took.
struct Timed {
    sum: u64,
    seconds: f64,
}

fn timed(mut work: impl FnMut() -> u64) -> Timed {
    let mut sum = None;
    let mut seconds = f64::INFINITY;
    for _ in 0..RUNS {
        let start = Instant::now();
        let answer = work();
        seconds = seconds.min(start.elapsed().as_secs_f64());
        assert_eq!(
            answer,
            *sum.get_or_insert(answer),
            "a workload answered differently the second time"
        );
    }
    Timed {
        sum: sum.unwrap_or(0),
        seconds,
    }
}

/// Stops the benchmark where two contestants answer differently.
fn same(workload: &str, left: u64, right: u64) {
    assert_eq!(
        left, right,
        "{workload}: the contestants answer different checksums"
    );
}

/// Advances by n for so many times; the ticking board does `slow` instead.
struct Advances<'a> {
    workload: &'a str,
    unit: &'static str,
    units: f64,
    calls: &'a [Call],
    work: (u64, u64),
    slow: (u64, u64),
}

fn ticks((n, times): (u64, u64)) -> f64 {
    n as f64 * times as f64
}

fn advances(row: Advances) -> Row {
    let (n, times) = row.work;
    let proved = timed(|| Proved::advances(row.calls, n, times));
    let events = timed(|| Events::advances(row.calls, n, times));
    same(row.workload, proved.sum, events.sum);
    let (slow_n, slow_times) = row.slow;
    let ticking = timed(|| Ticking::advances(row.calls, slow_n, slow_times));
    let others = [Proved::advances, Events::advances];
    for other in others {
        same(row.workload, ticking.sum, other(row.calls, slow_n, slow_times));
    }
    let scale = ticks(row.work) / ticks(row.slow);
    Row {
        workload: row.workload.to_string(),
        unit: row.unit,
        proved: proved.seconds / row.units,
        events: events.seconds / row.units,
        ticking: Some(ticking.seconds * scale / row.units),
        scaled: scale != 1.0,
    }
}

fn scripted(perform: Perform, calls: &[Call], times: u64) -> Timed {
    let mut answers = vec![0; calls.len()];
    timed(|| {
        (0..times).fold(0u64, |sum, _| {
            perform(12, 4_096, calls, &mut answers);
            answers
                .iter()
                .fold(sum, |sum, answer| sum.wrapping_mul(31).wrapping_add(*answer))
        })
    })
}

/// The calls on new boards, for each of 4,096 writes.
fn script(workload: &str, calls: &[Call]) -> Row {
    const TIMES: u64 = 20;
    const WRITES: f64 = 4_096.0;
    let by_proved = scripted(proved::perform, calls, TIMES);
    let by_events = scripted(workloads::perform::<events::OneTimer>, calls, TIMES);
    let by_ticking = scripted(workloads::perform::<ticking::OneTimer>, calls, 1);
    same(workload, by_proved.sum, by_events.sum);
    same(workload, by_ticking.sum, scripted(proved::perform, calls, 1).sum);
    Row {
        workload: workload.to_string(),
        unit: "ns per write",
        proved: by_proved.seconds / (TIMES as f64 * WRITES),
        events: by_events.seconds / (TIMES as f64 * WRITES),
        ticking: Some(by_ticking.seconds / WRITES),
        scaled: false,
    }
}

fn entries(n: usize) -> Vec<Call> {
    let mut random = Random::new(n as u64);
    (0..n)
        .map(|_| Call::queue(1 + random.below(1 << 24), random.next() as u16, random.byte()))
        .collect()
}

fn agenda(what: &str, n: usize, proved: fn(&[Call], u64) -> u64, heap: fn(&[Call], u64) -> u64) -> Row {
    let entries = entries(n);
    let times = (1 << 20) / n as u64;
    let units = (times * n as u64) as f64;
    let proved = timed(|| proved(&entries, times));
    let heap = timed(|| heap(&entries, times));
    let workload = what.to_string();
    same(&workload, proved.sum, heap.sum);
    Row {
        workload,
        unit: "ns per entry",
        proved: proved.seconds / units,
        events: heap.seconds / units,
        ticking: None,
        scaled: false,
    }
}

type OfTimer = fn(u8, u16, u64, u64) -> u64;

const SKIP: [OfTimer; 3] = [Proved::timer_skip, Events::timer_skip, Ticking::timer_skip];

const ANNOUNCE: [OfTimer; 3] = [
    Proved::timer_announce,
    Events::timer_announce,
    Ticking::timer_announce,
];

/// A timer alone. The ticking one skips fewer ticks where there are many, and does it less often.
fn timer(
    workload: &str,
    mode: u8,
    count: u16,
    (n, slow_n, slow_times): (u64, u64, u64),
    [proved, events, ticking]: [OfTimer; 3],
) -> Row {
    const TIMES: u64 = 1_000_000;
    let word = 0x30 | mode << 1;
    let by_proved = timed(|| proved(word, count, n, TIMES));
    let by_events = timed(|| events(word, count, n, TIMES));
    same(workload, by_proved.sum, by_events.sum);
    let slowly = timed(|| ticking(word, count, slow_n, slow_times));
    same(workload, slowly.sum, proved(word, count, slow_n, slow_times));
    same(workload, slowly.sum, events(word, count, slow_n, slow_times));
    Row {
        workload: workload.to_string(),
        unit: "ns",
        proved: by_proved.seconds / TIMES as f64,
        events: by_events.seconds / TIMES as f64,
        ticking: Some(slowly.seconds / slow_times as f64 * (n as f64 / slow_n as f64)),
        scaled: n != slow_n,
    }
}

/// The controllers, and channel 0 in a mode with a count.
fn with_timer(mode: u8, count: u16) -> Vec<Call> {
    let mut calls = both_initialised();
    calls.push(Call::write(0x43, 0x30 | mode << 1));
    calls.extend(count.to_le_bytes().map(|byte| Call::write(0x40, byte)));
    calls
}

/// Writes on random ticks, in random order: masks, ends of interrupt, counts of channel 2, and an empty slot.
fn pending() -> Vec<Call> {
    let mut random = Random::new(4);
    let mut calls = both_initialised();
    calls.extend((0..4_096).map(|_| {
        let tick = 1 + random.below(1 << 24);
        match random.below(4) {
            0 => Call::queue(tick, random.one_of(&[0x21, 0xA1]), random.byte()),
            1 => Call::queue(tick, random.one_of(&[0x20, 0xA0]), 0x20),
            2 => Call::queue(tick, 0x42, random.byte()),
            _ => Call::queue(tick, 0x70, random.byte()),
        }
    }));
    calls
}

/// Every row: its name, and how it is measured.
fn rows() -> Vec<(String, Box<dyn Fn(&str) -> Row>)> {
    let mut rows: Vec<(String, Box<dyn Fn(&str) -> Row>)> = Vec::new();
    let mut add = |name: String, row: Box<dyn Fn(&str) -> Row>| rows.push((name, row));
    let advancing = |unit, units, calls: Vec<Call>, work, slow| -> Box<dyn Fn(&str) -> Row> {
        Box::new(move |workload| {
            advances(Advances {
                workload,
                unit,
                units,
                calls: &calls,
                work,
                slow,
            })
        })
    };

    add(
        "idle: an advance of 2^32".to_string(),
        advancing(
            "µs",
            65_536.0,
            both_initialised(),
            (HORIZON, 65_536),
            (20_000_000, 1),
        ),
    );
    for mode in [2, 3] {
        let edges = 2.0 * HOUR as f64 / (12.0 * 1_193.0);
        add(
            format!("an hour of board time, timer at 1,000 Hz in mode {mode}"),
            advancing(
                "ns per edge",
                edges,
                with_timer(mode, 1_193),
                (HOUR / 16, 16),
                (20_000_000, 1),
            ),
        );
    }
    add(
        "10^9 ticks, mode 3 with count 2: an edge every 12 ticks".to_string(),
        advancing(
            "ns per edge",
            1e9 / 12.0,
            with_timer(3, 2),
            (1_000_000_000, 1),
            (20_000_000, 1),
        ),
    );
    let mut calls = pending();
    let queueing = calls.clone();
    add(
        "4,096 writes queued in random order".to_string(),
        Box::new(move |workload| script(workload, &queueing)),
    );
    calls.push(Call::advance(1 << 24));
    calls.extend([0x20, 0x21, 0xA0, 0xA1, 0x42, 0x42].map(Call::read));
    add(
        "the same, and an advance of 2^24 over them".to_string(),
        Box::new(move |workload| script(workload, &calls)),
    );
    for (n, times, slow) in [
        (1, 10_000_000, 10_000_000),
        (100, 3_000_000, 100_000),
        (10_000, 300_000, 2_000),
    ] {
        add(
            format!("timer at 1,000 Hz: an advance of {}", grouped(n as f64)),
            advancing("ns", times as f64, with_timer(3, 1_193), (n, times), (n, slow)),
        );
    }
    for n in [16, 256, 4_096] {
        add(
            format!("agenda: fill and empty, n = {}", grouped(n as f64)),
            Box::new(move |workload| agenda(workload, n, proved::agenda_fill, workloads::heap_fill)),
        );
    }
    for n in [16, 256, 4_096] {
        add(
            format!("agenda: take one, put it back later, n = {}", grouped(n as f64)),
            Box::new(move |workload| agenda(workload, n, proved::agenda_steady, workloads::heap_steady)),
        );
    }
    for mode in [0, 2, 3] {
        for (n, name) in [(1, "1"), (100, "100"), (10_000, "10^4"), (HORIZON, "2^32")] {
            let slow_n = n.min(10_000);
            add(
                format!("timer, mode {mode}: skip {name}"),
                Box::new(move |workload| timer(workload, mode, 40_000, (n, slow_n, 1_000), SKIP)),
            );
        }
        for count in [2, 1_193, 0] {
            let ticks = if count == 0 { 65_536 } else { u64::from(count) };
            add(
                format!(
                    "timer, mode {mode}: skip 1 and announce, count {}",
                    grouped(ticks as f64)
                ),
                Box::new(move |workload| timer(workload, mode, count, (1, 1, 20), ANNOUNCE)),
            );
        }
    }
    rows
}

/// In the row's unit.
fn number(seconds: f64, unit: &str) -> String {
    let value = seconds * if unit == "µs" { 1e6 } else { 1e9 };
    match value {
        ..1.0 => format!("{value:.4}"),
        ..10.0 => format!("{value:.2}"),
        ..100.0 => format!("{value:.1}"),
        _ => grouped(value),
    }
}

/// Without a fraction, in groups of three digits.
fn grouped(value: f64) -> String {
    let digits = format!("{value:.0}");
    let mut text = String::new();
    for (place, digit) in digits.chars().enumerate() {
        if place > 0 && (digits.len() - place) % 3 == 0 {
            text.push(',');
        }
        text.push(digit);
    }
    text
}

fn ratio(value: f64) -> String {
    if value < 100.0 {
        format!("{value:.2}")
    } else {
        grouped(value)
    }
}

/// Prints the rows whose names hold the word.
pub fn run(word: &str) -> ExitCode {
    println!(
        "| Workload | Unit | proved | event-driven | ticking | proved / event-driven | ticking / proved |"
    );
    println!("|---|---|---:|---:|---:|---:|---:|");
    let wanted = rows().into_iter().filter(|(name, _)| name.contains(word));
    let mut missed = 0;
    let mut all = 0;
    for (name, measure) in wanted {
        let row = measure(&name);
        let mark = if row.scaled { "*" } else { "" };
        let ticking = row
            .ticking
            .map_or(String::new(), |ticking| number(ticking, row.unit) + mark);
        let faster = row
            .ticking
            .map_or(String::new(), |ticking| ratio(ticking / row.proved));
        all += 1;
        if row.proved > 1.2 * row.events {
            missed += 1;
        }
        println!(
            "| {} | {} | {} | {} | {ticking} | {} | {faster} |",
            row.workload,
            row.unit,
            number(row.proved, row.unit),
            number(row.events, row.unit),
            ratio(row.proved / row.events),
        );
    }
    println!();
    println!("Of the agenda, the event-driven column is the standard library's BinaryHeap.");
    println!(
        "* scaled: the ticking board ran fewer ticks, and its time was multiplied by the ratio of the ticks."
    );
    println!(
        "In {missed} of {all} rows the proved library takes more than 1.2 times as long as the event-driven board."
    );
    ExitCode::SUCCESS
}
