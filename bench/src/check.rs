//! The boards against each other, on random sequences of calls: every answer of every call must be the same.

use crate::call::{Call, END_OF_TIME, HORIZON};
use crate::proved::{self, Proved};
use crate::random::Random;
use crate::workloads::{Contestant, Perform, perform};
use crate::{Events, Ticking, events, ticking};
use std::process::ExitCode;

/// A kind of random sequences, and the boards that must give the same answers on them.
struct Kind {
    name: &'static str,
    sequences: u64,
    /// Also advances of millions of ticks and more, and times near the end.
    long: bool,
    /// The first ports of the timers.
    timers: &'static [u16],
    boards: &'static [(&'static str, Perform)],
}

const KINDS: [Kind; 3] = [
    Kind {
        name: "a timer in slot 0",
        sequences: 6_000,
        long: false,
        timers: &[0x40],
        boards: &[
            ("proved", proved::perform),
            ("event-driven", perform::<events::OneTimer>),
            ("ticking", perform::<ticking::OneTimer>),
        ],
    },
    Kind {
        name: "a timer in each slot",
        sequences: 6_000,
        long: false,
        timers: &[0x40, 0x70, 0x3F8, 0x2F8],
        boards: &[
            ("proved", proved::perform_four),
            ("event-driven", perform::<events::FourTimers>),
            ("ticking", perform::<ticking::FourTimers>),
        ],
    },
    Kind {
        name: "long advances",
        sequences: 1_000,
        long: true,
        timers: &[0x40],
        boards: &[
            ("proved", proved::perform),
            ("event-driven", perform::<events::OneTimer>),
        ],
    },
];

/// Timers alone.
const TIMERS: u64 = 3_000;

const PORTS: [u16; 20] = [
    0x20, 0x21, 0xA0, 0xA1, 0x40, 0x41, 0x42, 0x43, 0x44, 0x70, 0x71, 0x3F8, 0x3F9, 0x2F8, 0x2FF, 0x22, 0x9F,
    0x6F, 0x3F7, 0,
];

/// Makes sequences of calls, and knows the time that the board has then.
struct Script {
    random: Random,
    calls: Vec<Call>,
    time: u64,
    long: bool,
    timers: &'static [u16],
}

impl Script {
    fn advance(&mut self) {
        let n = match self.random.below(20) {
            0..6 => self.random.below(4),
            6..14 => self.random.below(200),
            14..19 => self.random.below(4_000),
            _ if !self.long => self.random.below(60_000),
            _ => self.long_advance(),
        };
        if n <= HORIZON && n <= END_OF_TIME - self.time {
            self.time += n;
        }
        self.calls.push(Call::advance(n));
    }

    /// Also lengths that are refused.
    fn long_advance(&mut self) -> u64 {
        match self.random.below(8) {
            0 => HORIZON,
            1 => HORIZON + 1,
            2 => HORIZON - self.random.below(30),
            3 => END_OF_TIME - self.time,
            4 => self.random.next(),
            5 => self.random.below(HORIZON),
            _ => self.random.below(10_000_000),
        }
    }

    /// Where advances are long, channel 0 is written by `program` alone.
    fn port(&mut self) -> u16 {
        let port = match self.random.below(30) {
            0 => self.random.next() as u16,
            _ => self.random.one_of(&PORTS),
        };
        if self.long && (port == 0x40 || port == 0x43) {
            0x41
        } else {
            port
        }
    }

    /// A byte of a count: mostly such that something happens soon. Where advances are long it is not small, so that events stay rare.
    fn count_byte(&mut self, high: bool) -> u8 {
        match self.random.below(8) {
            _ if self.long => self.random.byte() | 0x40,
            0 => self.random.byte(),
            1..5 if high => 0,
            1..5 => self.random.below(8) as u8,
            _ => self.random.one_of(&[0, 0, 1, 1, 2, 3, 255]),
        }
    }

    fn program(&mut self) {
        let channel = self.random.one_of(&[0, 0, 0, 1, 2]);
        let mut word = self.random.byte() & 0x3F | channel << 6;
        if self.long && word & 0x30 == 0x10 {
            word |= 0x20;
        }
        let first = self.random.one_of(self.timers);
        self.calls.push(Call::write(first + 3, word));
        for byte in 0..self.random.below(4) {
            let count = self.count_byte(byte % 2 == 1);
            self.calls.push(Call::write(first + u16::from(channel), count));
        }
    }

    fn read_back(&mut self) {
        let channel = self.random.below(3) as u8;
        let first = self.random.one_of(self.timers);
        if self.random.below(2) == 0 {
            self.calls.push(Call::write(first + 3, channel << 6));
        }
        for _ in 0..self.random.below(4) {
            self.calls.push(Call::read(first + u16::from(channel)));
        }
    }

    fn initialise(&mut self) {
        let chip = self.random.one_of(&[0x20, 0xA0]);
        let icw1 = self.random.one_of(&[0x10, 0x11, 0x12, 0x13, 0x15, 0xFF]);
        self.calls.push(Call::write(chip, icw1));
        let words = match icw1 & 3 {
            1 => 3,
            0 | 3 => 2,
            _ => 1,
        };
        for _ in 0..words - u64::from(self.random.below(20) == 0) {
            let byte = self.random.byte();
            self.calls.push(Call::write(chip + 1, byte));
        }
        if self.random.below(3) > 0 {
            let mask = self.random.byte() & self.random.byte() & self.random.byte();
            self.calls.push(Call::write(chip + 1, mask));
        }
    }

    fn command(&mut self) {
        let chip = self.random.one_of(&[0x20, 0xA0]);
        let byte = match self.random.below(4) {
            0 => 0x20,
            1 => self.random.one_of(&[0x08, 0x0A, 0x0B]),
            _ => self.random.byte() & 0xE7,
        };
        self.calls.push(Call::write(chip, byte));
    }

    fn queue(&mut self) {
        let near = self.random.below(300);
        let tick = match self.random.below(20) {
            0 => self.random.next(),
            1 => self.time,
            2 => END_OF_TIME + self.random.below(2),
            3 => self.time.saturating_sub(near),
            4..7 => self.time + 1 + self.random.below(3),
            _ => self.time + 1 + near,
        };
        let first = self.random.one_of(self.timers);
        let (port, byte) = match self.random.below(8) {
            0..3 if !self.long => (first, self.count_byte(false)),
            3 if !self.long => (first + 3, self.random.byte() & 0x3F),
            4 => (self.random.one_of(&[0x21, 0xA1]), self.random.byte()),
            5 => (self.random.one_of(&[0x20, 0xA0]), self.random.byte() & 0xEF),
            _ => (self.port(), self.random.byte()),
        };
        self.calls.push(Call::queue(tick, port, byte));
    }

    fn some_calls(&mut self) {
        match self.random.below(20) {
            0..7 => self.advance(),
            7 => {
                let port = self.port();
                self.calls.push(Call::read(port));
            }
            8 => {
                let (port, byte) = (self.port(), self.random.byte());
                self.calls.push(Call::write(port, byte));
            }
            9..11 => self.program(),
            11 => self.read_back(),
            12 => self.initialise(),
            13 => self.command(),
            14..16 => self.calls.push(Call::acknowledge()),
            _ => self.queue(),
        }
    }

    /// Reads all that can be read.
    fn look(&mut self) {
        for first in self.timers {
            for channel in 0..3 {
                self.calls.push(Call::write(first + 3, channel << 6));
                self.calls.extend([Call::read(first + u16::from(channel)); 3]);
            }
        }
        for chip in [0x20, 0xA0] {
            for selection in [0x0A, 0x0B] {
                self.calls
                    .extend([Call::write(chip, selection), Call::read(chip)]);
            }
            self.calls.push(Call::read(chip + 1));
        }
        self.calls.extend([Call::acknowledge(); 2]);
    }
}

/// Both controllers initialised and unmasked.
pub fn both_initialised() -> Vec<Call> {
    let words = |port, icw2, icw3| {
        [
            (port, 0x11),
            (port + 1, icw2),
            (port + 1, icw3),
            (port + 1, 0x01),
            (port + 1, 0x00),
        ]
    };
    [words(0x20, 0x08, 0x04), words(0xA0, 0x70, 0x02)]
        .concat()
        .into_iter()
        .map(|(port, byte)| Call::write(port, byte))
        .collect()
}

fn script(seed: u64, kind: &Kind) -> Vec<Call> {
    let mut script = Script {
        random: Random::new(seed),
        calls: Vec::new(),
        time: 0,
        long: kind.long,
        timers: kind.timers,
    };
    if kind.long && script.random.below(10) == 0 {
        // Near the end of time.
        script.calls.extend([Call::advance(HORIZON); 65_535]);
        script.time = END_OF_TIME - HORIZON;
    }
    if script.random.below(2) == 0 {
        script.calls.extend(both_initialised());
    }
    let length = script.calls.len() as u64 + 20 + script.random.below(120);
    while (script.calls.len() as u64) < length {
        script.some_calls();
    }
    script.look();
    script.calls
}

fn answers(perform: Perform, factor: u64, nodes: usize, calls: &[Call]) -> Vec<u64> {
    let mut answers = vec![0; calls.len()];
    perform(factor, nodes, calls, &mut answers);
    answers
}

/// Counts of what the sequences reached, so that one can see that they reach it.
#[derive(Default)]
struct Seen {
    calls: u64,
    edges: u64,
    vectors: u64,
    /// With the bases that `both_initialised` gives.
    from_slave: u64,
    refusals: [u64; 10],
}

impl Seen {
    fn count(&mut self, calls: &[Call], answers: &[u64]) {
        for (call, &answer) in calls.iter().zip(answers) {
            self.calls += 1;
            match call.kind {
                _ if answer >> 63 == 1 => self.refusals[answer as usize & 15] += 1,
                0 => self.edges += answer,
                3 if answer % 8 != 7 => {
                    self.vectors += 1;
                    self.from_slave += u64::from(answer & 0xF8 == 0x70);
                }
                _ => {}
            }
        }
    }
}

/// Whether all boards give the same answers; they are the first one's.
fn check_calls(kind: &Kind, seed: u64, factor: u64, nodes: usize, calls: &[Call], seen: &mut Seen) -> bool {
    let all: Vec<Vec<u64>> = kind
        .boards
        .iter()
        .map(|&(_, perform)| answers(perform, factor, nodes, calls))
        .collect();
    seen.count(calls, &all[0]);
    let Some(place) = (0..calls.len()).find(|&place| all.iter().any(|some| some[place] != all[0][place]))
    else {
        return true;
    };
    println!(
        "DIFFERENCE: {}, sequence {seed}, factor {factor}, {nodes} nodes, call {place}, after these:",
        kind.name
    );
    for call in &calls[place.saturating_sub(200)..=place] {
        println!("  {call:?}");
    }
    for ((name, _), some) in kind.boards.iter().zip(&all) {
        println!("  {name} answers {:#x}", some[place]);
    }
    false
}

fn check_sequence(kind: &Kind, seed: u64, seen: &mut Seen) -> bool {
    let calls = script(seed, kind);
    let mut random = Random::new(!seed);
    let factor = match random.below(4) {
        _ if kind.long => random.one_of(&[12, 12, 12, 64, 5]),
        0 => random.below(70),
        1 => random.one_of(&[0, 1, 2, 64, 65]),
        _ => 12,
    };
    let nodes = random.one_of(&[0, 1, 2, 3, 5, 8, 256, 4096]);
    check_calls(kind, seed, factor, nodes, &calls, seen)
}

/// All nodes taken, and a few more writes.
fn check_full_queue(kind: &Kind, seen: &mut Seen) -> bool {
    let mut random = Random::new(1);
    let mut calls: Vec<Call> = (0..4_100)
        .map(|_| Call::queue(1 + random.below(3_000), random.one_of(&PORTS), random.byte()))
        .collect();
    calls.extend([
        Call::advance(1_500),
        Call::queue(1_501, 0x21, 0x55),
        Call::advance(1_500),
        Call::read(0x21),
    ]);
    check_calls(kind, 0, 12, 4_200, &calls, seen)
}

fn check_timer(seed: u64) -> bool {
    let mut random = Random::new(seed);
    let word = random.byte() & 0x3F | 0x10;
    let count = match random.below(3) {
        0 => random.next() as u16,
        1 => random.one_of(&[0, 1, 2, 3, 4, 5, 255, 256, 257, 65_535]),
        _ => random.below(40) as u16,
    };
    let n = match random.below(3) {
        0 => random.below(4),
        1 => random.below(100),
        _ => random.below(3_000),
    };
    let skips = [
        Proved::timer_skip(word, count, n, 20),
        Events::timer_skip(word, count, n, 20),
        Ticking::timer_skip(word, count, n, 20),
    ];
    let announcements = [
        Proved::timer_announce(word, count, n, 5),
        Events::timer_announce(word, count, n, 5),
        Ticking::timer_announce(word, count, n, 5),
    ];
    let same = [skips, announcements]
        .iter()
        .all(|[proved, others @ ..]| others.iter().all(|other| other == proved));
    if !same {
        println!(
            "DIFFERENCE in timer {seed}: word {word:#x}, count {count}, n {n}: {skips:?} {announcements:?}"
        );
    }
    same
}

pub fn run() -> ExitCode {
    for kind in &KINDS {
        let mut seen = Seen::default();
        let same = (0..kind.sequences).all(|seed| check_sequence(kind, seed, &mut seen))
            && check_full_queue(kind, &mut seen);
        if !same {
            return ExitCode::FAILURE;
        }
        let names: Vec<&str> = kind.boards.iter().map(|&(name, _)| name).collect();
        println!(
            "{}: {} agree on {} sequences",
            kind.name,
            names.join(", "),
            kind.sequences + 1
        );
        println!(
            "  {} calls, {} edges, {} vectors of requests, {} of them from the slave, refusals 6 to 9: {:?}",
            seen.calls,
            seen.edges,
            seen.vectors,
            seen.from_slave,
            &seen.refusals[6..]
        );
    }
    if !(0..TIMERS).all(check_timer) {
        return ExitCode::FAILURE;
    }
    println!("the timer alone: proved, event-driven, ticking agree on {TIMERS} timers");
    ExitCode::SUCCESS
}
