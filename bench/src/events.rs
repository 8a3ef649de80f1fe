//! A board as one would write it for speed: time jumps to the next deadline or pending write, a device is brought up to date only where it
//! is due or reached, and the controllers are driven only where something may have changed.

use crate::call::{self, HORIZON, MOST_NODES, QueuedWrite};
use crate::ports::{self, Target, may_advance, may_queue};
use std::cmp::Reverse;
use std::collections::BinaryHeap;

/// The tick of what never comes.
const NEVER: u64 = u64::MAX;

pub trait Device {
    const WIDTH: u16;
    /// `n` ticks pass.
    fn advance(&mut self, n: u64);
    /// In how many ticks the level changes; `NEVER` if it does not.
    fn until_change(&self) -> u64;
    /// The ticks until the level changes pass.
    fn change(&mut self);
    fn level(&self) -> bool;
    fn read(&mut self, offset: u16) -> u8;
    fn write(&mut self, offset: u16, byte: u8);
}

pub struct Empty;

impl Device for Empty {
    const WIDTH: u16 = 1;

    fn advance(&mut self, _n: u64) {}

    fn until_change(&self) -> u64 {
        NEVER
    }

    fn change(&mut self) {}

    fn level(&self) -> bool {
        false
    }

    fn read(&mut self, _offset: u16) -> u8 {
        0xFF
    }

    fn write(&mut self, _offset: u16, _byte: u8) {}
}

pub struct Divider<D> {
    factor: u64,
    phase: u64,
    inner: D,
}

impl<D> Divider<D> {
    pub fn new(factor: u64, inner: D) -> Self {
        let factor = if (1..=64).contains(&factor) { factor } else { 1 };
        Divider {
            factor,
            phase: 0,
            inner,
        }
    }
}

impl<D: Device> Device for Divider<D> {
    const WIDTH: u16 = D::WIDTH;

    fn advance(&mut self, n: u64) {
        let total = self.phase + n;
        self.inner.advance(total / self.factor);
        self.phase = total % self.factor;
    }

    fn until_change(&self) -> u64 {
        match self.inner.until_change() {
            NEVER => NEVER,
            ticks => ticks * self.factor - self.phase,
        }
    }

    fn change(&mut self) {
        self.inner.change();
        self.phase = 0;
    }

    fn level(&self) -> bool {
        self.inner.level()
    }

    fn read(&mut self, offset: u16) -> u8 {
        self.inner.read(offset)
    }

    fn write(&mut self, offset: u16, byte: u8) {
        self.inner.write(offset, byte);
    }
}

/// How many ticks a counter takes to come to 0.
fn ticks_to_zero(value: u16) -> u64 {
    if value == 0 { 65_536 } else { u64::from(value) }
}

/// A channel of the 8254, as it stood at tick `at` of the timer.
#[derive(Clone, Copy)]
struct Channel {
    at: u64,
    value: u16,
    out: bool,
    mode: u8,
    loaded: bool,
    /// The count that a load takes; 0 if there is none.
    count: u32,
    /// In mode 3, the ticks of the present half that are still to come, but for its last one.
    left: u32,
    access: u8,
    high_next: bool,
    low_byte: Option<u8>,
    latch: Option<u16>,
}

impl Channel {
    fn power_on() -> Channel {
        Channel {
            at: 0,
            value: 0,
            out: false,
            mode: 0,
            loaded: false,
            count: 0,
            left: 0,
            access: 3,
            high_next: false,
            low_byte: None,
            latch: None,
        }
    }

    fn half(&self, high: bool) -> u32 {
        if high {
            self.count.div_ceil(2)
        } else {
            self.count / 2
        }
    }

    /// `n` ticks after a half began.
    fn in_half(&mut self, high: bool, n: u32) {
        self.out = high;
        self.value = ((self.count & !1) - 2 * n) as u16;
        self.left = self.half(high) - 1 - n;
    }

    fn sync(&mut self, now: u64) {
        let mut n = now - self.at;
        self.at = now;
        if n == 0 {
            return;
        }
        match self.mode {
            0 => {
                if self.low_byte.is_some() {
                    return;
                }
                if self.count != 0 {
                    self.value = self.count as u16;
                    self.count = 0;
                    self.loaded = true;
                    n -= 1;
                }
                if self.loaded {
                    self.out |= ticks_to_zero(self.value) <= n;
                    self.value = self.value.wrapping_sub(n as u16);
                }
            }
            2 if self.count != 0 => {
                if !self.loaded {
                    self.loaded = true;
                    self.value = self.count as u16;
                    n -= 1;
                }
                let to_load = ticks_to_zero(self.value);
                self.value = if n < to_load {
                    self.value.wrapping_sub(n as u16)
                } else {
                    let count = u64::from(self.count);
                    (count - (n - to_load) % count) as u16
                };
                self.out = self.value != 1;
            }
            3 if self.count != 0 => {
                if !self.loaded {
                    self.loaded = true;
                    self.in_half(true, 0);
                    n -= 1;
                }
                if n <= u64::from(self.left) {
                    self.value = self.value.wrapping_sub(2 * n as u16);
                    self.left -= n as u32;
                    return;
                }
                let n = ((n - u64::from(self.left) - 1) % u64::from(self.count)) as u32;
                let other = !self.out;
                let first = self.half(other);
                if n < first {
                    self.in_half(other, n);
                } else {
                    self.in_half(!other, n - first);
                }
            }
            _ => {}
        }
    }

    /// The tick at which OUT changes.
    fn change_at(&self) -> u64 {
        let ticks = match self.mode {
            0 if self.out || self.low_byte.is_some() => return NEVER,
            0 if self.count != 0 => u64::from(self.count) + 1,
            0 if self.loaded => ticks_to_zero(self.value),
            2 if self.count != 0 => match self.value {
                _ if !self.loaded => u64::from(self.count),
                1 => 1,
                value => ticks_to_zero(value) - 1,
            },
            3 if self.count != 0 => {
                if self.loaded {
                    u64::from(self.left) + 1
                } else {
                    u64::from(self.half(true)) + 1
                }
            }
            _ => return NEVER,
        };
        self.at + ticks
    }

    /// OUT changes, at its tick.
    fn change(&mut self, now: u64) {
        self.at = now;
        match self.mode {
            0 => {
                self.value = 0;
                self.out = true;
                self.count = 0;
            }
            2 if self.out => {
                self.value = 1;
                self.out = false;
            }
            2 => {
                self.value = self.count as u16;
                self.out = true;
            }
            _ => self.in_half(!self.out, 0),
        }
        self.loaded = true;
    }

    fn complete(&mut self, count: u16) {
        self.count = match count {
            0 => 65_536,
            1 if matches!(self.mode, 2 | 3) => 2,
            n => u32::from(n),
        };
    }

    fn write(&mut self, byte: u8) {
        let low = self.low_byte.take();
        if self.mode == 0 && low.is_none() {
            self.out = false;
        }
        match (self.access, low) {
            (1, _) => self.complete(u16::from(byte)),
            (2, _) => self.complete(u16::from_le_bytes([0, byte])),
            (_, None) => self.low_byte = Some(byte),
            (_, Some(low)) => self.complete(u16::from_le_bytes([low, byte])),
        }
    }

    fn read(&mut self) -> u8 {
        let [low, high] = self.latch.unwrap_or(self.value).to_le_bytes();
        if self.access == 3 && !self.high_next {
            self.high_next = true;
            return low;
        }
        self.high_next = false;
        self.latch = None;
        if self.access == 1 { low } else { high }
    }

    fn control(&mut self, word: u8) {
        match (word >> 4) & 3 {
            0 => self.latch = self.latch.or(Some(self.value)),
            access => {
                let mode = match (word >> 1) & 7 {
                    mode @ 6.. => mode - 4,
                    mode => mode,
                };
                *self = Channel {
                    at: self.at,
                    value: self.value,
                    access,
                    mode,
                    out: mode != 0,
                    ..Channel::power_on()
                };
            }
        }
    }
}

pub struct Timer {
    now: u64,
    /// When channel 0's OUT changes.
    change_at: u64,
    channels: [Channel; 3],
}

impl Timer {
    pub fn power_on() -> Timer {
        Timer {
            now: 0,
            change_at: NEVER,
            channels: [Channel::power_on(); 3],
        }
    }

    /// The channel as it stands now.
    fn channel(&mut self, number: u16) -> Option<&mut Channel> {
        let channel = self.channels.get_mut(usize::from(number))?;
        channel.sync(self.now);
        Some(channel)
    }
}

impl Device for Timer {
    const WIDTH: u16 = 4;

    fn advance(&mut self, n: u64) {
        self.now += n;
        if self.change_at <= self.now {
            self.channels[0].sync(self.now);
            self.change_at = self.channels[0].change_at();
        }
    }

    fn until_change(&self) -> u64 {
        match self.change_at {
            NEVER => NEVER,
            at => at - self.now,
        }
    }

    fn change(&mut self) {
        self.now = self.change_at;
        self.channels[0].change(self.now);
        self.change_at = self.channels[0].change_at();
    }

    fn level(&self) -> bool {
        self.channels[0].out
    }

    fn read(&mut self, offset: u16) -> u8 {
        self.channel(offset).map_or(0xFF, Channel::read)
    }

    fn write(&mut self, offset: u16, byte: u8) {
        if offset == 3 {
            if let Some(channel) = self.channel(u16::from(byte >> 6)) {
                channel.control(byte);
            }
        } else if let Some(channel) = self.channel(offset) {
            channel.write(byte);
        }
        self.change_at = self.channels[0].change_at();
    }
}

impl call::Timer for Timer {
    fn power_on() -> Self {
        Timer::power_on()
    }

    fn write(&mut self, offset: u16, byte: u8) {
        Device::write(self, offset, byte);
    }

    fn skip(&mut self, n: u64) {
        self.advance(n.min(HORIZON));
    }

    fn level(&self) -> bool {
        Device::level(self)
    }

    fn announce(&self) -> Option<u64> {
        Some(self.until_change()).filter(|&ticks| ticks <= HORIZON)
    }
}

#[derive(Clone, Copy, PartialEq)]
enum Stage {
    Idle,
    WaitIcw2 { single: bool, needs_icw4: bool },
    WaitIcw3 { needs_icw4: bool },
    WaitIcw4,
    Ready,
}

/// An 8259A.
struct Chip {
    inputs: u8,
    irr: u8,
    isr: u8,
    imr: u8,
    base: u8,
    lowest: u8,
    read_isr: bool,
    stage: Stage,
}

impl Chip {
    fn power_on(inputs: u8) -> Chip {
        Chip {
            inputs,
            irr: 0,
            isr: 0,
            imr: 0,
            base: 0,
            lowest: 7,
            read_isr: false,
            stage: Stage::Idle,
        }
    }

    fn drive(&mut self, levels: u8) {
        self.irr = (self.irr | levels & !self.inputs) & levels;
        self.inputs = levels;
    }

    /// The register with the first input in priority as its lowest bit.
    fn by_priority(&self, register: u8) -> u8 {
        register.rotate_right(u32::from(self.lowest) + 1)
    }

    /// The input at a place of priority.
    fn at_place(&self, place: u32) -> u8 {
        (self.lowest + 1 + place as u8) % 8
    }

    fn request(&self) -> Option<u8> {
        let requests = self.irr & !self.imr;
        if requests == 0 || self.stage != Stage::Ready {
            return None;
        }
        let place = self.by_priority(requests).trailing_zeros();
        // An empty register has its first input at place 8.
        (place < self.by_priority(self.isr).trailing_zeros()).then(|| self.at_place(place))
    }

    fn acknowledge(&mut self) -> u8 {
        match self.request() {
            Some(input) => {
                self.irr &= !(1 << input);
                self.isr |= 1 << input;
                self.base | input
            }
            None => self.base | 7,
        }
    }

    fn read(&self, offset: u16) -> u8 {
        match offset {
            0 if self.read_isr => self.isr,
            0 => self.irr,
            _ => self.imr,
        }
    }

    fn end_first(&mut self) -> Option<u8> {
        (self.isr != 0).then(|| {
            let input = self.at_place(self.by_priority(self.isr).trailing_zeros());
            self.isr &= !(1 << input);
            input
        })
    }

    fn write(&mut self, offset: u16, byte: u8) {
        if offset == 1 {
            self.stage = match self.stage {
                Stage::WaitIcw2 { single, needs_icw4 } => {
                    self.base = byte & 0xF8;
                    match (single, needs_icw4) {
                        (false, _) => Stage::WaitIcw3 { needs_icw4 },
                        (true, true) => Stage::WaitIcw4,
                        (true, false) => Stage::Ready,
                    }
                }
                Stage::WaitIcw3 { needs_icw4: true } => Stage::WaitIcw4,
                Stage::WaitIcw3 { needs_icw4: false } | Stage::WaitIcw4 => Stage::Ready,
                stage => {
                    self.imr = byte;
                    stage
                }
            };
        } else if byte & 0x10 != 0 {
            let stage = Stage::WaitIcw2 {
                single: byte & 2 != 0,
                needs_icw4: byte & 1 != 0,
            };
            *self = Chip {
                stage,
                base: self.base,
                ..Chip::power_on(self.inputs)
            };
        } else if byte & 8 != 0 {
            if byte & 2 != 0 {
                self.read_isr = byte & 1 != 0;
            }
        } else {
            let named = byte & 7;
            match byte >> 5 {
                1 => {
                    self.end_first();
                }
                3 => self.isr &= !(1 << named),
                5 => {
                    if let Some(input) = self.end_first() {
                        self.lowest = input;
                    }
                }
                6 => self.lowest = named,
                7 => {
                    self.isr &= !(1 << named);
                    self.lowest = named;
                }
                _ => {}
            }
        }
    }
}

struct Pair {
    master: Chip,
    slave: Chip,
}

impl Pair {
    fn drive(&mut self, lines: u16) {
        let [master, slave] = lines.to_le_bytes();
        self.slave.drive(slave);
        self.master
            .drive(master | u8::from(self.slave.request().is_some()) << 2);
    }

    fn acknowledge(&mut self) -> u8 {
        let cascaded = self.master.request() == Some(2);
        let vector = self.master.acknowledge();
        if cascaded {
            self.slave.acknowledge()
        } else {
            vector
        }
    }
}

/// A device as it stood at tick `at`, with the tick at which its level changes.
struct Slot<D> {
    device: D,
    at: u64,
    deadline: u64,
}

impl<D: Device> Slot<D> {
    fn new(device: D) -> Self {
        let deadline = device.until_change();
        Slot {
            device,
            at: 0,
            deadline,
        }
    }

    /// Lets the level change if that is due at `now`.
    fn arrive(&mut self, now: u64) {
        if self.deadline == now {
            self.device.change();
            self.at = now;
            self.plan();
        }
    }

    fn plan(&mut self) {
        self.deadline = self.at.saturating_add(self.device.until_change());
    }

    fn sync(&mut self, now: u64) {
        if self.at < now {
            self.device.advance(now - self.at);
            self.at = now;
        }
    }

    fn read(&mut self, now: u64, offset: u16) -> u8 {
        self.sync(now);
        let byte = self.device.read(offset);
        self.plan();
        byte
    }

    fn write(&mut self, now: u64, offset: u16, byte: u8) {
        self.sync(now);
        self.device.write(offset, byte);
        self.plan();
    }
}

pub struct Board<D0, D1, D2, D3> {
    time: u64,
    /// The next tick on which a level changes or a write is carried out.
    next: u64,
    /// The lines as last handed over.
    lines: u16,
    pair: Pair,
    slot_0: Slot<D0>,
    slot_1: Slot<D1>,
    slot_2: Slot<D2>,
    slot_3: Slot<D3>,
    queue: BinaryHeap<Reverse<QueuedWrite>>,
    nodes: usize,
}

impl<D0: Device, D1: Device, D2: Device, D3: Device> Board<D0, D1, D2, D3> {
    pub fn new(slot_0: D0, slot_1: D1, slot_2: D2, slot_3: D3, nodes: usize) -> Self {
        let nodes = nodes.min(MOST_NODES);
        let mut board = Board {
            time: 0,
            next: NEVER,
            lines: 0,
            pair: Pair {
                master: Chip::power_on(0),
                slave: Chip::power_on(0),
            },
            slot_0: Slot::new(slot_0),
            slot_1: Slot::new(slot_1),
            slot_2: Slot::new(slot_2),
            slot_3: Slot::new(slot_3),
            queue: BinaryHeap::with_capacity(nodes),
            nodes,
        };
        board.lines = board.levels();
        [board.pair.master.inputs, board.pair.slave.inputs] = board.lines.to_le_bytes();
        board.plan();
        board
    }

    /// The level of each line. No two slots share one.
    fn levels(&self) -> u16 {
        u16::from(self.slot_0.device.level())
            | u16::from(self.slot_1.device.level()) << 8
            | u16::from(self.slot_2.device.level()) << 4
            | u16::from(self.slot_3.device.level()) << 3
    }

    fn plan(&mut self) {
        let write = self.queue.peek().map_or(NEVER, |Reverse(write)| write.tick);
        self.next = self
            .slot_0
            .deadline
            .min(self.slot_1.deadline)
            .min(self.slot_2.deadline)
            .min(self.slot_3.deadline)
            .min(write);
    }

    fn hand_over(&mut self) -> u64 {
        let lines = self.levels();
        let edges = (lines ^ self.lines).count_ones();
        self.lines = lines;
        self.pair.drive(lines);
        u64::from(edges)
    }

    /// Goes to the next tick on which something happens, and answers its edges.
    fn step(&mut self) -> u64 {
        let now = self.next;
        self.time = now;
        self.slot_0.arrive(now);
        self.slot_1.arrive(now);
        self.slot_2.arrive(now);
        self.slot_3.arrive(now);
        let mut edges = if self.levels() == self.lines {
            0
        } else {
            self.hand_over()
        };
        while let Some(&Reverse(write)) = self.queue.peek()
            && write.tick == now
        {
            self.queue.pop();
            self.write_port(write.port, write.byte);
            edges += self.hand_over();
        }
        self.plan();
        edges
    }

    fn target(port: u16) -> Target {
        ports::target(port, [D0::WIDTH, D1::WIDTH, D2::WIDTH, D3::WIDTH])
    }

    fn read_port(&mut self, port: u16) -> u8 {
        let now = self.time;
        match Self::target(port) {
            Target::Master(offset) => self.pair.master.read(offset),
            Target::Slave(offset) => self.pair.slave.read(offset),
            Target::Slot0(offset) => self.slot_0.read(now, offset),
            Target::Slot1(offset) => self.slot_1.read(now, offset),
            Target::Slot2(offset) => self.slot_2.read(now, offset),
            Target::Slot3(offset) => self.slot_3.read(now, offset),
            Target::OpenBus => 0xFF,
        }
    }

    fn write_port(&mut self, port: u16, byte: u8) {
        let now = self.time;
        match Self::target(port) {
            Target::Master(offset) => self.pair.master.write(offset, byte),
            Target::Slave(offset) => self.pair.slave.write(offset, byte),
            Target::Slot0(offset) => self.slot_0.write(now, offset, byte),
            Target::Slot1(offset) => self.slot_1.write(now, offset, byte),
            Target::Slot2(offset) => self.slot_2.write(now, offset, byte),
            Target::Slot3(offset) => self.slot_3.write(now, offset, byte),
            Target::OpenBus => {}
        }
    }
}

fn timer_behind(factor: u64) -> Divider<Timer> {
    Divider::new(factor, Timer::power_on())
}

pub type OneTimer = Board<Divider<Timer>, Empty, Empty, Empty>;

impl call::Fitted for OneTimer {
    fn fitted(factor: u64, nodes: usize) -> Self {
        Board::new(timer_behind(factor), Empty, Empty, Empty, nodes)
    }
}

pub type FourTimers = Board<Divider<Timer>, Divider<Timer>, Divider<Timer>, Divider<Timer>>;

impl call::Fitted for FourTimers {
    fn fitted(factor: u64, nodes: usize) -> Self {
        let [d0, d1, d2, d3] = [0, 1, 2, 3].map(|more| timer_behind(factor.wrapping_add(more)));
        Board::new(d0, d1, d2, d3, nodes)
    }
}

impl<D0: Device, D1: Device, D2: Device, D3: Device> call::Board for Board<D0, D1, D2, D3> {
    fn advance(&mut self, n: u64) -> Result<u64, u8> {
        may_advance(self.time, n)?;
        let end = self.time + n;
        let mut edges = 0;
        while self.next <= end {
            edges += self.step();
        }
        self.time = end;
        Ok(edges)
    }

    fn read(&mut self, port: u16) -> u8 {
        let byte = self.read_port(port);
        self.hand_over();
        self.plan();
        byte
    }

    fn write(&mut self, port: u16, byte: u8) {
        self.write_port(port, byte);
        self.hand_over();
        self.plan();
    }

    fn acknowledge(&mut self) -> u8 {
        let vector = self.pair.acknowledge();
        self.hand_over();
        vector
    }

    fn queue(&mut self, write: QueuedWrite) -> Result<(), u8> {
        may_queue(self.time, write, self.queue.len(), self.nodes)?;
        self.queue.push(Reverse(write));
        self.next = self.next.min(write.tick);
        Ok(())
    }
}
