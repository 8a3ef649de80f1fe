//! The plain board: it does what docs/RULES.md says, one tick after the other.

use crate::call::{self, MOST_NODES, QueuedWrite};
use crate::ports::{self, Target, may_advance, may_queue};

pub trait Device {
    const WIDTH: u16;
    fn tick(&mut self);
    fn level(&self) -> bool;
    fn read(&mut self, offset: u16) -> u8;
    fn write(&mut self, offset: u16, byte: u8);
}

pub struct Empty;

impl Device for Empty {
    const WIDTH: u16 = 1;

    fn tick(&mut self) {}

    fn level(&self) -> bool {
        false
    }

    fn read(&mut self, _offset: u16) -> u8 {
        0xFF
    }

    fn write(&mut self, _offset: u16, _byte: u8) {}
}

pub struct Divider<D> {
    factor: u64,
    phase: u64,
    inner: D,
}

impl<D> Divider<D> {
    pub fn new(factor: u64, inner: D) -> Self {
        let factor = if (1..=64).contains(&factor) { factor } else { 1 };
        Divider {
            factor,
            phase: 0,
            inner,
        }
    }
}

impl<D: Device> Device for Divider<D> {
    const WIDTH: u16 = D::WIDTH;

    fn tick(&mut self) {
        self.phase += 1;
        if self.phase == self.factor {
            self.phase = 0;
            self.inner.tick();
        }
    }

    fn level(&self) -> bool {
        self.inner.level()
    }

    fn read(&mut self, offset: u16) -> u8 {
        self.inner.read(offset)
    }

    fn write(&mut self, offset: u16, byte: u8) {
        self.inner.write(offset, byte);
    }
}

/// The registers of a channel of the 8254, as the rules list them.
#[derive(Clone, Copy)]
struct Channel {
    access_code: u8,
    mode: u8,
    out: bool,
    counter: u16,
    count: Option<u32>,
    loaded: bool,
    left: u32,
    write_toggle: Option<u8>,
    read_high: bool,
    latch: Option<u16>,
}

impl Channel {
    fn power_on() -> Channel {
        Channel {
            access_code: 3,
            mode: 0,
            out: false,
            counter: 0,
            count: None,
            loaded: false,
            left: 0,
            write_toggle: None,
            read_high: false,
            latch: None,
        }
    }

    fn begin_half(&mut self, count: u32, high: bool) {
        let even = count - count % 2;
        let ticks = if high { (count + count % 2) / 2 } else { even / 2 };
        self.out = high;
        self.counter = even as u16;
        self.loaded = true;
        self.left = ticks - 1;
    }

    fn tick(&mut self) {
        match self.mode {
            0 if self.write_toggle.is_some() => {}
            0 => {
                if let Some(count) = self.count.take() {
                    self.counter = count as u16;
                    self.loaded = true;
                } else if self.loaded {
                    self.counter = self.counter.wrapping_sub(1);
                    if self.counter == 0 {
                        self.out = true;
                    }
                }
            }
            2 => {
                if let Some(count) = self.count {
                    if !self.loaded || !self.out {
                        self.counter = count as u16;
                        self.out = true;
                        self.loaded = true;
                    } else {
                        self.counter = self.counter.wrapping_sub(1);
                        self.out = self.counter != 1;
                    }
                }
            }
            3 => {
                if let Some(count) = self.count {
                    if !self.loaded {
                        self.begin_half(count, true);
                    } else if self.left == 0 {
                        self.begin_half(count, !self.out);
                    } else {
                        self.counter = self.counter.wrapping_sub(2);
                        self.left -= 1;
                    }
                }
            }
            _ => {}
        }
    }

    fn complete(&mut self, count: u16) {
        self.count = Some(match count {
            0 => 65_536,
            1 if self.mode == 2 || self.mode == 3 => 2,
            n => u32::from(n),
        });
    }

    fn write(&mut self, byte: u8) {
        let low = self.write_toggle.take();
        if self.mode == 0 && low.is_none() {
            self.out = false;
        }
        match (self.access_code, low) {
            (1, _) => self.complete(u16::from(byte)),
            (2, _) => self.complete(256 * u16::from(byte)),
            (_, None) => self.write_toggle = Some(byte),
            (_, Some(low)) => self.complete(u16::from(low) + 256 * u16::from(byte)),
        }
    }

    fn read(&mut self) -> u8 {
        let value = self.latch.unwrap_or(self.counter);
        let high = match self.access_code {
            1 => false,
            2 => true,
            _ => {
                self.read_high = !self.read_high;
                !self.read_high
            }
        };
        if high || self.access_code == 1 {
            self.latch = None;
        }
        if high {
            (value / 256) as u8
        } else {
            (value % 256) as u8
        }
    }

    fn control(&mut self, word: u8) {
        let code = word >> 4 & 3;
        if code == 0 {
            self.latch = self.latch.or(Some(self.counter));
            return;
        }
        self.access_code = code;
        self.mode = match word >> 1 & 7 {
            6 => 2,
            7 => 3,
            mode => mode,
        };
        self.out = self.mode != 0;
        self.count = None;
        self.loaded = false;
        self.left = 0;
        self.write_toggle = None;
        self.read_high = false;
        self.latch = None;
    }
}

pub struct Timer {
    channels: [Channel; 3],
}

impl Timer {
    pub fn power_on() -> Timer {
        Timer {
            channels: [Channel::power_on(); 3],
        }
    }
}

impl Device for Timer {
    const WIDTH: u16 = 4;

    fn tick(&mut self) {
        for channel in &mut self.channels {
            channel.tick();
        }
    }

    fn level(&self) -> bool {
        self.channels[0].out
    }

    fn read(&mut self, offset: u16) -> u8 {
        match self.channels.get_mut(usize::from(offset)) {
            Some(channel) => channel.read(),
            None => 0xFF,
        }
    }

    fn write(&mut self, offset: u16, byte: u8) {
        if offset == 3 {
            if let Some(channel) = self.channels.get_mut(usize::from(byte >> 6)) {
                channel.control(byte);
            }
        } else if let Some(channel) = self.channels.get_mut(usize::from(offset)) {
            channel.write(byte);
        }
    }
}

impl call::Timer for Timer {
    fn power_on() -> Self {
        Timer::power_on()
    }

    fn write(&mut self, offset: u16, byte: u8) {
        Device::write(self, offset, byte);
    }

    fn skip(&mut self, n: u64) {
        for _ in 0..n {
            self.tick();
        }
    }

    fn level(&self) -> bool {
        Device::level(self)
    }

    /// Steps a copy, for at most two of the longest periods: OUT that does not change in that time never does.
    fn announce(&self) -> Option<u64> {
        let mut copy = Timer {
            channels: self.channels,
        };
        (1..=2 * 65_537).find(|_| {
            copy.tick();
            copy.channels[0].out != self.channels[0].out
        })
    }
}

#[derive(Clone, Copy, PartialEq)]
enum Stage {
    Idle,
    WaitIcw2,
    WaitIcw3,
    WaitIcw4,
    Ready,
}

/// An 8259A.
struct Chip {
    inputs: u8,
    irr: u8,
    isr: u8,
    imr: u8,
    base: u8,
    lowest: u8,
    read_isr: bool,
    stage: Stage,
    /// Bits 1 and 0 of the last ICW1.
    single: bool,
    needs_icw4: bool,
}

impl Chip {
    fn power_on(inputs: u8) -> Chip {
        Chip {
            inputs,
            irr: 0,
            isr: 0,
            imr: 0,
            base: 0,
            lowest: 7,
            read_isr: false,
            stage: Stage::Idle,
            single: false,
            needs_icw4: false,
        }
    }

    fn drive(&mut self, levels: u8) {
        for input in 0..8 {
            let bit = 1 << input;
            if levels & bit != 0 && self.inputs & bit == 0 {
                self.irr |= bit;
            } else if levels & bit == 0 {
                self.irr &= !bit;
            }
        }
        self.inputs = levels;
    }

    /// The set bit that comes first in priority, with its place.
    fn first(&self, register: u8) -> Option<(u8, u8)> {
        (0..8)
            .map(|place| (place, (self.lowest + 1 + place) % 8))
            .find(|&(_, input)| register >> input & 1 == 1)
    }

    fn request(&self) -> Option<u8> {
        if self.stage != Stage::Ready || self.irr & !self.imr == 0 {
            return None;
        }
        let (place, input) = self.first(self.irr & !self.imr)?;
        match self.first(self.isr) {
            Some((served, _)) if served <= place => None,
            _ => Some(input),
        }
    }

    fn acknowledge(&mut self) -> u8 {
        match self.request() {
            Some(input) => {
                self.irr &= !(1 << input);
                self.isr |= 1 << input;
                self.base + input
            }
            None => self.base + 7,
        }
    }

    fn read(&self, offset: u16) -> u8 {
        match offset {
            0 if self.read_isr => self.isr,
            0 => self.irr,
            _ => self.imr,
        }
    }

    fn write(&mut self, offset: u16, byte: u8) {
        if offset == 1 {
            self.write_offset_1(byte);
        } else if byte & 0x10 != 0 {
            self.irr = 0;
            self.isr = 0;
            self.imr = 0;
            self.lowest = 7;
            self.read_isr = false;
            self.single = byte & 2 != 0;
            self.needs_icw4 = byte & 1 != 0;
            self.stage = Stage::WaitIcw2;
        } else if byte & 8 != 0 {
            if byte & 2 != 0 {
                self.read_isr = byte & 1 != 0;
            }
        } else {
            self.ocw2(byte);
        }
    }

    fn write_offset_1(&mut self, byte: u8) {
        let after_icw3 = if self.needs_icw4 {
            Stage::WaitIcw4
        } else {
            Stage::Ready
        };
        match self.stage {
            Stage::WaitIcw2 => {
                self.base = byte & 0xF8;
                self.stage = if self.single { after_icw3 } else { Stage::WaitIcw3 };
            }
            Stage::WaitIcw3 => self.stage = after_icw3,
            Stage::WaitIcw4 => self.stage = Stage::Ready,
            Stage::Idle | Stage::Ready => self.imr = byte,
        }
    }

    fn ocw2(&mut self, byte: u8) {
        let named = byte & 7;
        let first = self.first(self.isr).map(|(_, input)| input);
        match byte >> 5 {
            1 => {
                if let Some(input) = first {
                    self.isr &= !(1 << input);
                }
            }
            3 => self.isr &= !(1 << named),
            5 => {
                if let Some(input) = first {
                    self.isr &= !(1 << input);
                    self.lowest = input;
                }
            }
            6 => self.lowest = named,
            7 => {
                self.isr &= !(1 << named);
                self.lowest = named;
            }
            _ => {}
        }
    }
}

pub struct Board<D0, D1, D2, D3> {
    time: u64,
    slot_0: D0,
    slot_1: D1,
    slot_2: D2,
    slot_3: D3,
    handed: [bool; 4],
    master: Chip,
    slave: Chip,
    /// The first to come stands last.
    pending: Vec<QueuedWrite>,
    nodes: usize,
}

impl<D0: Device, D1: Device, D2: Device, D3: Device> Board<D0, D1, D2, D3> {
    pub fn new(slot_0: D0, slot_1: D1, slot_2: D2, slot_3: D3, nodes: usize) -> Self {
        let handed = [slot_0.level(), slot_1.level(), slot_2.level(), slot_3.level()];
        let [slave, master] = Self::lines(&handed).to_be_bytes();
        Board {
            time: 0,
            slot_0,
            slot_1,
            slot_2,
            slot_3,
            handed,
            master: Chip::power_on(master),
            slave: Chip::power_on(slave),
            pending: Vec::new(),
            nodes: nodes.min(MOST_NODES),
        }
    }

    /// The levels of lines 0 to 15, by bit.
    fn lines(levels: &[bool; 4]) -> u16 {
        [0, 8, 4, 3]
            .iter()
            .zip(levels)
            .map(|(line, &level)| u16::from(level) << line)
            .sum()
    }

    fn hand_over(&mut self) -> u64 {
        let levels = [
            self.slot_0.level(),
            self.slot_1.level(),
            self.slot_2.level(),
            self.slot_3.level(),
        ];
        let [slave, master] = Self::lines(&levels).to_be_bytes();
        self.slave.drive(slave);
        let cascade = u8::from(self.slave.request().is_some()) << 2;
        self.master.drive(master | cascade);
        let edges = levels
            .iter()
            .zip(&self.handed)
            .filter(|(new, old)| new != old)
            .count();
        self.handed = levels;
        edges as u64
    }

    fn tick(&mut self) -> u64 {
        self.time += 1;
        self.slot_0.tick();
        self.slot_1.tick();
        self.slot_2.tick();
        self.slot_3.tick();
        let mut edges = self.hand_over();
        while let Some(write) = self.pending.pop_if(|write| write.tick == self.time) {
            self.write_port(write.port, write.byte);
            edges += self.hand_over();
        }
        edges
    }

    fn target(port: u16) -> Target {
        ports::target(port, [D0::WIDTH, D1::WIDTH, D2::WIDTH, D3::WIDTH])
    }

    fn read_port(&mut self, port: u16) -> u8 {
        match Self::target(port) {
            Target::Master(offset) => self.master.read(offset),
            Target::Slave(offset) => self.slave.read(offset),
            Target::Slot0(offset) => self.slot_0.read(offset),
            Target::Slot1(offset) => self.slot_1.read(offset),
            Target::Slot2(offset) => self.slot_2.read(offset),
            Target::Slot3(offset) => self.slot_3.read(offset),
            Target::OpenBus => 0xFF,
        }
    }

    fn write_port(&mut self, port: u16, byte: u8) {
        match Self::target(port) {
            Target::Master(offset) => self.master.write(offset, byte),
            Target::Slave(offset) => self.slave.write(offset, byte),
            Target::Slot0(offset) => self.slot_0.write(offset, byte),
            Target::Slot1(offset) => self.slot_1.write(offset, byte),
            Target::Slot2(offset) => self.slot_2.write(offset, byte),
            Target::Slot3(offset) => self.slot_3.write(offset, byte),
            Target::OpenBus => {}
        }
    }
}

fn timer_behind(factor: u64) -> Divider<Timer> {
    Divider::new(factor, Timer::power_on())
}

pub type OneTimer = Board<Divider<Timer>, Empty, Empty, Empty>;

impl call::Fitted for OneTimer {
    fn fitted(factor: u64, nodes: usize) -> Self {
        Board::new(timer_behind(factor), Empty, Empty, Empty, nodes)
    }
}

pub type FourTimers = Board<Divider<Timer>, Divider<Timer>, Divider<Timer>, Divider<Timer>>;

impl call::Fitted for FourTimers {
    fn fitted(factor: u64, nodes: usize) -> Self {
        let [d0, d1, d2, d3] = [0, 1, 2, 3].map(|more| timer_behind(factor.wrapping_add(more)));
        Board::new(d0, d1, d2, d3, nodes)
    }
}

impl<D0: Device, D1: Device, D2: Device, D3: Device> call::Board for Board<D0, D1, D2, D3> {
    fn advance(&mut self, n: u64) -> Result<u64, u8> {
        may_advance(self.time, n)?;
        Ok((0..n).map(|_| self.tick()).sum())
    }

    fn read(&mut self, port: u16) -> u8 {
        let byte = self.read_port(port);
        self.hand_over();
        byte
    }

    fn write(&mut self, port: u16, byte: u8) {
        self.write_port(port, byte);
        self.hand_over();
    }

    fn acknowledge(&mut self) -> u8 {
        let from_slave = self.master.request() == Some(2);
        let mut vector = self.master.acknowledge();
        if from_slave {
            vector = self.slave.acknowledge();
        }
        self.hand_over();
        vector
    }

    fn queue(&mut self, write: QueuedWrite) -> Result<(), u8> {
        may_queue(self.time, write, self.pending.len(), self.nodes)?;
        let place = self.pending.partition_point(|pending| *pending > write);
        self.pending.insert(place, write);
        Ok(())
    }
}
