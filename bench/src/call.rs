//! Calls of a board, and what every board of the benchmark offers.

pub const HORIZON: u64 = 1 << 32;
pub const END_OF_TIME: u64 = 1 << 48;
pub const MOST_NODES: usize = 4096;

/// The numbers of the refusals.
pub const LONG_ADVANCE: u8 = 6;
pub const PAST_END: u8 = 7;
pub const BAD_TICK: u8 = 8;
pub const QUEUE_FULL: u8 = 9;

/// Kinds 0 to 4 are advance (of `number` ticks), read, write, acknowledge and queue (for tick `number`). The layout is the library's.
#[repr(C)]
#[derive(Clone, Copy, Debug)]
pub struct Call {
    pub number: u64,
    pub port: u16,
    pub byte: u8,
    pub kind: u8,
}

impl Call {
    pub fn advance(number: u64) -> Call {
        Call {
            number,
            port: 0,
            byte: 0,
            kind: 0,
        }
    }

    pub fn read(port: u16) -> Call {
        Call {
            number: 0,
            port,
            byte: 0,
            kind: 1,
        }
    }

    pub fn write(port: u16, byte: u8) -> Call {
        Call {
            number: 0,
            port,
            byte,
            kind: 2,
        }
    }

    pub fn acknowledge() -> Call {
        Call {
            number: 0,
            port: 0,
            byte: 0,
            kind: 3,
        }
    }

    pub fn queue(tick: u64, port: u16, byte: u8) -> Call {
        Call {
            number: tick,
            port,
            byte,
            kind: 4,
        }
    }

    pub fn queued(self) -> QueuedWrite {
        QueuedWrite {
            tick: self.number,
            port: self.port,
            byte: self.byte,
        }
    }
}

/// A write that waits for its tick; the order of the fields is the order in which writes are carried out.
#[derive(Clone, Copy, PartialEq, Eq, PartialOrd, Ord, Debug)]
pub struct QueuedWrite {
    pub tick: u64,
    pub port: u16,
    pub byte: u8,
}

pub trait Board {
    fn advance(&mut self, n: u64) -> Result<u64, u8>;
    fn read(&mut self, port: u16) -> u8;
    fn write(&mut self, port: u16, byte: u8);
    fn acknowledge(&mut self) -> u8;
    fn queue(&mut self, write: QueuedWrite) -> Result<(), u8>;
}

/// A board that is made with its devices.
pub trait Fitted: Board {
    fn fitted(factor: u64, nodes: usize) -> Self;
}

/// The timer alone, with ticks of its own.
pub trait Timer {
    fn power_on() -> Self;
    fn write(&mut self, offset: u16, byte: u8);
    fn skip(&mut self, n: u64);
    fn level(&self) -> bool;
    fn announce(&self) -> Option<u64>;
}
