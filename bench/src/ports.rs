//! What both Rust boards take from the same table: which port reaches what, and when a call is refused.

use crate::call::{BAD_TICK, END_OF_TIME, HORIZON, LONG_ADVANCE, PAST_END, QUEUE_FULL, QueuedWrite};

pub enum Target {
    Master(u16),
    Slave(u16),
    Slot0(u16),
    Slot1(u16),
    Slot2(u16),
    Slot3(u16),
    OpenBus,
}

/// What a port reaches where the slots' devices are so wide, and the offset there.
#[inline]
pub fn target(port: u16, widths: [u16; 4]) -> Target {
    match port {
        0x20..=0x21 => Target::Master(port - 0x20),
        0xA0..=0xA1 => Target::Slave(port - 0xA0),
        0x40.. if port - 0x40 < widths[0] => Target::Slot0(port - 0x40),
        0x70.. if port - 0x70 < widths[1] => Target::Slot1(port - 0x70),
        0x3F8.. if port - 0x3F8 < widths[2] => Target::Slot2(port - 0x3F8),
        0x2F8.. if port - 0x2F8 < widths[3] => Target::Slot3(port - 0x2F8),
        _ => Target::OpenBus,
    }
}

/// Whether time can pass so far.
#[inline]
pub fn may_advance(time: u64, n: u64) -> Result<(), u8> {
    if n > HORIZON {
        Err(LONG_ADVANCE)
    } else if n > END_OF_TIME - time {
        Err(PAST_END)
    } else {
        Ok(())
    }
}

/// Whether a write can join so many that wait, in so many nodes.
#[inline]
pub fn may_queue(time: u64, write: QueuedWrite, waiting: usize, nodes: usize) -> Result<(), u8> {
    if write.tick <= time || write.tick > END_OF_TIME {
        Err(BAD_TICK)
    } else if waiting == nodes {
        Err(QUEUE_FULL)
    } else {
        Ok(())
    }
}
