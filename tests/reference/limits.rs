// The numbers of document 01: its limits, its refusals, a version and a triple of bounds; with M-100's default.

pub const KEYS: u32 = 64;
pub const OPEN: usize = 32;
pub const READS: usize = 16;
pub const WRITES: usize = 16;
pub const LOG: usize = 4096;
pub const LAST_STAMP: u32 = 4_294_967_295;

pub const HISTORY_BYTES: usize = 65_536;
pub const HISTORY_LINES: usize = 4096;
pub const HISTORY_TRANSACTIONS: usize = 512;

#[derive(Clone, Copy, PartialEq, Eq, Debug)]
pub struct Refusal(pub u32);

pub const NOT_OPEN: Refusal = Refusal(1);
pub const NO_SUCH_KEY: Refusal = Refusal(2);
pub const TOO_MANY_OPEN: Refusal = Refusal(3);
pub const TRANSACTION_FULL: Refusal = Refusal(4);
pub const CLOCK_SPENT: Refusal = Refusal(5);
pub const LOG_FULL: Refusal = Refusal(6);
pub const NO_SUCH_ORDINAL: Refusal = Refusal(7);
pub const OWN_KEY: Refusal = Refusal(8);
pub const NO_BOUND_NO_PLACE: Refusal = Refusal(9);
pub const BAD_MESSAGE: Refusal = Refusal(10);
pub const COPY_AHEAD: Refusal = Refusal(11);
pub const HISTORY_LONG: Refusal = Refusal(12);
pub const BAD_LINE: Refusal = Refusal(13);
pub const TOO_MANY_LINES: Refusal = Refusal(14);
pub const WRONG_TRANSACTION: Refusal = Refusal(15);
pub const TOO_MANY_STARTS: Refusal = Refusal(16);
pub const NO_ROOM: Refusal = Refusal(17);
pub const NOTHING_WRITTEN: Refusal = Refusal(18);

#[derive(Clone, Copy, PartialEq, Eq, Debug)]
pub struct Version {
    pub key: u32,
    pub ordinal: u32,
    pub stamp: u32,
    pub value: i32,
}

/// The version of a key that is there before any commit.
pub fn start_version(key: u32) -> Version {
    Version { key, ordinal: 0, stamp: 0, value: 0 }
}

#[derive(Clone, Copy, PartialEq, Eq, Debug)]
pub struct Bounds {
    pub k1: u32,
    pub k2: u32,
    pub k3: u32,
}

/// A transaction at the master that was not tuned (M-100).
pub const DEFAULT: Bounds = Bounds { k1: 2, k2: 0, k3: 1 };

/// What calibration tunes to, and a written transaction without a `k` line (M-100).
pub const CALIBRATION: Bounds = Bounds { k1: 1, k2: 0, k3: 0 };
