//! The kinds of operation.

pub const APPOINT: u8 = 1;
pub const REMOVE: u8 = 2;
pub const DEPUTY: u8 = 3;
pub const SEAT: u8 = 16;
pub const RESULT: u8 = 17;
pub const SHOW: u8 = 18;
pub const CLOSE_OF_CHESS: u8 = 19;
pub const TOTAL_OF_CHESS: u8 = 20;
pub const SCORE: u8 = 32;
pub const LINE: u8 = 33;
pub const CLOSE_OF_BRIDGE: u8 = 34;
pub const TOTAL_OF_BRIDGE: u8 = 35;
