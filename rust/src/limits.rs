//! The limits of document 01, as `c/thriftbell.h` has them; and the longest numbers and frames.

/// The most bytes of a store.
pub const MAX_STORE: usize = 16_777_216;
/// The most words of a record.
pub const MAX_WORDS: usize = 4_096;
/// The most bytes of a record's text.
pub const MAX_TEXT: usize = 65_536;
/// The most bytes of an item; reading one looks at no more.
pub const MAX_ITEM: usize = 65_536;
/// The most ids of an order list.
pub const MAX_ORDER: usize = 32;
/// The most digits of a hex line.
pub const MAX_LINE: usize = 8_192;
/// What an item takes in the store beside its own bytes.
pub const FRAME_HEAD: usize = 5;
/// The most bytes of a number of 32 bits.
pub const MAX_NUMBER_32: usize = 5;
/// The most bytes of a number of 64 bits.
pub const MAX_NUMBER_64: usize = 10;
/// The most bytes of an expression made from a number.
pub const MAX_CONST: usize = 12;
