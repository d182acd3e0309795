//! Thriftbell as safe functions: part of wasm-encoder, ported to Rattle and proved, behind [`raw`], the entries for C.
//!
//! A module of one function type and one passive data segment, its records by the builders of [`records`]:
//!
//! ```
//! use thriftbell::records::{data, types, ValType};
//! use thriftbell::{Refusal, SectionId, Store};
//!
//! let mut store = Store::new(64);
//! store.add_record(&types::function([ValType::I32, ValType::I32], [ValType::I32]))?;
//! store.add_record(&data::passive(b"A"))?;
//! let order = [SectionId::Type as u8, SectionId::DataCount as u8, SectionId::Data as u8];
//! let module = store.finish_to_vec(&order, 1)?;
//! assert_eq!(module, b"\0asm\x01\0\0\0\x01\x07\x01\x60\x02\x7F\x7F\x01\x7F\x0C\x01\x01\x0B\x04\x01\x01\x01A");
//! # Ok::<(), Refusal>(())
//! ```
//!
//! A record is words and a text (`docs/RECORDS.md`), and may come from anywhere; every entry also takes memory that the caller has:
//!
//! ```
//! use thriftbell::{encode_i32, Refusal, Store};
//!
//! let mut store = Store::new(64);
//! store.add(&[11, 0, 0, 0, 0, 0, 1], b"A")?;
//! let mut out = [0; 64];
//! let length = store.finish(&[12, 11], 1, &mut out)?;
//! assert_eq!(out[..length], *b"\0asm\x01\0\0\0\x0C\x01\x01\x0B\x04\x01\x01\x01A");
//! assert_eq!(encode_i32(9999, &mut out), Ok(3));
//! assert_eq!(out[..3], [0x8F, 0xCE, 0x00]);
//! assert_eq!(store.add(&[11], b"").unwrap_err().number, 2);
//! # Ok::<(), Refusal>(())
//! ```
//!
//! What is lent is changed only where an entry accepts, and no further than its result. Nothing is kept between calls.
#![no_std]

extern crate alloc;

pub mod limits;
pub mod raw;
pub mod records;
mod refusal;
mod section;
mod store;

pub use refusal::Refusal;
pub use section::SectionId;
pub use store::Store;

use refusal::told;

// Each unsafe call below lends what `raw` asks: a slice's own pointer and length, and numbers by references, no two of which overlap.

macro_rules! writers {
    ($($(#[$doc:meta])* $name:ident, $raw:ident, $t:ty;)*) => {
        $($(#[$doc])*
        pub fn $name(v: $t, out: &mut [u8]) -> Result<usize, Refusal> {
            let mut length = 0;
            let number = unsafe { raw::$raw(v, out.as_mut_ptr(), out.len(), &mut length) };
            told(number, length)
        })*
    };
}

writers! {
    /// Writes a number at the front of `out` and answers its length. Refusal: 10.
    encode_u32, thriftbell_encode_u32, u32;
    /// As [`encode_u32`].
    encode_u64, thriftbell_encode_u64, u64;
    /// As [`encode_u32`], with a sign.
    encode_i32, thriftbell_encode_i32, i32;
    /// As [`encode_i32`].
    encode_i64, thriftbell_encode_i64, i64;
    /// An index of a heap type: a signed number of 64 bits.
    encode_index, thriftbell_encode_index, u32;
    /// The expression 41 v 0B. Refusal: 10.
    i32_const, thriftbell_i32_const, i32;
    /// The expression 42 v 0B. Refusal: 10.
    i64_const, thriftbell_i64_const, i64;
}

macro_rules! readers {
    ($($(#[$doc:meta])* $name:ident, $raw:ident, $t:ty;)*) => {
        $($(#[$doc])*
        pub fn $name(s: &[u8], at: usize) -> Result<($t, usize), Refusal> {
            let (mut value, mut end) = (0, 0);
            let number = unsafe { raw::$raw(s.as_ptr(), s.len(), at, &mut value, &mut end) };
            told(number, (value, end))
        })*
    };
}

readers! {
    /// Reads a number, in its shortest form, at the place `at`, and answers it and the place behind it. Refusal: 11.
    decode_u32, thriftbell_decode_u32, u32;
    /// As [`decode_u32`].
    decode_u64, thriftbell_decode_u64, u64;
    /// As [`decode_u32`], with a sign.
    decode_i32, thriftbell_decode_i32, i32;
    /// As [`decode_i32`].
    decode_i64, thriftbell_decode_i64, i64;
    /// An index of a heap type.
    decode_index, thriftbell_decode_index, u32;
}

/// How many bytes [`encode_u32`] writes.
pub fn encoding_size(n: u32) -> usize {
    raw::thriftbell_encoding_size(n)
}

/// Whether bytes are UTF-8, as names are.
pub fn is_name(s: &[u8]) -> bool {
    unsafe { raw::thriftbell_is_name(s.as_ptr(), s.len()) }
}

/// Whether the whole of `s` is a constant expression. Refusal: 5.
pub fn check_expr(s: &[u8]) -> Result<(), Refusal> {
    told(unsafe { raw::thriftbell_check_expr(s.as_ptr(), s.len()) }, ())
}

/// Adds a record to a store, of which `used` is the room used. Refusals: 1 to 7. [`Store`] has both.
pub fn add(used: &mut usize, store: &mut [u8], words: &[u32], text: &[u8]) -> Result<(), Refusal> {
    let number = unsafe {
        raw::thriftbell_add(used, store.as_mut_ptr(), store.len(), words.as_ptr(), words.len(), text.as_ptr(), text.len())
    };
    told(number, ())
}

/// Writes the module of a store's frames to the front of `out` and answers its length. Refusals: 1, 8, 9, 10.
pub fn finish(used: usize, store: &[u8], order: &[u8], count: u32, out: &mut [u8]) -> Result<usize, Refusal> {
    let mut length = 0;
    let number = unsafe {
        raw::thriftbell_finish(used, store.as_ptr(), store.len(), order.as_ptr(), order.len(), count, out.as_mut_ptr(), out.len(), &mut length)
    };
    told(number, length)
}

/// Reads the item of a section that begins `bytes`, writes its record's words to `out`, and answers how many words it wrote and bytes it took. Refusals:
/// 11, 10.
pub fn read_item(id: u8, bytes: &[u8], out: &mut [u32]) -> Result<(usize, usize), Refusal> {
    let (mut words, mut taken) = (0, 0);
    let number = unsafe {
        raw::thriftbell_read_item(id, bytes.as_ptr(), bytes.len(), out.as_mut_ptr(), out.len(), &mut words, &mut taken)
    };
    told(number, (words, taken))
}

/// Answers a hex line, without its line feed, by one in `out`, and answers its length. What the line draws stands in its first two digits; a finish writes
/// its module to `buffer`. Refusal: 10, where `out` is shorter than 2 and twice `buffer`.
pub fn answer_line(line: &[u8], used: &mut usize, store: &mut [u8], buffer: &mut [u8], out: &mut [u8]) -> Result<usize, Refusal> {
    let mut length = 0;
    let number = unsafe {
        raw::thriftbell_answer_line(
            line.as_ptr(), line.len(), used, store.as_mut_ptr(), store.len(), buffer.as_mut_ptr(), buffer.len(), out.as_mut_ptr(), out.len(), &mut length,
        )
    };
    told(number, length)
}
