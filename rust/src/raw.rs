//! The entries for C as they are; `c/thriftbell.h` says what each does.
//!
//! # Safety
//!
//! Each function is safe to call where, for the whole call:
//! - a pointer beside a `_len` points to so many bytes or words, or the length is 0, and then it may be null;
//! - each other pointer points to one number;
//! - pointers to words and numbers are aligned as their type is;
//! - what a `*const` points to may be read, what a `*mut` points to may be read and written;
//! - what a `*mut` points to overlaps nothing else that is lent, and no other thread uses it; nothing writes what a `*const` points to.
//!
//! The functions keep nothing between calls: calls that share no memory which one of them writes may run at once.

unsafe extern "C" {
    /// # Safety
    /// As [the module](self#safety) says, of `out` and `length`.
    pub fn thriftbell_encode_u32(v: u32, out: *mut u8, out_len: usize, length: *mut usize) -> u32;
    /// # Safety
    /// As [`thriftbell_encode_u32`].
    pub fn thriftbell_encode_u64(v: u64, out: *mut u8, out_len: usize, length: *mut usize) -> u32;
    /// # Safety
    /// As [`thriftbell_encode_u32`].
    pub fn thriftbell_encode_i32(v: i32, out: *mut u8, out_len: usize, length: *mut usize) -> u32;
    /// # Safety
    /// As [`thriftbell_encode_u32`].
    pub fn thriftbell_encode_i64(v: i64, out: *mut u8, out_len: usize, length: *mut usize) -> u32;
    /// # Safety
    /// As [`thriftbell_encode_u32`].
    pub fn thriftbell_encode_index(v: u32, out: *mut u8, out_len: usize, length: *mut usize) -> u32;
    /// # Safety
    /// As [the module](self#safety) says, of `s`, `value` and `end`; `at` may be any number.
    pub fn thriftbell_decode_u32(s: *const u8, s_len: usize, at: usize, value: *mut u32, end: *mut usize) -> u32;
    /// # Safety
    /// As [`thriftbell_decode_u32`].
    pub fn thriftbell_decode_u64(s: *const u8, s_len: usize, at: usize, value: *mut u64, end: *mut usize) -> u32;
    /// # Safety
    /// As [`thriftbell_decode_u32`].
    pub fn thriftbell_decode_i32(s: *const u8, s_len: usize, at: usize, value: *mut i32, end: *mut usize) -> u32;
    /// # Safety
    /// As [`thriftbell_decode_u32`].
    pub fn thriftbell_decode_i64(s: *const u8, s_len: usize, at: usize, value: *mut i64, end: *mut usize) -> u32;
    /// # Safety
    /// As [`thriftbell_decode_u32`].
    pub fn thriftbell_decode_index(s: *const u8, s_len: usize, at: usize, value: *mut u32, end: *mut usize) -> u32;
    /// Safe: nothing is lent.
    pub safe fn thriftbell_encoding_size(n: u32) -> usize;
    /// # Safety
    /// As [the module](self#safety) says, of `s`.
    pub fn thriftbell_is_name(s: *const u8, s_len: usize) -> bool;
    /// # Safety
    /// As [`thriftbell_is_name`].
    pub fn thriftbell_check_expr(s: *const u8, s_len: usize) -> u32;
    /// # Safety
    /// As [`thriftbell_encode_u32`].
    pub fn thriftbell_i32_const(v: i32, out: *mut u8, out_len: usize, length: *mut usize) -> u32;
    /// # Safety
    /// As [`thriftbell_encode_u32`].
    pub fn thriftbell_i64_const(v: i64, out: *mut u8, out_len: usize, length: *mut usize) -> u32;
    /// # Safety
    /// As [the module](self#safety) says, of `used`, `store`, `words` and `text`; `used` may hold any number.
    pub fn thriftbell_add(used: *mut usize, store: *mut u8, store_len: usize, words: *const u32, words_len: usize, text: *const u8, text_len: usize) -> u32;
    /// # Safety
    /// As [the module](self#safety) says, of `store`, `order`, `out` and `length`; `used` may be any number.
    pub fn thriftbell_finish(used: usize, store: *const u8, store_len: usize, order: *const u8, order_len: usize, count: u32, out: *mut u8, out_len: usize, length: *mut usize) -> u32;
    /// # Safety
    /// As [the module](self#safety) says, of `bytes`, `out`, `words` and `taken`.
    pub fn thriftbell_read_item(id: u8, bytes: *const u8, bytes_len: usize, out: *mut u32, out_len: usize, words: *mut usize, taken: *mut usize) -> u32;
    /// # Safety
    /// As [the module](self#safety) says, of `line`, `used`, `store`, `buffer`, `out` and `length`; `used` may hold any number.
    pub fn thriftbell_answer_line(line: *const u8, line_len: usize, used: *mut usize, store: *mut u8, store_len: usize, buffer: *mut u8, buffer_len: usize, out: *mut u8, out_len: usize, length: *mut usize) -> u32;
}
