// A null pointer with the length 0, for every entry and every pointer that has a length: it is an empty slice.
use std::collections::BTreeSet;
use std::ptr::{null, null_mut};
use thriftbell::raw::*;

// Which pointers have been null, by entry and name.
#[derive(Default)]
struct Tried(BTreeSet<(&'static str, &'static str)>);

impl Tried {
    fn holds(&mut self, entry: &'static str, pointer: &'static str, right: bool) {
        assert!(right, "{entry}, {pointer} null");
        assert!(self.0.insert((entry, pointer)), "{entry}, {pointer} twice");
    }
}

// Refused with 10, and the length is 0.
macro_rules! writes {
    ($tried:ident: $($entry:ident)*) => {
        $({
            let mut length = 99;
            $tried.holds(stringify!($entry), "out", unsafe { $entry(1, null_mut(), 0, &mut length) } == 10 && length == 0);
        })*
    };
}

// Refused with 11, and the numbers are 0.
macro_rules! reads {
    ($tried:ident: $($entry:ident)*) => {
        $({
            let (mut value, mut end) = (99, 99);
            $tried.holds(stringify!($entry), "s", unsafe { $entry(null(), 0, 0, &mut value, &mut end) } == 11 && (value, end) == (0, 0));
        })*
    };
}

fn numbers_and_texts(tried: &mut Tried) {
    writes!(tried: thriftbell_encode_u32 thriftbell_encode_u64 thriftbell_encode_i32 thriftbell_encode_i64 thriftbell_encode_index thriftbell_i32_const thriftbell_i64_const);
    reads!(tried: thriftbell_decode_u32 thriftbell_decode_u64 thriftbell_decode_i32 thriftbell_decode_i64 thriftbell_decode_index);
    tried.holds("thriftbell_is_name", "s", unsafe { thriftbell_is_name(null(), 0) });
    tried.holds("thriftbell_check_expr", "s", unsafe { thriftbell_check_expr(null(), 0) } == 5);
}

// An empty data segment needs no text.
const EMPTY: [u32; 7] = [11, 0, 0, 0, 0, 0, 0];

fn added(store: *mut u8, store_len: usize, words: &[u32], text: *const u8) -> (u32, usize) {
    let mut used = 0;
    let words = if words.is_empty() { (null(), 0) } else { (words.as_ptr(), words.len()) };
    (unsafe { thriftbell_add(&mut used, store, store_len, words.0, words.1, text, 0) }, used)
}

fn adding(tried: &mut Tried) {
    let mut store = [0; 16];
    let (room, text) = (store.as_mut_ptr(), [0u8].as_ptr());
    tried.holds("thriftbell_add", "store", added(null_mut(), 0, &EMPTY, text) == (7, 0));
    tried.holds("thriftbell_add", "words", added(room, 16, &[], text) == (2, 0));
    tried.holds("thriftbell_add", "text", added(room, 16, &EMPTY, null()) == (0, 7));
    assert_eq!(added(null_mut(), 0, &[], null()), (2, 0));
}

fn finished(store: (*const u8, usize), order: (*const u8, usize), out: (*mut u8, usize)) -> (u32, usize) {
    let mut length = 99;
    (unsafe { thriftbell_finish(0, store.0, store.1, order.0, order.1, 0, out.0, out.1, &mut length) }, length)
}

fn finishing(tried: &mut Tried) {
    let mut out = [0; 16];
    let (store, order, room) = ([0u8].as_ptr(), [11u8].as_ptr(), out.as_mut_ptr());
    tried.holds("thriftbell_finish", "store", finished((null(), 0), (order, 1), (room, 16)) == (0, 11));
    tried.holds("thriftbell_finish", "order", finished((store, 1), (null(), 0), (room, 16)) == (0, 8));
    tried.holds("thriftbell_finish", "out", finished((store, 1), (order, 1), (null_mut(), 0)) == (10, 0));
    assert_eq!(finished((null(), 0), (null(), 0), (room, 16)), (0, 8));
}

fn reading(tried: &mut Tried) {
    let (item, mut out, mut words, mut taken) = ([1u8, 0], [0u32; 8], 99, 99);
    let read = unsafe { thriftbell_read_item(11, null(), 0, out.as_mut_ptr(), 8, &mut words, &mut taken) };
    tried.holds("thriftbell_read_item", "bytes", (read, words, taken) == (11, 0, 0));
    let read = unsafe { thriftbell_read_item(11, item.as_ptr(), 2, null_mut(), 0, &mut words, &mut taken) };
    tried.holds("thriftbell_read_item", "out", (read, words, taken) == (10, 0, 0));
}

// A line's answer, with memory that is null where it is empty.
fn answered(line: &[u8], store: &mut [u8], buffer: &mut [u8], out: &mut [u8]) -> (u32, Vec<u8>) {
    let memory = |m: &mut [u8]| if m.is_empty() { (null_mut(), 0) } else { (m.as_mut_ptr(), m.len()) };
    let line = if line.is_empty() { (null(), 0) } else { (line.as_ptr(), line.len()) };
    let (s, b, o) = (memory(store), memory(buffer), memory(out));
    let (mut used, mut length) = (0, 99);
    let number = unsafe { thriftbell_answer_line(line.0, line.1, &mut used, s.0, s.1, b.0, b.1, o.0, o.1, &mut length) };
    (number, out[..length].to_vec())
}

fn lines(tried: &mut Tried) {
    const ADD: &[u8] = b"0107000B00000000000000000000000000000000000000000000000100000041AB";
    const FINISH: &[u8] = b"02010000000C0BE6";
    let (mut store, mut buffer, mut out) = ([0; 16], [0; 16], [0; 34]);
    tried.holds("thriftbell_answer_line", "line", answered(b"", &mut store, &mut buffer, &mut out) == (0, b"0C".to_vec()));
    tried.holds("thriftbell_answer_line", "store", answered(ADD, &mut [], &mut buffer, &mut out) == (0, b"07".to_vec()));
    tried.holds("thriftbell_answer_line", "buffer", answered(FINISH, &mut store, &mut [], &mut out) == (0, b"0A".to_vec()));
    tried.holds("thriftbell_answer_line", "out", answered(ADD, &mut store, &mut buffer, &mut []) == (10, vec![]));
}

// Every pointer with a length that is declared has been tried.
#[test]
fn null_is_empty() {
    let mut tried = Tried::default();
    numbers_and_texts(&mut tried);
    adding(&mut tried);
    finishing(&mut tried);
    reading(&mut tried);
    lines(&mut tried);
    let declared: BTreeSet<(&str, &str)> = include_str!("../src/raw.rs")
        .lines()
        .filter_map(|line| line.trim().strip_prefix("pub fn ")?.split_once('('))
        .flat_map(|(entry, rest)| rest.split(", ").filter_map(move |p| Some((entry, p.split_once("_len: usize")?.0))))
        .collect();
    assert!(!declared.is_empty());
    assert_eq!(tried.0, declared);
}
