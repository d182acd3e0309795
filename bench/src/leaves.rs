// Numbers against wasm-encoder's own writer and leb128fmt's reader, names against std's check, expressions against a check by hand. Ours are called through C's
// calling convention; so readers and the check by hand are timed behind such a call too.
use crate::timing::ratio;
use std::hint::black_box;
use wasm_encoder::Encode;

// A number for each i, of every length alike.
fn spread(i: u64, bits: u32) -> u64 {
    let x = (i + 1).wrapping_mul(0x9E37_79B9_7F4A_7C15);
    (x >> (64 - bits)) >> (x % u64::from(bits))
}

// Writing and reading back numbers of one type.
macro_rules! number {
    ($title:literal, $t:ty, $wide:ty, $encode:ident, $decode:ident, $theirs:ident) => {{
        let numbers: Vec<$t> = (0..2000).map(|i| spread(i, <$t>::BITS) as $t).collect();
        let (mut ours, mut others, mut ends) = (vec![0u8; 20_010], vec![], vec![]);
        let write = |out: &mut [u8]| numbers.iter().fold(0, |at, v| at + thriftbell::$encode(*v, &mut out[at..]).unwrap());
        let length = write(&mut ours);
        numbers.iter().for_each(|v| v.encode(&mut others));
        assert!(ours[..length] == others, "they differ");
        let writing = ratio(|| { black_box(write(black_box(&mut ours))); }, || { others.clear(); numbers.iter().for_each(|v| v.encode(black_box(&mut others))); });
        let mut at = 0;
        for _ in &numbers {
            ends.push(at);
            at = thriftbell::$decode(&ours, at).unwrap().1;
        }
        let read = |at: &usize| thriftbell::$decode(&ours, *at).unwrap().0 as $wide;
        let theirs = |at: &usize| leb128fmt::$theirs::<$t, { <$t>::BITS }>(&ours, &mut { *at }).unwrap() as $wide;
        assert!(ends.iter().all(|at| read(at) == theirs(at)), "they differ");
        #[inline(never)]
        extern "C" fn called(s: *const u8, length: usize, at: usize, value: &mut $t, end: &mut usize) -> u32 {
            let mut place = at;
            let found = leb128fmt::$theirs::<$t, { <$t>::BITS }>(unsafe { std::slice::from_raw_parts(s, length) }, &mut place);
            (*value, *end) = found.as_ref().map_or((0, 0), |v| (*v, place));
            if found.is_ok() { 0 } else { 11 }
        }
        let behind = |at: &usize| {
            let (mut value, mut end) = (0, 0usize);
            assert!(called(ours.as_ptr(), ours.len(), *at, &mut value, &mut end) == 0);
            value as $wide
        };
        let inlined = ratio(|| { black_box(ends.iter().fold(0 as $wide, |n, at| n.wrapping_add(read(at)))); }, || { black_box(ends.iter().fold(0 as $wide, |n, at| n.wrapping_add(theirs(at)))); });
        let called = ratio(|| { black_box(ends.iter().fold(0 as $wide, |n, at| n.wrapping_add(read(at)))); }, || { black_box(ends.iter().fold(0 as $wide, |n, at| n.wrapping_add(behind(at)))); });
        println!("| {} | {writing:.2} | {called:.2} | {inlined:.2} |", $title);
    }};
}

fn numbers() {
    println!("\n| Numbers | written / wasm-encoder | read / leb128fmt, called | read / leb128fmt, inlined |\n|---|---|---|---|");
    number!("u32", u32, u64, encode_u32, decode_u32, decode_uint_slice);
    number!("u64", u64, u64, encode_u64, decode_u64, decode_uint_slice);
    number!("i32", i32, i64, encode_i32, decode_i32, decode_sint_slice);
    number!("i64", i64, i64, encode_i64, decode_i64, decode_sint_slice);
}

fn names() {
    println!("\n| Names | check / std's |\n|---|---|");
    for (title, text) in [("plain", "pump.acquirer.limit."), ("two bytes a character", "éßüñøåçæðþ"), ("three bytes", "給油所の売上"), ("four bytes", "𝟘𝟙𝟚𝟛𝟜"), ("mixed", "site é 給油 𝟘 ok.")] {
        for bytes in [10, 60, 1000] {
            let whole: String = text.chars().cycle().scan(0, |n, c| { *n += c.len_utf8(); (*n <= bytes).then_some(c) }).collect();
            let all = vec![whole.into_bytes(); 20_000 / bytes];
            let part = ratio(|| all.iter().for_each(|s| assert!(thriftbell::is_name(black_box(s)))), || all.iter().for_each(|s| assert!(std::str::from_utf8(black_box(s)).is_ok())));
            println!("| {title}, {bytes} bytes | {part:.2} |");
        }
    }
}

// The check by hand, behind a call.
#[inline(never)]
extern "C" fn checked(s: *const u8, length: usize) -> u32 {
    if oracle::text::is_expression(unsafe { std::slice::from_raw_parts(s, length) }) { 0 } else { 5 }
}

fn expressions() {
    println!("\n| Expressions | check / by hand, called | check / by hand, inlined |\n|---|---|---|");
    let kinds: [(&str, &[u8]); 6] = [
        ("i32.const", &[0x41, 0x8F, 0xCE, 0x00]), ("i64.const", &[0x42, 0x80, 0x81, 0x82, 0x83, 0x04]), ("f64.const", &[0x44, 1, 2, 3, 4, 5, 6, 7, 8]),
        ("global.get", &[0x23, 0x07]), ("ref.func", &[0xD2, 0x80, 0x01]), ("ref.null and i32.add", &[0xD0, 0x70, 0x6A]),
    ];
    for (title, instruction) in kinds {
        for count in [1, 20] {
            let all = vec![[&instruction.repeat(count)[..], &[0x0B]].concat(); 4000 / count];
            let ours = || all.iter().for_each(|s| assert!(thriftbell::check_expr(black_box(s)).is_ok()));
            let called = ratio(ours, || all.iter().for_each(|s| assert!(checked(black_box(s).as_ptr(), s.len()) == 0)));
            let inlined = ratio(ours, || all.iter().for_each(|s| assert!(oracle::text::is_expression(black_box(s)))));
            println!("| {count} of {title} | {called:.2} | {inlined:.2} |");
        }
    }
}

pub fn print() {
    numbers();
    names();
    expressions();
}
