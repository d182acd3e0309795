// Numbers, names and expressions by the million, against the crate that wasm-encoder writes numbers with, std's check of names and the oracle's of expressions.
// rust/check runs this, since it needs the oracle beside this crate.
mod random;

use random::Random;
use thriftbell::*;
use wasm_encoder::Encode;

// Every number of one byte's edges and random ones of every length: written as the crate writes it, refused by every shorter room, and read back.
macro_rules! numbers {
    ($name:ident, $t:ty, $encode:ident, $decode:ident) => {
        #[test]
        fn $name() {
            let mut random = Random(88172645463325252);
            for i in 0..200_000u32 {
                let v = if i < 512 { (i as $t).wrapping_sub(256) } else { (random.next() as $t) >> (i % <$t>::BITS) };
                let (mut out, mut right) = ([0xA5; 11], vec![]);
                v.encode(&mut right);
                let n = right.len();
                assert_eq!($encode(v, &mut out), Ok(n));
                assert!(out[..n] == right && out[n..].iter().all(|b| *b == 0xA5), "{v}");
                assert_eq!($decode(&out, 0), Ok((v, n)));
                for room in 0..n {
                    let mut short = [0xA5; 11];
                    assert!($encode(v, &mut short[..room]).is_err() && short == [0xA5; 11] && $decode(&out[..room], 0).is_err(), "{v} in {room}");
                }
            }
        }
    };
}

numbers!(numbers_u32, u32, encode_u32, decode_u32);
numbers!(numbers_u64, u64, encode_u64, decode_u64);
numbers!(numbers_i32, i32, encode_i32, decode_i32);
numbers!(numbers_i64, i64, encode_i64, decode_i64);

// The shortest form only, within the width: what is read of any bytes is what would have been written, or nothing.
#[test]
fn only_what_would_be_written_is_read() {
    let mut random = Random(1181783497276652981);
    for _ in 0..1_000_000 {
        let bytes: Vec<u8> = (0..random.below(12)).map(|_| [0x80, 0xFF, 0x00, 0x7F, 0x40, 0x3F, random.next() as u8][random.below(7)]).collect();
        let mut again = [0; 10];
        if let Ok((v, n)) = decode_u32(&bytes, 0) {
            assert!(encode_u32(v, &mut again) == Ok(n) && again[..n] == bytes[..n]);
        }
        if let Ok((v, n)) = decode_i64(&bytes, 0) {
            assert!(encode_i64(v, &mut again) == Ok(n) && again[..n] == bytes[..n]);
        }
    }
}

// Every string of up to two bytes, those of four over all first bytes and the edges behind, and a million longer ones, sound and damaged.
#[test]
fn names_are_what_std_takes() {
    let edges: Vec<u8> = (0..=255).filter(|b| [0x00, 0x41, 0x7F, 0x80, 0x8F, 0x90, 0x9F, 0xA0, 0xBF, 0xC0, 0xC2, 0xE0, 0xED, 0xF0, 0xF4, 0xFF].contains(b)).collect();
    let agree = |s: &[u8]| assert_eq!(is_name(s), std::str::from_utf8(s).is_ok(), "{s:02X?}");
    for a in 0..=255 {
        (0..=255).for_each(|b| agree(&[a, b]));
        for (b, c) in edges.iter().flat_map(|b| edges.iter().map(move |c| (*b, *c))) {
            edges.iter().for_each(|d| agree(&[a, b, c, *d]));
        }
    }
    let mut random = Random(2463534242);
    for _ in 0..1_000_000 {
        let mut s: Vec<u8> = (0..random.below(30)).map(|_| ["a", "é", "油", "𝟘", "plain and longer"][random.below(5)]).collect::<String>().into_bytes();
        if !s.is_empty() && random.below(2) == 0 {
            let at = random.below(s.len());
            s[at] = edges[random.below(edges.len())];
        }
        agree(&s);
    }
}

#[test]
fn expressions_are_what_the_oracle_takes() {
    let mut random = Random(6364136223846793005);
    for _ in 0..2_000_000 {
        let parts: [&[u8]; 9] = [&[0x41, 0x8F, 0xCE, 0x00], &[0x42, 0x80, 0x80, 0x7F], &[0x43, 1, 2, 3, 4], &[0x44, 1, 2, 3, 4, 5, 6, 7, 8], &[0x23, 7], &[0xD0, 0x70], &[0xD2, 0x80, 1], &[0x6A], &[0x7E]];
        let mut s: Vec<u8> = (0..random.below(5)).flat_map(|_| parts[random.below(9)]).copied().chain([0x0B]).collect();
        if random.below(2) == 0 {
            let at = random.below(s.len());
            s[at] = [random.next() as u8, 0x0B, 0x7F, 0x80, 0xFF, 0x08, 0x78][random.below(7)];
        }
        s.truncate(if random.below(4) == 0 { random.below(s.len() + 1) } else { s.len() });
        assert_eq!(check_expr(&s).is_ok(), oracle::text::is_expression(&s), "{s:02X?}");
    }
}
