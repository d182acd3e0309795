// The safe functions against the oracle, wasm-encoder itself, over generated calls: every answer, every byte, for every entry. SEEDS is how many files of each
// kind; rust/check runs this, since it needs the oracle beside this crate.
mod calls;

use std::collections::BTreeMap;
use thriftbell::*;

fn seeds() -> u64 {
    std::env::var("SEEDS").map_or(20, |s| s.parse().expect("SEEDS is a number"))
}

// Every call of the files of a kind; what was answered, and how often, is printed.
fn compare(kind: &str, seeds: u64) {
    let mut counts: BTreeMap<String, usize> = BTreeMap::new();
    for seed in 0..seeds {
        for line in String::from_utf8(oracle::make::file(kind, seed)).unwrap().lines() {
            let (found, right) = (calls::answer(line), oracle::entries::answer(line));
            assert!(right != "?" && found == right, "{kind} {seed}: {line:.2000}\n  oracle: {right:.2000}\n  proved: {found:.2000}");
            *counts.entry(format!("{} {}", line.split(' ').next().unwrap(), &right[..2])).or_default() += 1;
        }
    }
    println!("{kind}: {} calls of {seeds} files, none differs: {counts:?}", counts.values().sum::<usize>());
}

#[test]
fn calls_of_every_sort() {
    compare("entries", seeds());
}

#[test]
fn reads_of_cut_and_damaged_items() {
    compare("reads", seeds());
}

// Each file has a store, a module's buffer and an output of its own, as the program `hexlines` has.
#[test]
fn hex_lines() {
    let mut count = 0;
    for seed in 0..seeds() {
        let (mut used, mut store, mut buffer, mut out) = (0, vec![0; 32768], vec![0; 32768], vec![0; 2 + 2 * 32768]);
        let input = oracle::make::file("lines", seed);
        let right = oracle::lines::answers(&input);
        let mut lines: Vec<&[u8]> = input.split(|&b| b == b'\n').collect();
        // a last line may lack its line feed, and nothing after the last one is no line
        if lines.last().is_some_and(|l| l.is_empty()) {
            lines.pop();
        }
        assert_eq!(lines.len(), right.lines().count());
        for (line, right) in lines.iter().zip(right.lines()) {
            let n = answer_line(line, &mut used, &mut store, &mut buffer, &mut out).unwrap();
            assert_eq!(std::str::from_utf8(&out[..n]), Ok(right), "lines {seed}: {}", String::from_utf8_lossy(line));
            count += 1;
        }
    }
    println!("lines: {count} lines, none differs");
}

// Sizes and indices by the numbers that the calls have: an index is the signed number of 64 bits.
#[test]
fn sizes_and_indices() {
    let mut count = 0;
    for seed in 0..seeds() {
        for line in String::from_utf8(oracle::make::file("entries", seed)).unwrap().lines() {
            if let ["write", _, value, out] = line.split(' ').collect::<Vec<_>>()[..] {
                let Ok(v) = value.parse::<u32>() else { continue };
                assert_eq!(oracle::entries::answer(&format!("write u32 {v} 5")).len(), 3 + 2 * encoding_size(v));
                assert_eq!(calls::written(out.parse().unwrap(), |room| encode_index(v, room)), oracle::entries::answer(&format!("write i64 {v} {out}")));
                count += 1;
            }
            if let ["number", _, bytes] = line.split(' ').collect::<Vec<_>>()[..] {
                let right = oracle::entries::answer(&format!("number i64 {bytes}"));
                let value = right.split(' ').nth(1).and_then(|v| v.parse::<u32>().ok());
                let found = decode_index(&calls::unhex(bytes), 0);
                assert_eq!(found.map(|(v, end)| format!("00 {v} {end}")).map_err(|r| r.number), value.map(|_| right).ok_or(11), "{line}");
                count += 1;
            }
        }
    }
    println!("sizes and indices: {count} calls, none differs");
}

// Every string of up to two bytes, and every one of three whose first byte begins a character of more.
#[test]
fn names() {
    let check = |s: &[u8]| assert_eq!(is_name(s), oracle::text::is_name(s), "{s:02X?}");
    check(b"");
    for x in 0..=0xFFFFFFu32 {
        let bytes = x.to_be_bytes();
        if x <= 0xFF {
            check(&bytes[3..]);
        } else if x <= 0xFFFF {
            check(&bytes[2..]);
        } else if bytes[1] >= 0x80 {
            check(&bytes[1..]);
        }
    }
}
