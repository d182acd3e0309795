// Finishing, against one copy of the module's bytes, and against what any finish has to do: a walk over the frames for the lengths, and a second one that copies
// each item to its section, by hand.
use crate::records::{make, Record, SECTIONS};
use crate::sections::add_all;
use crate::timing::least;
use std::hint::black_box;
use thriftbell::finish;

const ORDER: [u8; 6] = [1, 2, 4, 9, 12, 11];

fn leb(mut n: usize, out: &mut [u8], mut at: usize) -> usize {
    while n > 127 {
        out[at] = n as u8 | 128;
        n >>= 7;
        at += 1;
    }
    out[at] = n as u8;
    at + 1
}

// A frame's id and the length of its item, if one begins there.
fn head(frames: &[u8], at: usize) -> Option<(usize, usize)> {
    let (id, n) = (*frames.get(at)? as usize, u32::from_le_bytes(frames.get(at + 1..at + 5)?.try_into().unwrap()) as usize);
    (matches!(id, 1 | 2 | 4 | 9 | 11) && n <= 65536 && n <= frames.len() - at - 5).then_some((id, n))
}

// An order list without repeats, and an output that is long enough.
fn by_hand(frames: &[u8], order: &[u8], count: usize, out: &mut [u8]) -> Option<usize> {
    let (mut counts, mut totals, mut places, mut at) = ([0; 16], [0; 16], [0; 16], 0);
    while at < frames.len() {
        let (id, n) = head(frames, at)?;
        counts[id] += 1;
        totals[id] += n;
        at += n + 5;
    }
    counts[12] = count;
    out[..8].copy_from_slice(b"\0asm\x01\0\0\0");
    let mut end = 8;
    for &id in order {
        let i = id as usize;
        out[end] = id;
        end = leb(leb(counts[i], &mut [0; 10], 0) + totals[i], out, end + 1);
        end = leb(counts[i], out, end);
        places[i] = end;
        end += totals[i];
    }
    at = 0;
    while at < frames.len() {
        let (id, n) = head(frames, at)?;
        let to = places[id];
        if to > 0 {
            out[to..to + n].copy_from_slice(&frames[at + 5..at + 5 + n]);
            places[id] = to + n;
        }
        at += n + 5;
    }
    Some(end)
}

// One row: a module of these records, all six ids in the order.
fn row(title: &str, records: &[Record]) {
    let (mut store, mut out, mut again) = (vec![0; 8 << 20], vec![0; 8 << 20], vec![0; 8 << 20]);
    let used = add_all(records, &mut store);
    let length = finish(used, &store, &ORDER, 7, &mut out).unwrap();
    assert!(by_hand(&store[..used], &ORDER, 7, &mut again) == Some(length) && out[..length] == again[..length], "{title}: they differ");
    let (module, mut copied, turns) = (out[..length].to_vec(), vec![0; length], (20_000 / records.len()).max(1));
    let time = |mut turn: Box<dyn FnMut() + '_>| 1e9 * least(|| (0..turns).for_each(|_| turn())) / (turns * records.len()) as f64;
    let ours = time(Box::new(|| { black_box(finish(used, black_box(&store), &ORDER, 7, &mut out).unwrap()); }));
    let hand = time(Box::new(|| { black_box(by_hand(black_box(&store[..used]), &ORDER, 7, &mut again)); }));
    let copy = time(Box::new(|| black_box(&mut copied).copy_from_slice(black_box(&module))));
    println!("| {title} | {} | {} | {ours:.0} | {:.2} | {:.2} | {:.2} |", records.len(), length / records.len(), ours / copy, hand / copy, ours / hand);
}

// In an order that a processor could not foresee.
fn shuffled(mut records: Vec<Record>) -> Vec<Record> {
    let mut seed = 1u64;
    for i in (1..records.len()).rev() {
        seed = seed.wrapping_mul(6364136223846793005).wrapping_add(1442695040888963407);
        records.swap(i, (seed >> 33) as usize % (i + 1));
    }
    records
}

pub fn print() {
    println!("\n| Module | items | bytes an item | ns an item | finish / copy | by hand / copy | finish / by hand |\n|---|---|---|---|---|---|---|");
    let kinds = |kinds: &[&str], count: usize| shuffled((0..count).flat_map(|i| kinds.iter().map(move |kind| make(kind, i))).collect());
    let all: Vec<&str> = SECTIONS.iter().flat_map(|(_, _, kinds)| kinds.iter().copied()).collect();
    row("all kinds of all sections", &kinds(&all, 2));
    row("all kinds of all sections", &kinds(&all, 200));
    for (section, _, some) in SECTIONS {
        row(section, &kinds(some, 200));
    }
    for kind in ["function of 2", "active 16", "active 1024", "00 7E of 64 long names"] {
        row(kind, &kinds(&[kind], 400));
    }
}
