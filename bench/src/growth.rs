// How the cost of an item grows with how many there are: adds, and finishing to a module of all sections.
use crate::records::{make, Record};
use crate::timing::least;
use std::hint::black_box;
use thriftbell::{add, finish};

const KINDS: [&str; 5] = ["function of 2", "function", "bare", "8 functions", "passive 16"];

const ORDER: [u8; 6] = [1, 2, 4, 9, 12, 11];

// So many adds to a fresh store, and the room used then.
fn fill(records: &[Record], count: usize, store: &mut [u8]) -> usize {
    let mut used = 0;
    for i in 0..count {
        let r = &records[i % records.len()];
        add(&mut used, store, &r.words, &r.text).unwrap();
    }
    used
}

pub fn print() {
    let records: Vec<Record> = (0..100).flat_map(|i| KINDS.iter().map(move |kind| make(kind, i))).collect();
    let (mut store, mut out) = (vec![0; 8 << 20], vec![0; 8 << 20]);
    println!("\n| Items | ns an add | ns an item of finish |\n|---|---|---|");
    for count in [10, 100, 1000, 10_000, 100_000] {
        let again = (10_000 / count).max(1);
        let part = |time: f64| 1e9 * time / (again * count) as f64;
        let adds = least(|| (0..again).for_each(|_| { black_box(fill(black_box(&records), count, &mut store)); }));
        let used = fill(&records, count, &mut store);
        let ends = least(|| (0..again).for_each(|_| { black_box(finish(used, &store, &ORDER, 7, black_box(&mut out)).unwrap()); }));
        println!("| {count} | {:.0} | {:.0} |", part(adds), part(ends));
    }
}
