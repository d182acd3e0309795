// Adding and reading, for each section and each kind of record.
use crate::records::{make, Record, SECTIONS};
use crate::rust;
use crate::timing::{least, ratio};
use std::hint::black_box;
use thriftbell::{add, finish, read_item};

/// Adds them all to a fresh store, and says the room used.
pub fn add_all(records: &[Record], store: &mut [u8]) -> usize {
    let mut used = 0;
    for r in records {
        add(&mut used, store, &r.words, &r.text).unwrap();
    }
    used
}

fn read_all(id: u8, items: &[Vec<u8>], out: &mut [u32]) {
    for item in items {
        black_box(read_item(id, item, out).unwrap());
    }
}

// The items of a store's frames.
fn items(mut frames: &[u8]) -> Vec<Vec<u8>> {
    let mut all = vec![];
    while let [_, a, b, c, d, rest @ ..] = frames {
        let (item, more) = rest.split_at(u32::from_le_bytes([*a, *b, *c, *d]) as usize);
        all.push(item.to_vec());
        frames = more;
    }
    all
}

// One row: what the records of a section, all kinds or one, take.
fn row(title: &str, id: u8, records: &[Record]) {
    let (mut store, mut out, mut frames) = (vec![0; 8 << 20], vec![0; 8 << 20], vec![]);
    let used = add_all(records, &mut store);
    let length = finish(used, &store, &[id], 0, &mut out).unwrap();
    rust::add(records, &mut frames);
    assert!(store[..used] == frames && out[..length] == rust::build(records).module(&[id], 0), "{title}: they differ");
    let (items, mut words) = (items(&frames), vec![0; 4096]);

    let time = least(|| { black_box(add_all(black_box(records), &mut store)); });
    let judged = ratio(|| { black_box(add_all(black_box(records), &mut store)); }, || rust::add(black_box(records), black_box(&mut frames)));
    let framed = ratio(|| { black_box(add_all(black_box(records), &mut store)); }, || rust::frame(black_box(records), black_box(&mut frames)));
    let built = ratio(|| { black_box(add_all(black_box(records), &mut store)); }, || { black_box(rust::build(black_box(records))); });
    let read = ratio(|| read_all(id, black_box(&items), &mut words), || { black_box(add_all(black_box(records), &mut store)); });
    println!("| {title} | {} | {:.0} | {judged:.2} | {framed:.2} | {built:.2} | {read:.2} |", length / records.len(), 1e9 * time / records.len() as f64);
}

pub fn print() {
    println!("\n| Records | bytes an item | ns an add | add / Rust | add / unchecked | add / builder | read / add |\n|---|---|---|---|---|---|---|");
    for (section, id, kinds) in SECTIONS {
        let mixed: Vec<Record> = (0..200).flat_map(|i| kinds.iter().map(move |kind| make(kind, i))).collect();
        row(&format!("**{section}**, all of these"), id, &mixed);
        for kind in kinds {
            let records: Vec<Record> = (0..400).map(|i| make(kind, i)).collect();
            row(kind, id, &records);
        }
    }
}
