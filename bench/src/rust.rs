// The same from the same records in Rust: wasm-encoder's own builders, over the oracle's reading of flat words.
use crate::records::Record;
use oracle::item::{bytes_of, encode, Sections};
use oracle::record::{self, Kind};
use oracle::text::is_expression;

// Whether every text is there and is as it must be, names by std's check.
fn has_texts(record: &record::Record, text: &[u8]) -> bool {
    record.texts().into_iter().all(|(kind, span)| {
        bytes_of(text, span).is_some_and(|bytes| match kind {
            Kind::Name => std::str::from_utf8(bytes).is_ok(),
            Kind::Expression => is_expression(bytes),
            Kind::Data => true,
        })
    })
}

/// Adds each record's frame behind the others': judged as an add judges it, and its item by wasm-encoder.
pub fn add(records: &[Record], store: &mut Vec<u8>) {
    store.clear();
    for r in records {
        let record = record::parse(&r.words).unwrap();
        assert!(r.text.len() <= 65536 && has_texts(&record, &r.text));
        let item = encode(&record, &r.text);
        assert!(item.len() <= 65536);
        store.push(record.section());
        store.extend((item.len() as u32).to_le_bytes());
        store.extend(item);
    }
}

/// The same frames without the refusals: wasm-encoder, item by item, with no check but what its types need.
pub fn frame(records: &[Record], store: &mut Vec<u8>) {
    store.clear();
    for r in records {
        let record = record::parse(&r.words).unwrap();
        let item = encode(&record, &r.text);
        store.push(record.section());
        store.extend((item.len() as u32).to_le_bytes());
        store.extend(item);
    }
}

/// wasm-encoder's section builders alone: nothing is judged but what the builders' types need, and no item stands by itself.
pub fn build(records: &[Record]) -> Sections {
    let mut sections = Sections::default();
    for r in records {
        sections.add(&record::parse(&r.words).unwrap(), &r.text);
    }
    sections
}
