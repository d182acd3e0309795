//! Records by typed values, so that nobody counts words by hand: a module of builders for each section, with wasm-encoder's names of the values and of its
//! sections' methods.
//!
//! The builders are plain Rust and not proved. What they make is a record like any other, and the proved [`Store::add`](crate::Store::add) judges it: one that
//! is too long, or has an expression or an item that document 01 does not allow, is refused there.
//!
//! ```
//! use thriftbell::records::{elements, imports, tables, ConstExpr, Elements, RefType, TableType};
//! use thriftbell::{Refusal, Store};
//!
//! let handlers = TableType { element_type: RefType::FUNCREF, table64: false, minimum: 2, maximum: None, shared: false };
//! let mut store = Store::new(1024);
//! store.add_record(&imports::import("site", "handlers", handlers))?;
//! store.add_record(&tables::table_with_init(handlers, &ConstExpr::ref_func(0)))?;
//! store.add_record(&elements::active(Some(1), &ConstExpr::i32_const(0), Elements::Functions(&[3, 4])))?;
//! # Ok::<(), Refusal>(())
//! ```
pub mod data;
pub mod elements;
mod expr;
pub mod imports;
pub mod tables;
pub mod types;
mod valtypes;

pub use data::{DataSegment, DataSegmentMode};
pub use elements::{ElementMode, ElementSegment, Elements};
pub use expr::ConstExpr;
pub use imports::{EntityType, GlobalType, Import, ImportCompact, Imports, MemoryType, TagType};
pub use tables::TableType;
pub use types::{ArrayType, CompositeInnerType, CompositeType, ContType, FuncType, StructType, SubType};
pub use valtypes::{AbstractHeapType, FieldType, HeapType, RefType, StorageType, ValType};

use crate::SectionId;
use alloc::vec;
use alloc::vec::Vec;

/// A record: its words, and its text.
#[derive(Debug, Clone, PartialEq, Eq)]
pub struct Record {
    words: Vec<u32>,
    text: Vec<u8>,
}

impl Record {
    pub fn words(&self) -> &[u32] {
        &self.words
    }

    pub fn text(&self) -> &[u8] {
        &self.text
    }

    fn new(section: SectionId) -> Record {
        Record { words: vec![section as u32], text: vec![] }
    }

    fn with(mut self, part: &(impl Put + ?Sized)) -> Record {
        part.put(&mut self);
        self
    }

    fn push(&mut self, words: &[u32]) {
        self.words.extend(words);
    }
}

/// What a record is made of: it puts its words behind those before it, and its text behind the text.
trait Put {
    fn put(&self, record: &mut Record);
}

/// Words of a part that is not there.
const NO_INDEX: &[u32] = &[0];
const NO_SPAN: &[u32] = &[0, 0];
const NO_REFERENCE: &[u32] = &[0, 0];

/// A length as a word. One that no word holds is of a record over its limits, which is refused whatever the word says.
fn length(n: usize) -> u32 {
    u32::try_from(n).unwrap_or(u32::MAX)
}

impl Put for u32 {
    fn put(&self, record: &mut Record) {
        record.push(&[*self]);
    }
}

impl Put for bool {
    fn put(&self, record: &mut Record) {
        record.push(&[u32::from(*self)]);
    }
}

// Low word, high word.
impl Put for u64 {
    fn put(&self, record: &mut Record) {
        record.push(&[*self as u32, (*self >> u32::BITS) as u32]);
    }
}

// A flag, and the index where it is set.
impl Put for Option<u32> {
    fn put(&self, record: &mut Record) {
        self.is_some().put(record);
        self.unwrap_or_default().put(record);
    }
}

impl<T: Put> Put for &T {
    fn put(&self, record: &mut Record) {
        T::put(self, record);
    }
}

// A list.
impl<T: Put> Put for [T] {
    fn put(&self, record: &mut Record) {
        length(self.len()).put(record);
        self.iter().for_each(|member| member.put(record));
    }
}

/// Bytes that stand in the text.
struct Span<'a>(&'a [u8]);

impl Put for Span<'_> {
    fn put(&self, record: &mut Record) {
        record.push(&[length(record.text.len()), length(self.0.len())]);
        record.text.extend(self.0);
    }
}

// A name.
impl Put for &str {
    fn put(&self, record: &mut Record) {
        Span(self.as_bytes()).put(record);
    }
}
