//! The table section; and limits, which memories have too.
use super::{ConstExpr, Put, Record, RefType, NO_SPAN};
use crate::SectionId;

/// A table's type.
#[derive(Debug, Clone, Copy, PartialEq, Eq, Hash)]
pub struct TableType {
    pub element_type: RefType,
    pub table64: bool,
    pub minimum: u64,
    pub maximum: Option<u64>,
    pub shared: bool,
}

/// A table without an initial value.
pub fn table(table_type: TableType) -> Record {
    let mut record = Record::new(SectionId::Table).with(&false).with(&table_type);
    record.push(NO_SPAN);
    record
}

/// A table with an initial value.
pub fn table_with_init(table_type: TableType, init: &ConstExpr) -> Record {
    Record::new(SectionId::Table).with(&true).with(&table_type).with(init)
}

impl Put for TableType {
    fn put(&self, record: &mut Record) {
        self.element_type.put(record);
        Limits { minimum: self.minimum, maximum: self.maximum, shared: self.shared, wide: self.table64 }.put(record);
    }
}

/// What tables and memories have alike.
pub(super) struct Limits {
    pub minimum: u64,
    pub maximum: Option<u64>,
    pub shared: bool,
    pub wide: bool,
}

impl Put for Limits {
    fn put(&self, record: &mut Record) {
        const MAXIMUM: u32 = 0;
        const SHARED: u32 = 1;
        const WIDE: u32 = 2;
        record.push(&[u32::from(self.maximum.is_some()) << MAXIMUM | u32::from(self.shared) << SHARED | u32::from(self.wide) << WIDE]);
        self.minimum.put(record);
        self.maximum.unwrap_or_default().put(record);
    }
}
