// The ids of sections, by the standard.

/// A section's id: the first word of its records, a member of an order list, and what `read_item` is told. `SectionId::Data as u8` is the byte.
#[derive(Debug, Clone, Copy, PartialEq, Eq, Hash)]
#[non_exhaustive]
#[repr(u8)]
pub enum SectionId {
    Type = 1,
    Import = 2,
    Table = 4,
    Element = 9,
    Data = 11,
    /// Holds no items, but the data count that a finish is told.
    DataCount = 12,
}

impl From<SectionId> for u8 {
    fn from(id: SectionId) -> u8 {
        id as u8
    }
}
