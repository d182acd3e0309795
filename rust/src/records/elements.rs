//! The element section.
use super::{ConstExpr, Put, Record, RefType, NO_REFERENCE, NO_SPAN};
use crate::SectionId;

/// What a segment lists.
#[derive(Debug, Clone, Copy, PartialEq, Eq)]
pub enum Elements<'a> {
    Functions(&'a [u32]),
    Expressions(RefType, &'a [ConstExpr]),
}

/// Where the elements go. Active without a table is not the same bytes as active in table 0.
#[derive(Debug, Clone, Copy, PartialEq, Eq)]
pub enum ElementMode<'a> {
    Passive,
    Declared,
    Active { table: Option<u32>, offset: &'a ConstExpr },
}

#[derive(Debug, Clone, Copy, PartialEq, Eq)]
pub struct ElementSegment<'a> {
    pub mode: ElementMode<'a>,
    pub elements: Elements<'a>,
}

pub fn segment(segment: ElementSegment) -> Record {
    Record::new(SectionId::Element).with(&segment.mode).with(&segment.elements)
}

pub fn active(table: Option<u32>, offset: &ConstExpr, elements: Elements) -> Record {
    segment(ElementSegment { mode: ElementMode::Active { table, offset }, elements })
}

pub fn passive(elements: Elements) -> Record {
    segment(ElementSegment { mode: ElementMode::Passive, elements })
}

pub fn declared(elements: Elements) -> Record {
    segment(ElementSegment { mode: ElementMode::Declared, elements })
}

impl Put for ElementMode<'_> {
    fn put(&self, record: &mut Record) {
        let (mode, place) = match self {
            ElementMode::Passive => (0, None),
            ElementMode::Declared => (1, None),
            ElementMode::Active { table, offset } => (2, Some((table, offset))),
        };
        record.push(&[mode]);
        match place {
            Some((table, offset)) => {
                table.put(record);
                offset.put(record);
            }
            None => {
                None::<u32>.put(record);
                record.push(NO_SPAN);
            }
        }
    }
}

impl Put for Elements<'_> {
    fn put(&self, record: &mut Record) {
        match self {
            Elements::Functions(indices) => {
                record.push(&[0]);
                record.push(NO_REFERENCE);
                indices.put(record);
            }
            Elements::Expressions(ty, expressions) => {
                record.push(&[1]);
                ty.put(record);
                expressions.put(record);
            }
        }
    }
}
