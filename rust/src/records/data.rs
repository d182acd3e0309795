//! The data section.
use super::{ConstExpr, Put, Record, Span, NO_INDEX, NO_SPAN};
use crate::SectionId;

/// Where the data goes.
#[derive(Debug, Clone, Copy, PartialEq, Eq)]
pub enum DataSegmentMode<'a> {
    Active { memory_index: u32, offset: &'a ConstExpr },
    Passive,
}

#[derive(Debug, Clone, Copy, PartialEq, Eq)]
pub struct DataSegment<'a> {
    pub mode: DataSegmentMode<'a>,
    pub data: &'a [u8],
}

pub fn segment(segment: DataSegment) -> Record {
    Record::new(SectionId::Data).with(&segment.mode).with(&Span(segment.data))
}

pub fn active(memory_index: u32, offset: &ConstExpr, data: &[u8]) -> Record {
    segment(DataSegment { mode: DataSegmentMode::Active { memory_index, offset }, data })
}

pub fn passive(data: &[u8]) -> Record {
    segment(DataSegment { mode: DataSegmentMode::Passive, data })
}

impl Put for DataSegmentMode<'_> {
    fn put(&self, record: &mut Record) {
        match self {
            DataSegmentMode::Passive => {
                record.push(&[0]);
                record.push(NO_INDEX);
                record.push(NO_SPAN);
            }
            DataSegmentMode::Active { memory_index, offset } => {
                record.push(&[1]);
                memory_index.put(record);
                offset.put(record);
            }
        }
    }
}
