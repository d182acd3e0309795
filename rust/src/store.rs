// A store that owns its bytes.
use crate::limits::{MAX_NUMBER_32, MAX_ORDER};
use crate::records::Record;
use crate::{add, finish, Refusal};
use alloc::vec;
use alloc::vec::Vec;

/// Records are added to a store, and it is finished to a module.
#[derive(Debug, Clone, PartialEq, Eq)]
pub struct Store {
    bytes: Vec<u8>,
    used: usize,
}

impl Store {
    /// A fresh store of so many bytes. One over [`MAX_STORE`](crate::limits::MAX_STORE) refuses everything, with 1.
    pub fn new(length: usize) -> Store {
        Store { bytes: vec![0; length], used: 0 }
    }

    /// The room used, and the frames in it.
    pub fn used(&self) -> &[u8] {
        &self.bytes[..self.used]
    }

    /// Adds a record. Refusals: 2 to 7, and 1 of a store over its limit.
    pub fn add(&mut self, words: &[u32], text: &[u8]) -> Result<(), Refusal> {
        add(&mut self.used, &mut self.bytes, words, text)
    }

    /// Adds a record that a builder made. Refusals: as of [`Store::add`].
    pub fn add_record(&mut self, record: &Record) -> Result<(), Refusal> {
        self.add(record.words(), record.text())
    }

    /// Writes the module to the front of `out` and answers its length. Refusals: 8, 10, and 1 of a store over its limit.
    pub fn finish(&self, order: &[u8], count: u32, out: &mut [u8]) -> Result<usize, Refusal> {
        finish(self.used, &self.bytes, order, count, out)
    }

    /// The module, in memory that is always long enough. Refusals: 8, and 1 of a store over its limit.
    pub fn finish_to_vec(&self, order: &[u8], count: u32) -> Result<Vec<u8>, Refusal> {
        let mut out = vec![0; self.room_for(order)];
        let length = self.finish(order, count, &mut out)?;
        out.truncate(length);
        Ok(out)
    }

    // No module by this order list is longer: ids that are all different write no more than the room used, so the id named most often says how often that is
    // written. What is over the limit of order lists is refused, and gets no memory.
    fn room_for(&self, order: &[u8]) -> usize {
        const HEADER: usize = 8;
        const ID_SIZE_COUNT: usize = 1 + 2 * MAX_NUMBER_32;
        let order = &order[..order.len().min(MAX_ORDER)];
        let copies = order.iter().map(|id| order.iter().filter(|other| *other == id).count()).max().unwrap_or(0);
        HEADER + order.len() * ID_SIZE_COUNT + copies * self.used
    }
}
