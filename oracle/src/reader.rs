// Document 01, Reading: the record whose item begins some bytes, its spans pointing into them. What is found is written again by the crate and compared, so
// that only what an add writes is read: other forms that the standard allows are nothing here (answer 11).
use crate::item::judge;
use crate::text::{expression_end, number_end};

pub fn read(id: u8, bytes: &[u8], out: usize) -> Result<(Vec<u32>, usize), u8> {
    let bytes = &bytes[..bytes.len().min(65536)];
    let mut r = Reader { bytes, at: 0, words: vec![] };
    r.item(id).ok_or(11)?;
    let (words, taken) = (r.words, r.at);
    match judge(&words, bytes) {
        Ok((record, item)) if record.section() == id && item == bytes[..taken] => {}
        _ => return Err(11),
    }
    if words.len() > out {
        return Err(10);
    }
    Ok((words, taken))
}

struct Reader<'a> {
    bytes: &'a [u8],
    at: usize,
    words: Vec<u32>,
}

impl Reader<'_> {
    fn byte(&mut self) -> Option<u8> {
        let b = *self.bytes.get(self.at)?;
        self.at += 1;
        Some(b)
    }

    fn next_is(&mut self, b: u8) -> bool {
        let is = self.bytes.get(self.at) == Some(&b);
        self.at += usize::from(is);
        is
    }

    fn push(&mut self, w: u32) {
        self.words.push(w);
    }

    fn number(&mut self, bits: u32, signed: bool) -> Option<u64> {
        let end = number_end(self.bytes, self.at, bits, signed)?;
        let groups = &self.bytes[self.at..end];
        self.at = end;
        let mut v = 0u64;
        for (i, b) in groups.iter().enumerate() {
            v |= u64::from(b & 0x7F) << (7 * i);
        }
        let used = 7 * groups.len();
        if signed && used < 64 && groups[groups.len() - 1] & 0x40 != 0 {
            v |= !0 << used;
        }
        Some(v)
    }

    fn u32(&mut self) -> Option<u32> {
        Some(self.number(32, false)? as u32)
    }

    fn index(&mut self) -> Option<()> {
        let i = self.u32()?;
        self.push(i);
        Some(())
    }

    fn signed_index(&mut self) -> Option<u32> {
        u32::try_from(self.number(64, true)?).ok()
    }

    // A text of so many bytes, as a span.
    fn span(&mut self, len: usize) -> Option<()> {
        if self.bytes.len() - self.at < len {
            return None;
        }
        self.push(self.at as u32);
        self.push(len as u32);
        self.at += len;
        Some(())
    }

    fn sized(&mut self) -> Option<()> {
        let len = self.u32()? as usize;
        self.span(len)
    }

    fn expression(&mut self) -> Option<()> {
        let len = expression_end(&self.bytes[self.at..])?;
        self.span(len)
    }

    fn no_span(&mut self) {
        self.push(0);
        self.push(0);
    }

    // A count, and so many members; the count's word is put in front of them.
    fn list(&mut self, member: fn(&mut Self) -> Option<()>) -> Option<()> {
        let count = self.u32()?;
        self.push(count);
        for _ in 0..count {
            member(self)?;
            if self.words.len() > 5000 {
                return None;
            }
        }
        Some(())
    }

    fn reference(&mut self) -> Option<()> {
        const CODES: [u8; 14] = [0x70, 0x6F, 0x6E, 0x71, 0x72, 0x73, 0x6D, 0x6B, 0x6A, 0x6C, 0x69, 0x74, 0x68, 0x75];
        let nullable = match self.bytes.get(self.at)? {
            0x63 => Some(true),
            0x64 => Some(false),
            _ => None,
        };
        self.at += usize::from(nullable.is_some());
        let shared = self.next_is(0x65);
        let (kind, x) = match *self.bytes.get(self.at)? {
            0x62 if !shared => {
                self.at += 1;
                (15, self.u32()?)
            }
            b if CODES.contains(&b) => {
                self.at += 1;
                (CODES.iter().position(|c| *c == b)? as u32, 0)
            }
            _ if !shared && nullable.is_some() => (14, self.signed_index()?),
            _ => return None,
        };
        self.push(kind | u32::from(nullable.unwrap_or(true)) << 4 | u32::from(shared) << 5);
        self.push(x);
        Some(())
    }

    fn storage(&mut self) -> Option<()> {
        let k = match *self.bytes.get(self.at)? {
            b @ 0x7B..=0x7F => u32::from(0x7F - b),
            0x78 => 6,
            0x77 => 7,
            _ => {
                self.push(5);
                return self.reference();
            }
        };
        self.at += 1;
        self.push(k);
        self.no_span();
        Some(())
    }

    fn flag(&mut self) -> Option<()> {
        let b = self.byte()?;
        self.push(b.into());
        Some(())
    }

    fn field(&mut self) -> Option<()> {
        self.storage()?;
        self.flag()
    }

    fn marked_index(&mut self, mark: u8) -> Option<()> {
        if self.next_is(mark) {
            self.push(1);
            return self.index();
        }
        self.no_span();
        Some(())
    }

    fn subtype(&mut self) -> Option<()> {
        if self.next_is(0x4F) {
            self.push(1);
            self.list(Self::index)?;
        } else if self.next_is(0x50) {
            self.push(0);
            self.list(Self::index)?;
        } else {
            self.push(1);
            self.push(0);
        }
        let shared = self.next_is(0x65);
        self.push(shared.into());
        self.marked_index(0x4C)?;
        self.marked_index(0x4D)?;
        match self.byte()? {
            0x60 => {
                self.push(0);
                self.list(Self::storage)?;
                self.list(Self::storage)
            }
            0x5E => {
                self.push(1);
                self.field()
            }
            0x5F => {
                self.push(2);
                self.list(Self::field)
            }
            0x5D => {
                self.push(3);
                let i = self.signed_index()?;
                self.push(i);
                Some(())
            }
            _ => None,
        }
    }

    fn limits(&mut self) -> Option<()> {
        let flags = self.byte()?;
        self.push(flags.into());
        let minimum = self.number(64, false)?;
        let maximum = if flags & 1 == 1 { self.number(64, false)? } else { 0 };
        for v in [minimum, maximum] {
            self.push(v as u32);
            self.push((v >> 32) as u32);
        }
        Some(())
    }

    fn entity(&mut self) -> Option<()> {
        let sort = self.byte()?;
        self.push(sort.into());
        match sort {
            0x00 | 0x20 => self.index(),
            0x01 => {
                self.reference()?;
                self.limits()
            }
            0x02 => self.limits(),
            0x03 => self.field(),
            0x04 => {
                self.next_is(0x00).then_some(())?;
                self.index()
            }
            _ => None,
        }
    }

    fn import(&mut self) -> Option<()> {
        let head = self.words.len();
        self.push(0);
        self.sized()?;
        let name = self.at;
        match self.bytes.get(name..name + 2) {
            Some([0x00, 0x7F]) => {
                self.at += 2;
                self.words[head] = 1;
                self.list(|r| {
                    r.sized()?;
                    r.entity()
                })
            }
            Some([0x00, 0x7E]) => {
                self.at += 2;
                self.words[head] = 2;
                self.entity()?;
                self.list(Self::sized)
            }
            _ => {
                self.sized()?;
                self.entity()
            }
        }
    }

    fn table(&mut self) -> Option<()> {
        let init = self.next_is(0x40);
        if init {
            self.next_is(0x00).then_some(())?;
        }
        self.push(init.into());
        self.reference()?;
        self.limits()?;
        if init {
            self.expression()
        } else {
            self.no_span();
            Some(())
        }
    }

    fn element(&mut self) -> Option<()> {
        let flags = self.u32()?;
        if flags > 7 {
            return None;
        }
        let (active, given, expressions) = (flags & 1 == 0, flags & 2 != 0, flags & 4 != 0);
        self.push(if active { 2 } else { u32::from(given) });
        if active && given {
            self.push(1);
            self.index()?;
        } else {
            self.no_span();
        }
        if active {
            self.expression()?;
        } else {
            self.no_span();
        }
        self.push(expressions.into());
        let typed = flags & 3 != 0;
        if expressions {
            if typed {
                self.reference()?;
            } else {
                self.push(0x10);
                self.push(0);
            }
            self.list(Self::expression)
        } else {
            if typed {
                self.next_is(0x00).then_some(())?;
            }
            self.no_span();
            self.list(Self::index)
        }
    }

    fn data(&mut self) -> Option<()> {
        let flag = self.u32()?;
        match flag {
            1 => {
                self.push(0);
                self.push(0);
                self.no_span();
            }
            0 | 2 => {
                self.push(1);
                if flag == 2 {
                    self.index()?;
                } else {
                    self.push(0);
                }
                self.expression()?;
            }
            _ => return None,
        }
        self.sized()
    }

    fn item(&mut self, id: u8) -> Option<()> {
        self.push(id.into());
        match id {
            1 => {
                let group = self.next_is(0x4E);
                self.push(group.into());
                if group {
                    self.list(Self::subtype)
                } else {
                    self.push(1);
                    self.subtype()
                }
            }
            2 => self.import(),
            4 => self.table(),
            9 => self.element(),
            11 => self.data(),
            _ => None,
        }
    }
}

#[cfg(test)]
mod tests {
    use super::*;

    #[test]
    fn other_peoples_forms_are_nothing() {
        let refused: [(u8, &[u8]); 6] = [
            (1, &[0x4F, 0x00, 0x60, 0x00, 0x00]),
            (1, &[0x60, 0x81, 0x00, 0x7F, 0x00]),
            (1, &[0x60, 0x01, 0x63, 0x70, 0x00]),
            (11, &[0x02, 0x00, 0x0B, 0x00]),
            (11, &[0x80, 0x00, 0x0B, 0x00]),
            (3, &[0x00]),
        ];
        for (id, bytes) in refused {
            assert_eq!(read(id, bytes, 4096), Err(11), "{id} {bytes:02X?}");
        }
    }

    #[test]
    fn table_zero_comes_back_given() {
        let bytes = [0x06, 0x00, 0x41, 0x2A, 0x0B, 0x6F, 0x00, 0xFF];
        let words = vec![9, 2, 1, 0, 2, 3, 1, 0x11, 0, 0];
        assert_eq!(read(9, &bytes, 10), Ok((words, 7)));
        assert_eq!(read(9, &bytes, 9), Err(10));
    }
}
