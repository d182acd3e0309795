// Input files, made from a seed: every kind of record, good and damaged in every way that the table of answers names, and the boundaries. The same seed
// gives the same file.
use crate::entries::shown;
use crate::item::{encode, judge};
use crate::lines::hex;
use crate::record;

pub fn file(kind: &str, seed: u64) -> Vec<u8> {
    let mut m = Make { state: seed.wrapping_mul(0x9E37_79B9_7F4A_7C15) | 1, words: vec![], text: vec![] };
    for _ in 0..8 {
        m.random();
    }
    match (kind, seed) {
        ("lines", 0) => short_lines(),
        ("lines", 1) => m.boundary_lines(),
        ("lines", _) => m.lines(),
        ("list", _) => m.list_of_lines(),
        ("entries", _) => m.entries(seed),
        ("reads", _) => m.reads(),
        ("short", _) => short_reads(seed as u8),
        ("modules", _) => m.modules(),
        _ => panic!("make lines, list, entries, reads, short or modules"),
    }
}

// A line of a frame, with the byte that makes the sum wrap to 00.
fn line(frame: &[u8]) -> String {
    let sum = frame.iter().fold(0u8, |s, b| s.wrapping_add(*b));
    format!("{}{:02X}", hex(frame), 0u8.wrapping_sub(sum))
}

fn add_frame(words: &[u32], text: &[u8]) -> Vec<u8> {
    let mut frame = vec![1];
    frame.extend((words.len() as u16).to_le_bytes());
    words.iter().for_each(|w| frame.extend(w.to_le_bytes()));
    frame.extend(text);
    frame
}

fn finish_frame(count: u32, order: &[u8]) -> Vec<u8> {
    let mut frame = vec![2];
    frame.extend(count.to_le_bytes());
    frame.extend(order);
    frame
}

fn passive(len: usize) -> Vec<u32> {
    vec![11, 0, 0, 0, 0, 0, len as u32]
}

// All short inputs: every line of one character, of one byte, of two bytes with a right sum, and every frame of a kind and one byte more.
fn short_lines() -> Vec<u8> {
    let mut out = vec![];
    for c in (0..=255u8).filter(|c| *c != b'\n') {
        out.extend([c, b'\n']);
        out.extend([b'0', c, b'\n']);
        out.extend(format!("{c:02X}\n").bytes());
        out.extend((line(&[c]) + "\n").bytes());
        for kind in [1, 2, 3] {
            out.extend((line(&[kind, c]) + "\n").bytes());
            out.extend((line(&[kind, c, 0]) + "\n").bytes());
            out.extend((line(&[kind, 0, 0, 0, 0, c]) + "\n").bytes());
        }
    }
    out.extend(b"\n\n");
    out
}

// All short reads that begin with a byte: alone, with any one more, and with any two more of those that mean something in an item.
fn short_reads(first: u8) -> Vec<u8> {
    let some: Vec<u8> = (0..=0x0B).chain([0x10, 0x20, 0x23, 0x3F]).chain(0x40..=0x44).chain(0x4C..=0x50).chain(0x5D..=0x7F).chain([0x80, 0xC0, 0xD0, 0xD2, 0xFF]).collect();
    let mut out = String::new();
    for id in [1, 2, 4, 9, 11] {
        out += &format!("read {id} 4096 {first:02X}\n");
        for second in 0..=255u8 {
            out += &format!("read {id} 4096 {first:02X}{second:02X}\n");
        }
        for second in &some {
            for third in &some {
                out += &format!("read {id} 4096 {first:02X}{second:02X}{third:02X}\n");
            }
        }
    }
    out.into_bytes()
}

const EDGES: [u32; 16] =
    [0, 1, 2, 63, 64, 127, 128, 8191, 8192, 16383, 16384, 65535, 65536, 0x7FFF_FFFF, 0x8000_0000, 0xFFFF_FFFF];

struct Make {
    state: u64,
    words: Vec<u32>,
    text: Vec<u8>,
}

impl Make {
    fn random(&mut self) -> u64 {
        self.state ^= self.state << 13;
        self.state ^= self.state >> 7;
        self.state ^= self.state << 17;
        self.state.wrapping_mul(0x2545_F491_4F6C_DD1D) >> 11
    }

    fn below(&mut self, n: u64) -> u64 {
        self.random() % n
    }

    fn one_in(&mut self, n: u64) -> bool {
        self.below(n) == 0
    }

    fn edge(&mut self) -> u32 {
        if self.one_in(4) { self.random() as u32 } else { EDGES[self.below(16) as usize] }
    }

    fn push(&mut self, w: u32) {
        self.words.push(w);
    }

    fn flag(&mut self) -> bool {
        let f = self.one_in(2);
        self.push(f.into());
        f
    }

    fn index(&mut self) {
        let i = self.edge();
        self.push(i);
    }

    fn optional(&mut self) {
        if self.flag() { self.index() } else { self.push(0) }
    }

    fn list(&mut self, member: fn(&mut Self)) {
        let count = if self.one_in(40) { self.below(60) } else { self.below(4) };
        self.push(count as u32);
        for _ in 0..count {
            member(self);
        }
    }

    // ---- types

    fn reference(&mut self) {
        let kind = self.below(16) as u32;
        let nullable = self.below(2) as u32;
        let shared = if kind < 14 { self.below(2) as u32 } else { 0 };
        self.push(kind | nullable << 4 | shared << 5);
        let x = if kind < 14 { 0 } else { self.edge() };
        self.push(x);
    }

    fn type_of(&mut self, kinds: u64) {
        let k = self.below(kinds) as u32;
        self.push(k);
        if k == 5 {
            self.reference();
        } else {
            self.push(0);
            self.push(0);
        }
    }

    fn value(&mut self) {
        self.type_of(6);
    }

    fn field(&mut self) {
        self.type_of(8);
        self.flag();
    }

    fn subtype(&mut self) {
        self.flag();
        self.list(Self::index);
        self.flag();
        self.optional();
        self.optional();
        let kind = self.below(4) as u32;
        self.push(kind);
        match kind {
            0 => {
                self.list(Self::value);
                self.list(Self::value);
            }
            1 => self.field(),
            2 => self.list(Self::field),
            _ => self.index(),
        }
    }

    fn limits(&mut self) {
        let flags = self.below(8) as u32;
        self.push(flags);
        for part in 0..2 {
            let there = part == 0 || flags & 1 == 1;
            for _ in 0..2 {
                let w = if there { self.edge() } else { 0 };
                self.push(w);
            }
        }
    }

    fn entity(&mut self) {
        let sort = [0, 32, 1, 2, 3, 4][self.below(6) as usize];
        self.push(sort);
        match sort {
            1 => {
                self.reference();
                self.limits();
            }
            2 => self.limits(),
            3 => {
                self.value();
                self.flag();
            }
            _ => self.index(),
        }
    }

    // ---- texts

    // A text at the end of those before it; sometimes one that stands there already, so that spans overlap.
    fn span(&mut self, bytes: Vec<u8>) {
        let found = self.text.windows(bytes.len().max(1)).position(|w| w == bytes);
        let start = match found {
            Some(at) if self.one_in(2) => at,
            _ => {
                self.text.extend(&bytes);
                self.text.len() - bytes.len()
            }
        };
        self.push(start as u32);
        self.push(bytes.len() as u32);
    }

    fn name(&mut self) {
        let mut name = String::new();
        let count = if self.one_in(30) { 120 } else { self.below(6) };
        for _ in 0..count {
            let top = [0x80, 0x80, 0x800, 0xD800, 0x11_0000][self.below(5) as usize];
            let edges = [0, 0x7F, 0x80, 0x7FF, 0x800, 0xD7FF, 0xE000, 0xFFFF, 0x1_0000, 0x10_FFFF];
            let c = if self.one_in(3) { edges[self.below(10) as usize] } else { self.below(top) as u32 };
            name.extend(char::from_u32(c));
        }
        self.span(name.into_bytes());
    }

    // A number of the standard, sometimes padded.
    fn number(&mut self, bits: u32, signed: bool) -> Vec<u8> {
        let v = self.random() << 11 | self.random();
        let v = (v as i64) >> self.below(64);
        let mut v = match (signed, bits) {
            (true, 32) => i128::from(v as i32),
            (true, _) => i128::from(v),
            (false, 32) => i128::from(v as u32),
            (false, _) => i128::from(v as u64),
        };
        let most = bits.div_ceil(7) as usize;
        let padded = if self.one_in(4) { most } else { 0 };
        let mut out = vec![];
        loop {
            let b = (v & 0x7F) as u8;
            v >>= 7;
            let done = if signed { (v == 0 && b & 0x40 == 0) || (v == -1 && b & 0x40 != 0) } else { v == 0 };
            if done && out.len() + 1 >= padded {
                out.push(b);
                return out;
            }
            out.push(b | 0x80);
        }
    }

    fn instructions(&mut self) -> Vec<u8> {
        let mut all = vec![];
        for _ in 0..self.below(4) {
            let op = [0x41, 0x42, 0x43, 0x44, 0x23, 0xD0, 0xD2, 0x6A, 0x6B, 0x6C, 0x7C, 0x7D, 0x7E][self.below(13) as usize];
            all.push(op);
            match op {
                0x41 => all.extend(self.number(32, true)),
                0x42 => all.extend(self.number(64, true)),
                0x43 | 0x44 => (0..if op == 0x43 { 4 } else { 8 }).for_each(|_| all.push(self.random() as u8)),
                0x23 | 0xD2 => all.extend(self.number(32, false)),
                0xD0 => all.push(0x68 + self.below(14) as u8),
                _ => {}
            }
        }
        all.push(0x0B);
        all
    }

    fn expression(&mut self) {
        let e = self.instructions();
        self.span(e);
    }

    fn data(&mut self) {
        let len = if self.one_in(20) { self.below(1500) } else { self.below(12) };
        let d = (0..len).map(|_| self.random() as u8).collect();
        self.span(d);
    }

    // ---- records

    fn record(&mut self) {
        self.words.clear();
        self.text.clear();
        match self.below(5) {
            0 => {
                self.push(1);
                let group = self.one_in(3);
                self.push(group.into());
                if group {
                    self.list(Self::subtype);
                } else {
                    self.push(1);
                    self.subtype();
                }
            }
            1 => {
                self.push(2);
                let form = self.below(3) as u32;
                self.push(form);
                self.name();
                match form {
                    0 => {
                        self.name();
                        self.entity();
                    }
                    1 => self.list(|m| {
                        m.name();
                        m.entity();
                    }),
                    _ => {
                        self.entity();
                        self.list(Self::name);
                    }
                }
            }
            2 => {
                self.push(4);
                let init = self.flag();
                self.reference();
                self.limits();
                if init {
                    self.expression();
                } else {
                    self.push(0);
                    self.push(0);
                }
            }
            3 => {
                self.push(9);
                let mode = self.below(3) as u32;
                self.push(mode);
                if mode == 2 {
                    self.optional();
                    self.expression();
                } else {
                    (0..4).for_each(|_| self.push(0));
                }
                if self.flag() {
                    if self.one_in(2) {
                        self.push(0x10);
                        self.push(0);
                    } else {
                        self.reference();
                    }
                    self.list(Self::expression);
                } else {
                    self.push(0);
                    self.push(0);
                    self.list(Self::index);
                }
            }
            _ => {
                self.push(11);
                if self.flag() {
                    let memory = if self.one_in(2) { 0 } else { self.edge() };
                    self.push(memory);
                    self.expression();
                } else {
                    (0..3).for_each(|_| self.push(0));
                }
                self.data();
            }
        }
    }

    // One thing wrong with a record, or perhaps nothing.
    fn damage(&mut self) {
        let at = self.below(self.words.len() as u64) as usize;
        match self.below(9) {
            0 => self.words[at] = self.edge(),
            1 => self.words[at] = self.words[at].wrapping_add(1),
            2 => self.words.truncate(at),
            3 => self.push(0),
            4 => self.words[at] ^= 1 << self.below(32),
            5 => {
                let short = self.below(3) as usize;
                self.text.truncate(self.text.len().saturating_sub(short + 1));
            }
            6 if !self.text.is_empty() => {
                let i = self.below(self.text.len() as u64) as usize;
                self.text[i] = [0x80, 0xFF, 0xC0, 0xED, 0xF5, 0x0B, 0x00][self.below(7) as usize];
            }
            7 if !self.text.is_empty() => {
                let i = self.below(self.text.len() as u64) as usize;
                self.text.remove(i);
            }
            _ => self.words.insert(at, 0),
        }
    }

    fn good_or_bad(&mut self) {
        self.record();
        while self.one_in(2) && !self.words.is_empty() {
            self.damage();
        }
    }

    fn order(&mut self) -> Vec<u8> {
        let count = if self.one_in(12) { 30 + self.below(5) } else { self.below(8) };
        let bad = self.one_in(6);
        (0..count).map(|_| if bad && self.one_in(4) { self.random() as u8 } else { [1, 2, 4, 9, 11, 12][self.below(6) as usize] }).collect()
    }

    // ---- hex lines

    fn lines(&mut self) -> Vec<u8> {
        let mut out = String::new();
        for _ in 0..40 + self.below(120) {
            let next = match self.below(12) {
                0 => line(&finish_frame(self.edge(), &self.order())),
                1 => self.malformed(),
                2 if self.one_in(6) => line(&add_frame(&passive(3500), &[7; 3500])),
                3 if self.one_in(4) => self.too_large(),
                _ => {
                    self.good_or_bad();
                    line(&add_frame(&self.words, &self.text))
                }
            };
            out += &next;
            out += "\n";
        }
        out += &line(&finish_frame(self.edge(), &[1, 2, 4, 9, 12, 11]));
        if self.one_in(2) {
            out += "\n";
        }
        out.into_bytes()
    }

    // A long file of short lines, so that the store takes long to fill: for the gate.
    fn list_of_lines(&mut self) -> Vec<u8> {
        let mut out = String::new();
        let mut count = 0;
        while count < 3000 {
            let next = match self.below(20) {
                0 => line(&finish_frame(self.edge(), &self.order().into_iter().take(3).collect::<Vec<_>>())),
                1 => self.malformed(),
                2 if self.one_in(20) => self.too_large(),
                _ => {
                    self.good_or_bad();
                    line(&add_frame(&self.words, &self.text))
                }
            };
            if next.len() < 300 || self.one_in(100) {
                count += 1;
                out += &next;
                out += "\n";
            }
        }
        out.into_bytes()
    }

    // Answer 6 within one line: overlapping names.
    fn too_large(&mut self) -> String {
        let names = 20 + self.below(4) as u32;
        let mut words = vec![2, 2, 0, 0, 0, 5, names];
        (0..names).for_each(|_| words.extend([0, 3270 + self.below(10) as u32]));
        line(&add_frame(&words, &[b'n'; 3279]))
    }

    fn malformed(&mut self) -> String {
        self.record();
        let good = line(&add_frame(&self.words, &self.text));
        match self.below(10) {
            0 => good.to_lowercase(),
            1 => good[1..].into(),
            2 => String::new(),
            3 => good + "\r",
            4 => " ".to_string() + &good,
            5 => line(&[3, 0, 0, 0, 0, 0]),
            6 => line(&add_frame(&self.words, &self.text)[..2]),
            7 => {
                let short = self.words.len() as u64 * 4;
                line(&add_frame(&self.words, &[])[..2 + self.below(short) as usize])
            }
            8 => format!("{}01", &good[..good.len() - 2]),
            _ => line(&vec![2; 4096]),
        }
    }

    // A store exactly full, and one byte less; a line exactly long enough, and one byte more; 32 ids, and 33; a module exactly as long as the output.
    fn boundary_lines(&mut self) -> Vec<u8> {
        let mut out = vec![];
        let data = |len: usize| line(&add_frame(&passive(len), &vec![0x2A; len]));
        // nine items of 3,507 bytes and more leave 1,205, of which an item of 1,197 bytes of data takes all
        for _ in 0..9 {
            out.push(data(3499));
        }
        out.push(data(1198));
        out.push(data(1197));
        out.push(data(0));
        out.push(line(&finish_frame(0, &[11])));
        out.push(line(&finish_frame(9, &[12; 32])));
        out.push(line(&finish_frame(9, &[12; 33])));
        out.push(line(&finish_frame(9, &[])));
        let longest = 4096 - 1 - 3 - 7 * 4;
        out.push(data(longest));
        out.push(data(longest + 1));
        // the data section makes 32,731 bytes; a count of 5 bytes takes 7 more, an empty section 3: the module is 32,768 bytes long, and 32,769
        for (counts, empty) in [(1, 10), (2, 8)] {
            out.push(line(&finish_frame(u32::MAX, &[vec![11], vec![12; counts], vec![9; empty]].concat())));
        }
        (out.join("\n") + "\n").into_bytes()
    }

    // ---- calls that hex lines cannot reach

    fn entries(&mut self, seed: u64) -> Vec<u8> {
        let mut out = String::new();
        if seed == 0 {
            self.number_edges(&mut out);
            self.limits_of_calls(&mut out);
        }
        for _ in 0..200 {
            let call = match self.below(8) {
                0 | 1 => self.read_call(),
                2 => {
                    let ty = ["u32", "u64", "i32", "i64"][self.below(4) as usize];
                    let mut b = self.number(if ty.ends_with("32") { 32 } else { 64 }, ty.starts_with('i'));
                    if self.one_in(4) {
                        b.pop();
                    }
                    if self.one_in(3) {
                        b.push(self.random() as u8);
                    }
                    format!("number {ty} {}", shown(&b))
                }
                3 => {
                    let mut e = self.instructions();
                    if self.one_in(2) {
                        let at = self.below(e.len() as u64) as usize;
                        e[at] = self.random() as u8;
                    }
                    if self.one_in(5) {
                        e.pop();
                    }
                    format!("check {}", shown(&e))
                }
                4 => format!("const i64 {} {}", self.random() as i64 >> self.below(50), self.below(13)),
                5 => self.add_call(),
                _ => self.finish_call(),
            };
            out += &call;
            out += "\n";
        }
        out.into_bytes()
    }

    fn number_edges(&mut self, out: &mut String) {
        for bit in 0..64 {
            for around in [-2i128, -1, 0, 1] {
                for v in [(1i128 << bit) + around, -(1i128 << bit) + around] {
                    for (ty, low, high) in [
                        ("u32", 0, u32::MAX.into()),
                        ("u64", 0, u64::MAX.into()),
                        ("i32", i32::MIN.into(), i32::MAX.into()),
                        ("i64", i64::MIN.into(), i128::from(i64::MAX)),
                    ] {
                        if (low..=high).contains(&v) {
                            *out += &format!("write {ty} {v} {}\n", [0, 1, 2, 4, 5, 9, 10, 12][self.below(8) as usize]);
                            *out += &format!("write {ty} {v} 10\n");
                        }
                    }
                }
            }
        }
        for a in 0..=255u8 {
            for ty in ["u32", "u64", "i32", "i64"] {
                *out += &format!("number {ty} {a:02X}\nnumber {ty} 80{a:02X}\nnumber {ty} FFFFFFFF{a:02X}\nnumber {ty} 80808080{a:02X}\n");
                *out += &format!("number {ty} FFFFFFFFFFFFFFFFFF{a:02X}\nnumber {ty} 808080808080808080{a:02X}\n");
            }
            *out += &format!("check {a:02X}\ncheck {a:02X}0B\ncheck D0{a:02X}0B\ncheck 41FFFFFFFF{a:02X}0B\n");
        }
    }

    // 4,096 words, 65,536 bytes, the largest store; each and one more.
    fn limits_of_calls(&mut self, out: &mut String) {
        let add = |used: usize, length: usize, words: &[u32], text: &[u8]| {
            let w: Vec<u8> = words.iter().flat_map(|w| w.to_be_bytes()).collect();
            format!("add {used} {length} - {} {}\n", shown(&w), shown(text))
        };
        let full = 1 << 24;
        for (used, length) in [(0, full), (0, full + 1), (full - 8, full), (full - 7, full), (full, full), (full + 1, full), (1, 0)] {
            *out += &add(used, length, &passive(1), b"A");
        }
        for len in [65532, 65533, 65534, 65535, 65536, 65537] {
            *out += &add(0, full, &passive(len), &vec![1; len]);
        }
        for count in [4085u32, 4086, 4087] {
            let mut words = vec![9, 0, 0, 0, 0, 0, 0, 0, 0, count];
            words.extend((0..count).map(|i| i % 300));
            *out += &add(0, full, &words, b"");
            let mut item = vec![0x01, 0x00];
            item.extend([count as u8 & 0x7F | 0x80, (count >> 7) as u8]);
            item.extend((0..count).map(|i| (i % 100) as u8));
            for room in [4094, 4095, 4096, 5000] {
                *out += &format!("read 9 {room} {}\n", hex(&item));
            }
        }
        *out += &format!("read 11 9 {}\n", hex(&[vec![0x01, 0xFC, 0xFF, 0x03], vec![5; 65532]].concat()));
        *out += &format!("read 11 9 {}\n", hex(&[vec![0x01, 0xFD, 0xFF, 0x03], vec![5; 65533]].concat()));
        for (used, store) in [(0, "-"), (5, "0100000000"), (4, "0100000000"), (6, "010000000000"), (5, "0C00000000"), (5, "0101000000"), (5, "FF00000000")] {
            *out += &format!("finish {used} 64 {store} 01 0 64\n");
        }
        *out += &format!("finish {} {full} 0B00000100{} 0B 0 {full}\n", 65541, "2A".repeat(65536));
        *out += &format!("finish {} {full} 0B01000100{} 0B 0 {full}\n", 65542, "2A".repeat(65537));
    }

    // Items, each cut off at every place, and damaged ones.
    fn reads(&mut self) -> Vec<u8> {
        let mut out = String::new();
        for _ in 0..40 {
            self.record();
            let Some(record) = record::parse(&self.words) else { unreachable!() };
            let item = encode(&record, &self.text);
            for end in 0..=item.len().min(80) {
                out += &format!("read {} 4096 {}\n", record.section(), shown(&item[..end]));
            }
            for _ in 0..8 {
                out += &self.read_call();
                out += "\n";
            }
        }
        out.into_bytes()
    }

    // A good item with something behind it, or a damaged one.
    fn read_call(&mut self) -> String {
        self.record();
        let Some(record) = record::parse(&self.words) else { unreachable!() };
        let mut item = encode(&record, &self.text);
        let id = if self.one_in(12) { self.below(16) as u8 } else { record.section() };
        while self.one_in(3) && !item.is_empty() {
            let at = self.below(item.len() as u64) as usize;
            match self.below(4) {
                0 => item[at] = self.random() as u8,
                1 => item[at] ^= 0x80,
                2 => item.truncate(at),
                _ => item.insert(at, 0x80),
            }
        }
        (0..self.below(3)).for_each(|_| item.push(self.random() as u8));
        let room = if self.one_in(3) { self.words.len() as u64 - self.below(2) } else { 4096 };
        format!("read {id} {room} {}", shown(&item))
    }

    fn add_call(&mut self) -> String {
        self.good_or_bad();
        let need = judge(&self.words, &self.text).map(|(_, item)| item.len() + 5).unwrap_or(9);
        let used = self.below(50) as usize;
        let length = (used + need + 2).saturating_sub(self.below(5) as usize);
        let w: Vec<u8> = self.words.iter().flat_map(|w| w.to_be_bytes()).collect();
        format!("add {used} {length} - {} {}", shown(&w), shown(&self.text))
    }

    fn finish_call(&mut self) -> String {
        let mut store = vec![];
        let mut sizes = 8;
        for _ in 0..self.below(6) {
            self.record();
            let Ok((record, item)) = judge(&self.words, &self.text) else { continue };
            store.push(record.section());
            store.extend((item.len() as u32).to_le_bytes());
            store.extend(&item);
            sizes += item.len();
        }
        if self.one_in(3) && !store.is_empty() {
            let at = self.below(store.len().min(6) as u64) as usize;
            store[at] = store[at].wrapping_add(1 + self.below(3) as u8);
        }
        let used = (store.len() + self.below(2) as usize).saturating_sub(self.below(2) as usize);
        let length = (used + self.below(3) as usize).saturating_sub(self.below(2) as usize);
        store.truncate(length);
        let order = self.order();
        let out = if self.one_in(3) { sizes + self.below(20) as usize } else { 1 << 20 };
        format!("finish {used} {length} {} {} {} {out}", shown(&store), shown(&order), self.edge())
    }

    // ---- modules of standard features, which other people's validators take: types, imports, tables, elements, data count, data

    fn modules(&mut self) -> Vec<u8> {
        let mut out = String::new();
        for _ in 0..50 {
            let mut sections = crate::item::Sections::default();
            let mut add = |words: &[u32], text: &[u8]| {
                let (record, _) = judge(words, text).expect("a record of standard features");
                sections.add(&record, text);
            };
            let plain = |m: &mut Self| [m.below(4) as u32, 0, 0];
            let types = 1 + self.below(4) as u32;
            for _ in 0..types {
                let mut words = vec![1, 0, 1, 1, 0, 0, 0, 0, 0, 0, 0];
                for _ in 0..2 {
                    let count = self.below(3);
                    words.push(count as u32);
                    (0..count).for_each(|_| words.extend(plain(self)));
                }
                add(&words, b"");
            }
            let functions = 1 + self.below(3) as u32;
            for _ in 0..functions {
                add(&[2, 0, 0, 1, 1, 1, 0, self.below(types.into()) as u32], b"mf");
            }
            let most = 1 + self.below(9) as u32;
            add(&[2, 0, 0, 1, 1, 2, 2, 1, 1, 0, most, 0], "m\u{e9}".as_bytes());
            add(&[2, 0, 0, 1, 0, 0, 3, 0, 0, 0, 0], b"g");
            let minimum = 8 + self.below(9) as u32;
            add(&[4, 0, 0x10, 0, 1, minimum, 0, minimum + 5, 0, 0, 0], b"");
            add(&[4, 0, 0x11, 0, 0, minimum, 0, 0, 0, 0, 0], b"");
            add(&[9, 2, 0, 0, 0, 3, 0, 0, 0, 2, 0, functions - 1], b"\x41\x01\x0B");
            add(&[9, 0, 0, 0, 0, 0, 1, 0x10, 0, 2, 0, 3, 3, 3], b"\xD2\x00\x0B\xD0\x70\x0B");
            add(&[9, 2, 1, 1, 0, 3, 1, 0x11, 0, 1, 3, 3], b"\x41\x00\x0B\xD0\x6F\x0B");
            add(&[9, 1, 0, 0, 0, 0, 0, 0, 0, 1, 0], b"");
            let data: Vec<u8> = (0..self.below(40)).map(|_| self.random() as u8).collect();
            add(&[11, 1, 0, 0, 3, 3, data.len() as u32], &[b"\x23\x00\x0B", &data[..]].concat());
            add(&[11, 0, 0, 0, 0, 0, data.len() as u32], &data);
            out += &(hex(&sections.module(&[1, 2, 4, 9, 12, 11], 2)) + "\n");
        }
        out.into_bytes()
    }
}

#[cfg(test)]
mod tests {
    use super::*;
    use crate::reader::read;

    // What an add writes is read back, whatever follows: the same record but for where its spans lie, and for table 0.
    #[test]
    fn read_after_add() {
        let mut m = Make { state: 77, words: vec![], text: vec![] };
        for _ in 0..20_000 {
            m.record();
            let (words, text) = (m.words.clone(), m.text.clone());
            let (record, item) = judge(&words, &text).unwrap();
            let mut bytes = item.clone();
            (0..m.below(3)).for_each(|_| bytes.push(m.random() as u8));
            let (back, taken) = read(record.section(), &bytes, 4096).unwrap_or_else(|n| panic!("{n}: {words:?} {item:02X?}"));
            assert_eq!(taken, item.len());
            let (found, again) = judge(&back, &bytes).unwrap();
            assert_eq!(again, item);
            let resolved = |r: &record::Record, t: &[u8]| -> Vec<Vec<u8>> { r.texts().iter().map(|(_, s)| crate::item::bytes_of(t, *s).unwrap().to_vec()).collect() };
            assert_eq!(resolved(&found, &bytes), resolved(&record, &text));
            let table_zero = words[0] == 9 && words[1..4] == [2, 0, 0] && words[6] == 1 && words[7..9] != [0x10, 0];
            let spans = words.len() != back.len() || words.iter().zip(&back).any(|(a, b)| a != b && !record.texts().iter().any(|(_, s)| s.start == *a));
            assert!(!spans || table_zero, "{words:?} {back:?}");
        }
    }

    // No item of a section begins another.
    #[test]
    fn no_item_begins_another() {
        let mut m = Make { state: 5, words: vec![], text: vec![] };
        let mut items = vec![];
        for _ in 0..4_000 {
            m.record();
            let (record, item) = judge(&m.words, &m.text).unwrap();
            items.push((record.section(), item));
        }
        items.sort();
        items.dedup();
        for pair in items.windows(2) {
            assert!(pair[0].0 != pair[1].0 || !pair[1].1.starts_with(&pair[0].1), "{pair:02X?}");
        }
    }
}
