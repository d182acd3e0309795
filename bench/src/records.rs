// The records that are timed, by section and kind: flat words and a text, as document 01 has them.

pub struct Record {
    pub words: Vec<u32>,
    pub text: Vec<u8>,
}

impl Record {
    fn of(words: &[u32]) -> Record {
        Record { words: words.to_vec(), text: vec![] }
    }

    fn and(mut self, words: &[u32]) -> Record {
        self.words.extend(words);
        self
    }

    // A span, and its bytes behind the text so far.
    fn span(mut self, bytes: &[u8]) -> Record {
        self.words.extend([self.text.len() as u32, bytes.len() as u32]);
        self.text.extend(bytes);
        self
    }
}

/// A section's name, its id, and its kinds of records.
pub const SECTIONS: [(&str, u8, &[&str]); 5] = [
    ("types", 1, &["function of 2", "function of 8", "structure of 10", "structure of 100", "group of 4"]),
    ("imports", 2, &["function", "table", "memory", "global", "00 7F of 4", "00 7F of 64", "00 7E of 4", "00 7E of 64", "00 7E of 64 long names"]),
    ("tables", 4, &["bare", "with a value"]),
    ("elements", 9, &["8 functions", "100 functions", "8 expressions", "100 expressions"]),
    ("data", 11, &["passive 16", "passive 1024", "active 16", "active 1024"]),
];

// i32.const of three bytes.
fn constant(i: usize) -> [u8; 5] {
    [0x41, 0x80 | i as u8, 0x80 | (i >> 7) as u8, 0x3F & (i >> 14) as u8, 0x0B]
}

fn name(i: usize, length: usize) -> Vec<u8> {
    let whole = format!("{i:06}.pump.acquirer.limit.sequence.wrap.receipt.terminal.tank.site");
    whole.as_bytes()[..length].to_vec()
}

fn fields(count: usize, i: usize) -> Record {
    (0..count as u32).fold(Record::of(&[1, 0, 1, 1, 0, 0, 0, 0, 0, 0, 2, count as u32]), |r, j| match (i as u32 + j) % 9 {
        5 => r.and(&[5, 16, 0, j & 1]),
        8 => r.and(&[5, 30, i as u32 % 1000, 1]),
        k => r.and(&[k, 0, 0, j & 1]),
    })
}

fn values(params: u32, results: u32, i: usize) -> Record {
    let list = |r: Record, n: u32| (0..n).fold(r.and(&[n]), |r, j| r.and(&[(i as u32 + j) % 5, 0, 0]));
    list(list(Record::of(&[1, 0, 1, 1, 0, 0, 0, 0, 0, 0, 0]), params), results)
}

fn import(kind: &str, i: usize) -> Record {
    let x = i as u32;
    let single = |entity: &[u32]| Record::of(&[2, 0]).span(&name(i, 8)).span(&name(i, 12)).and(entity);
    let named = |n: usize| (0..n).fold(Record::of(&[2, 1]).span(&name(i, 8)).and(&[n as u32]), |r, j| r.span(&name(i + j, 10)).and(&[0, x % 400]));
    let shared = |n: usize, length: usize| (0..n).fold(Record::of(&[2, 2]).span(&name(i, 8)).and(&[0, x % 400, n as u32]), |r, j| r.span(&name(i + j, length)));
    match kind {
        "function" => single(&[0, x % 400]),
        "table" => single(&[1, 16, 0, 1, x, 0, x + 9, 0]),
        "memory" => single(&[2, 0, x, 0, 0, 0]),
        "global" => single(&[3, 0, 0, 0, 1]),
        "00 7F of 4" => named(4),
        "00 7F of 64" => named(64),
        "00 7E of 4" => shared(4, 10),
        "00 7E of 64" => shared(64, 10),
        _ => shared(64, 60),
    }
}

fn element(kind: &str, i: usize) -> Record {
    let active = Record::of(&[9, 2, 0, 0]).span(&constant(i));
    let functions = |n: u32| (0..n).map(|j| i as u32 + j).collect::<Vec<_>>();
    let references = |r: Record, n: usize| (0..n).fold(r.and(&[1, 16, 0, n as u32]), |r, _| r.span(&[0xD2, 0x80 | i as u8, 0x01, 0x0B]));
    match kind {
        "8 functions" => active.and(&[0, 0, 0, 8]).and(&functions(8)),
        "100 functions" => active.and(&[0, 0, 0, 100]).and(&functions(100)),
        "8 expressions" => references(active, 8),
        _ => references(active, 100),
    }
}

/// The i-th record of a kind.
pub fn make(kind: &str, i: usize) -> Record {
    let x = i as u32;
    match kind {
        "function of 2" => values(2, 1, i),
        "function of 8" => values(8, 2, i),
        "structure of 10" => fields(10, i),
        "structure of 100" => fields(100, i),
        "group of 4" => (0..4).fold(Record::of(&[1, 1, 4]), |r, j| r.and(&[0, 1, x % 300, 0, 0, 0, 0, 0, 2, 2, j, 0, 0, 1, 0, 0, 0, 0])),
        "bare" => Record::of(&[4, 0, 16, 0, 1, x, 0, x + 9, 0, 0, 0]),
        "with a value" => Record::of(&[4, 1, 16, 0, 0, x, 0, 0, 0]).span(&[0xD0, 0x70, 0x0B]),
        "passive 16" => Record::of(&[11, 0, 0, 0, 0]).span(&name(i, 16)),
        "passive 1024" => Record::of(&[11, 0, 0, 0, 0]).span(&name(i, 16).repeat(64)),
        "active 16" => Record::of(&[11, 1, 0]).span(&constant(i)).span(&name(i, 16)),
        "active 1024" => Record::of(&[11, 1, 0]).span(&constant(i)).span(&name(i, 16).repeat(64)),
        kind if kind.contains("functions") || kind.contains("expressions") => element(kind, i),
        kind => import(kind, i),
    }
}
