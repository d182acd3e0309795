// Document 01, Hex lines: each line is answered by one line. The store's room is counted; what it holds is the crate's own sections.
use crate::item::{good_order, judge, Sections};

const STORE: usize = 32768;

#[derive(Default)]
pub struct Builder {
    used: usize,
    sections: Sections,
}

pub fn hex(bytes: &[u8]) -> String {
    bytes.iter().map(|b| format!("{b:02X}")).collect()
}

// Upper-case pairs of digits.
pub fn unhex(line: &[u8]) -> Option<Vec<u8>> {
    let digit = |c: u8| match c {
        b'0'..=b'9' => Some(c - b'0'),
        b'A'..=b'F' => Some(c - b'A' + 10),
        _ => None,
    };
    if line.len() % 2 != 0 {
        return None;
    }
    line.chunks(2).map(|p| Some(digit(p[0])? * 16 + digit(p[1])?)).collect()
}

impl Builder {
    pub fn answer(&mut self, line: &[u8]) -> String {
        self.taken(line).unwrap_or_else(|refusal| format!("{refusal:02X}"))
    }

    fn taken(&mut self, line: &[u8]) -> Result<String, u8> {
        if line.is_empty() || line.len() > 8192 {
            return Err(12);
        }
        let bytes = unhex(line).ok_or(12)?;
        if bytes.iter().fold(0u8, |sum, b| sum.wrapping_add(*b)) != 0 {
            return Err(12);
        }
        match &bytes[..bytes.len() - 1] {
            [1, low, high, rest @ ..] => {
                let count = usize::from(u16::from_le_bytes([*low, *high]));
                if rest.len() < 4 * count {
                    return Err(12);
                }
                let (words, text) = rest.split_at(4 * count);
                let words: Vec<u32> = words.chunks(4).map(|w| u32::from_le_bytes(w.try_into().unwrap())).collect();
                let (record, item) = judge(&words, text)?;
                if self.used + item.len() + 5 > STORE {
                    return Err(7);
                }
                self.used += item.len() + 5;
                self.sections.add(&record, text);
                Ok("00".into())
            }
            [2, a, b, c, d, order @ ..] => {
                if !good_order(order) {
                    return Err(8);
                }
                let module = self.sections.module(order, u32::from_le_bytes([*a, *b, *c, *d]));
                if module.len() > STORE {
                    return Err(10);
                }
                Ok(format!("00{}", hex(&module)))
            }
            _ => Err(12),
        }
    }
}

// A frame and the byte that makes its sum wrap to 00, as a line.
pub fn checked(frame: &[u8]) -> String {
    hex(&[frame, &[0u8.wrapping_sub(frame.iter().fold(0, |s: u8, b| s.wrapping_add(*b)))]].concat())
}

// A record of n bytes of passive data.
fn data(n: usize) -> String {
    let mut frame = vec![1, 7, 0];
    [11, 0, 0, 0, 0, 0, n as u32].iter().for_each(|w: &u32| frame.extend(w.to_le_bytes()));
    frame.extend(vec![0x2A; n]);
    checked(&frame)
}

// Coins of these lengths, at most 32 of them, that make a sum: how often each.
fn change(coins: &[usize], sum: usize) -> Option<Vec<usize>> {
    let mut ways: Vec<Option<Vec<usize>>> = vec![None; sum + 1];
    ways[0] = Some(vec![]);
    for at in 0..sum {
        let Some(way) = ways[at].clone() else { continue };
        for (i, coin) in coins.iter().enumerate() {
            if at + coin <= sum && way.len() < 32 && ways[at + coin].as_ref().is_none_or(|w| w.len() > way.len() + 1) {
                ways[at + coin] = Some([&way[..], &[i]].concat());
            }
        }
    }
    ways[sum].clone()
}

impl Builder {
    // The room left is filled exactly, after one byte too many was refused; one more is refused; then a module of as many bytes as the output has, and one more.
    fn edges(&mut self) -> Vec<String> {
        let mut lines = vec![];
        while self.used + 2100 < STORE {
            lines.push(data(2000));
            self.answer(lines[lines.len() - 1].as_bytes());
        }
        let exact = |b: &Builder| (0..2100).find(|n| b.used + 5 + 1 + if *n < 128 { 1 } else { 2 } + n == STORE);
        let n = exact(self).expect("room for data of one more length");
        for n in [n + 1, n, 0] {
            lines.push(data(n));
            self.answer(lines[lines.len() - 1].as_bytes());
        }
        for sum in [STORE, STORE + 1] {
            let ids = [1, 2, 4, 9, 11, 12];
            let found = [0u32, 128, 16384, 2097152].iter().find_map(|count| {
                let coins: Vec<usize> = ids.iter().map(|id| self.sections.module(&[*id], *count).len() - 8).collect();
                change(&coins, sum - 8).map(|way| (count, way))
            });
            let (count, way) = found.expect("an order list for every length");
            let order: Vec<u8> = way.iter().map(|i| ids[*i]).collect();
            lines.push(checked(&[&[2][..], &count.to_le_bytes(), &order].concat()));
        }
        lines
    }
}

// An input with lines for the edges of its store and of the output, behind the last of its own that leaves room for them.
pub fn filled(input: &[u8]) -> Vec<u8> {
    let lines: Vec<&[u8]> = input.split_inclusive(|b| *b == b'\n').collect();
    let bare = |line: &&[u8]| line.strip_suffix(b"\n").unwrap_or(line).to_vec();
    let mut builder = Builder::default();
    let used: Vec<usize> = lines.iter().map(|l| (builder.answer(&bare(l)), builder.used).1).collect();
    let front = used.iter().rposition(|used| used + 64 <= STORE).map_or(0, |i| i + 1);
    let mut builder = Builder::default();
    lines[..front].iter().for_each(|l| drop(builder.answer(&bare(l))));
    let added: String = builder.edges().iter().map(|l| l.clone() + "\n").collect();
    [lines[..front].concat(), added.into_bytes(), lines[front..].concat()].concat()
}

// Every line of an input; the last may lack its line feed.
pub fn answers(input: &[u8]) -> String {
    let mut builder = Builder::default();
    let mut lines: Vec<&[u8]> = input.split(|b| *b == b'\n').collect();
    if lines.last().is_some_and(|l| l.is_empty()) {
        lines.pop();
    }
    lines.iter().map(|line| builder.answer(line) + "\n").collect()
}

#[cfg(test)]
mod tests {
    use super::*;

    #[test]
    fn whole_case() {
        let input = b"0107000B00000000000000000000000000000000000000000000000100000041AB\n02010000000C0BE6\n";
        assert_eq!(answers(input), "00\n000061736D010000000C01010B0401010141\n");
    }

    // (i32 i32) to i32 in a section, whose size counts the count; and an empty order
    #[test]
    fn type_section() {
        let words: [u32; 22] = [1, 0, 1, 1, 0, 0, 0, 0, 0, 0, 0, 2, 0, 0, 0, 0, 0, 0, 1, 0, 0, 0];
        let mut add = vec![1, 22, 0];
        words.iter().for_each(|w| add.extend(w.to_le_bytes()));
        let input = format!("{}\n{}\n{}\n", checked(&add), checked(&[2, 0, 0, 0, 0, 1]), checked(&[2, 0, 0, 0, 0]));
        assert_eq!(answers(input.as_bytes()), "00\n000061736D0100000001070160027F7F017F\n000061736D01000000\n");
    }

    // 7, 0, 7, and the two modules
    #[test]
    fn filled_exactly() {
        let all = answers(&filled(b""));
        let told: Vec<&str> = all.lines().collect();
        let [.., a, b, c, d, e] = told[..] else { panic!() };
        assert_eq!((a, b, c, d.len(), e), ("07", "00", "07", 2 + 2 * STORE, "0A"));
    }

    #[test]
    fn last_lines() {
        assert_eq!(answers(b""), "");
        assert_eq!(answers(b"\n"), "0C\n");
        assert_eq!(answers(b"02010000000C0BE6"), "000061736D010000000C01010B0100\n");
    }
}
