// Document 01, the two texts that are judged: a name is UTF-8 (answer 4), and a constant expression is a run of the listed instructions and 0B (answer 5).

// The standard's utf8, by its table of well-formed sequences.
pub fn is_name(mut s: &[u8]) -> bool {
    while let [first, rest @ ..] = s {
        let (count, low, high) = match *first {
            0x00..=0x7F => (0, 0x80, 0xBF),
            0xC2..=0xDF => (1, 0x80, 0xBF),
            0xE0 => (2, 0xA0, 0xBF),
            0xE1..=0xEC | 0xEE..=0xEF => (2, 0x80, 0xBF),
            0xED => (2, 0x80, 0x9F),
            0xF0 => (3, 0x90, 0xBF),
            0xF1..=0xF3 => (3, 0x80, 0xBF),
            0xF4 => (3, 0x80, 0x8F),
            _ => return false,
        };
        if rest.len() < count || (count > 0 && !(low..=high).contains(&rest[0])) {
            return false;
        }
        if rest[..count].iter().skip(1).any(|b| !(0x80..=0xBF).contains(b)) {
            return false;
        }
        s = &rest[count..];
    }
    true
}

// Where a number of the standard ends: padding is taken, at most ceil(bits / 7) bytes, the unused bits of a full-length last byte as the standard says.
pub fn number_end(s: &[u8], at: usize, bits: u32, signed: bool) -> Option<usize> {
    let most = bits.div_ceil(7) as usize;
    for i in 0..most {
        let b = *s.get(at + i)?;
        if b < 0x80 {
            let used = bits - 7 * i as u32;
            if used < 7 {
                let high = b >> used;
                let ones = 0x7F >> used;
                let negative = signed && b >> (used - 1) & 1 == 1;
                if high != if negative { ones } else { 0 } {
                    return None;
                }
            }
            return Some(at + i + 1);
        }
    }
    None
}

// Where the expression at the front ends.
pub fn expression_end(s: &[u8]) -> Option<usize> {
    let mut at = 0;
    loop {
        let op = *s.get(at)?;
        at += 1;
        at = match op {
            0x0B => return Some(at),
            0x41 => number_end(s, at, 32, true)?,
            0x42 => number_end(s, at, 64, true)?,
            0x43 => at + 4,
            0x44 => at + 8,
            0x23 | 0xD2 => number_end(s, at, 32, false)?,
            0xD0 => {
                s.get(at).filter(|b| (0x68..=0x75).contains(*b))?;
                at + 1
            }
            0x6A..=0x6C | 0x7C..=0x7E => at,
            _ => return None,
        };
        if at > s.len() {
            return None;
        }
    }
}

pub fn is_expression(s: &[u8]) -> bool {
    expression_end(s) == Some(s.len())
}

#[cfg(test)]
mod tests {
    use super::*;

    #[test]
    fn names_are_what_std_takes() {
        let edges: Vec<u8> = (0u16..256).map(|b| b as u8).filter(|b| *b < 2 || *b > 0x7D).collect();
        for a in 0..=255u8 {
            assert_eq!(is_name(&[a]), std::str::from_utf8(&[a]).is_ok());
            for b in 0..=255u8 {
                assert_eq!(is_name(&[a, b]), std::str::from_utf8(&[a, b]).is_ok());
                for &c in &edges {
                    let s = [a, b, c];
                    assert_eq!(is_name(&s), std::str::from_utf8(&s).is_ok(), "{s:02X?}");
                }
            }
        }
        for a in 0xEDu8..=0xF5 {
            for &b in &edges {
                for &c in &edges {
                    for &d in &edges {
                        let s = [a, b, c, d];
                        assert_eq!(is_name(&s), std::str::from_utf8(&s).is_ok(), "{s:02X?}");
                    }
                }
            }
        }
    }

    #[test]
    fn numbers_of_the_standard() {
        // the standard's note on integers, at 8 bits
        assert_eq!(number_end(&[0x03], 0, 8, false), Some(1));
        assert_eq!(number_end(&[0x83, 0x00], 0, 8, false), Some(2));
        assert_eq!(number_end(&[0x83, 0x10], 0, 8, false), None);
        assert_eq!(number_end(&[0x7E], 0, 8, true), Some(1));
        assert_eq!(number_end(&[0xFE, 0x7F], 0, 8, true), Some(2));
        assert_eq!(number_end(&[0x83, 0x3E], 0, 8, true), None);
        assert_eq!(number_end(&[0xFF, 0x7B], 0, 8, true), None);
        assert_eq!(number_end(&[0xFF; 11], 0, 64, true), None);
    }

    #[test]
    fn expressions() {
        assert!(is_expression(&[0x0B]));
        assert!(!is_expression(&[]));
        assert!(is_expression(&[0x41, 0x2A, 0x0B]));
        assert!(!is_expression(&[0x41, 0x2A, 0x0B, 0x0B]));
        assert!(is_expression(&[0x43, 0x0B, 0x0B, 0x0B, 0x0B, 0x0B]));
        assert!(!is_expression(&[0x43, 0x0B, 0x0B, 0x0B, 0x0B]));
        assert!(is_expression(&[0xD0, 0x70, 0x0B]));
        assert!(!is_expression(&[0xD0, 0xC0, 0x00, 0x0B]));
    }
}
