// What hex lines cannot reach, one call a line: words and bytes in hexadecimal, `-` where there are none, words of eight digits.
//   add USED LENGTH STORE WORDS TEXT            00 USED FRAME
//   finish USED LENGTH STORE ORDER COUNT OUT    00 MODULE
//   read ID OUT BYTES                           00 TAKEN WORDS
//   write TYPE VALUE OUT                        00 BYTES
//   number TYPE BYTES                           00 VALUE TAKEN
//   check BYTES                                 00
//   const TYPE VALUE OUT                        00 BYTES
// A store is LENGTH bytes long: STORE, then zeros. OUT is the length of the output. TYPE is u32, u64, i32 or i64. A refusal is its number alone.
use crate::item::{good_order, judge};
use crate::lines::{hex, unhex};
use crate::reader;
use crate::text::is_expression;
use wasm_encoder::{ConstExpr, Encode, Module, RawSection};

const LIMIT: usize = 16_777_216;

pub fn answer(line: &str) -> String {
    let fields: Vec<&str> = line.split(' ').collect();
    match call(&fields) {
        None => "?".into(),
        Some(Err(refusal)) => format!("{refusal:02X}"),
        Some(Ok(rest)) => format!("00{rest}"),
    }
}

fn bytes(field: &str) -> Option<Vec<u8>> {
    unhex(if field == "-" { "" } else { field }.as_bytes())
}

fn words(field: &str) -> Option<Vec<u32>> {
    bytes(field)?.chunks(4).map(|w| Some(u32::from_be_bytes(w.try_into().ok()?))).collect()
}

pub fn shown(bytes: &[u8]) -> String {
    if bytes.is_empty() { "-".into() } else { hex(bytes) }
}

fn call(fields: &[&str]) -> Option<Result<String, u8>> {
    Some(match fields {
        ["add", used, length, _, w, text] => add(used.parse().ok()?, length.parse().ok()?, &words(w)?, &bytes(text)?),
        ["finish", used, length, store, order, count, out] => {
            finish(used.parse().ok()?, length.parse().ok()?, &bytes(store)?, &bytes(order)?, count.parse().ok()?, out.parse().ok()?)
        }
        ["read", id, out, b] => reader::read(id.parse().ok()?, &bytes(b)?, out.parse().ok()?)
            .map(|(words, taken)| format!(" {taken} {}", shown(&words.iter().flat_map(|w| w.to_be_bytes()).collect::<Vec<_>>()))),
        ["write", ty, value, out] => written(encoded(ty, value)?, out.parse().ok()?),
        ["number", ty, b] => number(ty, &bytes(b)?)?,
        ["check", b] => if is_expression(&bytes(b)?) { Ok(String::new()) } else { Err(5) },
        ["const", ty, value, out] => {
            let expression = match *ty {
                "i32" => ConstExpr::i32_const(value.parse().ok()?),
                "i64" => ConstExpr::i64_const(value.parse().ok()?),
                _ => return None,
            };
            let mut sink = vec![];
            expression.encode(&mut sink);
            written(sink, out.parse().ok()?)
        }
        _ => return None,
    })
}

fn written(bytes: Vec<u8>, out: usize) -> Result<String, u8> {
    if bytes.len() > out { Err(10) } else { Ok(format!(" {}", shown(&bytes))) }
}

fn encoded(ty: &str, value: &str) -> Option<Vec<u8>> {
    let mut sink = vec![];
    match ty {
        "u32" => value.parse::<u32>().ok()?.encode(&mut sink),
        "u64" => value.parse::<u64>().ok()?.encode(&mut sink),
        "i32" => value.parse::<i32>().ok()?.encode(&mut sink),
        "i64" => value.parse::<i64>().ok()?.encode(&mut sink),
        _ => return None,
    }
    Some(sink)
}

// The shortest form only: the number whose bytes, as the crate writes them, begin these.
fn number(ty: &str, b: &[u8]) -> Option<Result<String, u8>> {
    let (bits, signed) = match ty {
        "u32" => (32, false),
        "u64" => (64, false),
        "i32" => (32, true),
        "i64" => (64, true),
        _ => return None,
    };
    let Some(end) = crate::text::number_end(b, 0, bits, signed) else {
        return Some(Err(11));
    };
    let mut v = 0i128;
    for (i, byte) in b[..end].iter().enumerate() {
        v |= i128::from(byte & 0x7F) << (7 * i);
    }
    if signed && b[end - 1] & 0x40 != 0 {
        v -= 1 << (7 * end);
    }
    let value = v.to_string();
    Some(if encoded(ty, &value)? == b[..end] { Ok(format!(" {value} {end}")) } else { Err(11) })
}

fn add(used: usize, length: usize, words: &[u32], text: &[u8]) -> Result<String, u8> {
    if length > LIMIT || used > length {
        return Err(1);
    }
    let (record, item) = judge(words, text)?;
    if used + item.len() + 5 > length {
        return Err(7);
    }
    let mut frame = vec![record.section()];
    frame.extend((item.len() as u32).to_le_bytes());
    frame.extend(&item);
    Ok(format!(" {} {}", used + frame.len(), hex(&frame)))
}

fn finish(used: usize, length: usize, store: &[u8], order: &[u8], count: u32, out: usize) -> Result<String, u8> {
    if length > LIMIT || used > length {
        return Err(1);
    }
    if !good_order(order) {
        return Err(8);
    }
    let mut store = store.to_vec();
    store.resize(length, 0);
    let frames = frames(&store[..used]).ok_or(9)?;
    let mut module = Module::new();
    for id in order {
        let mut data = vec![];
        if *id == 12 {
            count.encode(&mut data);
        } else {
            let items: Vec<_> = frames.iter().filter(|f| f.0 == *id).collect();
            (items.len() as u32).encode(&mut data);
            items.iter().for_each(|f| data.extend(f.1));
        }
        module.section(&RawSection { id: *id, data: &data });
    }
    let module = module.finish();
    if module.len() > out { Err(10) } else { Ok(format!(" {}", hex(&module))) }
}

fn frames(mut room: &[u8]) -> Option<Vec<(u8, &[u8])>> {
    let mut all = vec![];
    while let [id, a, b, c, d, rest @ ..] = room {
        let len = u32::from_le_bytes([*a, *b, *c, *d]) as usize;
        if ![1, 2, 4, 9, 11].contains(id) || len > 65536 || len > rest.len() {
            return None;
        }
        all.push((*id, &rest[..len]));
        room = &rest[len..];
    }
    room.is_empty().then_some(all)
}

#[cfg(test)]
mod tests {
    use super::*;

    #[test]
    fn checked_examples() {
        let examples = [
            ("write u32 127 5", "00 7F"),
            ("write u32 128 5", "00 8001"),
            ("write u32 624485 5", "00 E58E26"),
            ("write u32 4294967295 5", "00 FFFFFFFF0F"),
            ("write i32 63 5", "00 3F"),
            ("write i32 64 5", "00 C000"),
            ("write i32 -64 5", "00 40"),
            ("write i32 -65 5", "00 BF7F"),
            ("write i32 9999 5", "00 8FCE00"),
            ("write i32 9999 2", "0A"),
            ("write i32 -123456 5", "00 C0BB78"),
            ("number i32 8F4E", "00 -6385 2"),
            ("number u32 8000", "0B"),
            ("number u32 8F", "0B"),
            ("finish 0 8 - - 0 8", "00 0061736D01000000"),
            ("finish 0 8 - - 0 7", "0A"),
            ("finish 9 8 - - 0 8", "01"),
            ("finish 0 16777217 - - 0 8", "01"),
            ("finish 6 8 0B0100000041 0B 0 99", "00 0061736D010000000B020141"),
            ("finish 5 8 0B0100000041 0B 0 99", "09"),
            ("finish 6 8 0C0100000041 0B 0 99", "09"),
            ("finish 6 8 0C0100000041 03 0 99", "08"),
            ("check 412A0B", "00"),
            ("check 412A", "05"),
            ("const i32 42 3", "00 412A0B"),
            ("const i64 -1 2", "0A"),
        ];
        for (line, expected) in examples {
            assert_eq!(answer(line), expected, "{line}");
        }
    }

    // GNU as writes the same bytes, where it is there.
    #[test]
    fn the_assembler_agrees() {
        let calls = String::from_utf8(crate::make::file("entries", 0)).unwrap();
        let calls: Vec<Vec<&str>> = calls.lines().map(|l| l.split(' ').collect()).filter(|f: &Vec<&str>| f[0] == "write" && f[3] == "10").collect();
        assert!(calls.len() > 1000);
        let source: String = calls.iter().map(|f| format!(".{}leb128 {}\n", if f[1].starts_with('u') { "u" } else { "s" }, f[2])).collect();
        let room = std::env::temp_dir().join(format!("leb-{}", std::process::id()));
        std::fs::create_dir_all(&room).unwrap();
        std::fs::write(room.join("n.s"), source).unwrap();
        let ran = |program: &str, args: &[&str]| std::process::Command::new(program).args(args).current_dir(&room).status().is_ok_and(|s| s.success());
        if ran("as", &["-o", "n.o", "n.s"]) && ran("objcopy", &["-O", "binary", "-j", ".text", "n.o", "n.bin"]) {
            let written: Vec<u8> = calls.iter().flat_map(|f| encoded(f[1], f[2]).unwrap()).collect();
            assert!(std::fs::read(room.join("n.bin")).unwrap() == written);
        } else {
            eprintln!("GNU as is not there: its LEB128 was not compared");
        }
        std::fs::remove_dir_all(&room).unwrap();
    }

    // Words are shown as in document 01: decimal here.
    fn item(words: &[u32], text: &[u8]) -> String {
        let w: Vec<u8> = words.iter().flat_map(|w| w.to_be_bytes()).collect();
        let line = format!("add 0 65536 - {} {}", shown(&w), shown(text));
        answer(&line).split(' ').nth(2).map(|frame| frame[10..].to_string()).unwrap_or(answer(&line))
    }

    #[test]
    fn checked_items() {
        // references: a table type has one at its front; 64 C0 00, 63 62 05, 65 6E
        assert_eq!(item(&[4, 0, 14, 64, 0, 0, 0, 0, 0, 0, 0], b""), "64C0000000");
        assert_eq!(item(&[4, 0, 0x1F, 5, 0, 0, 0, 0, 0, 0, 0], b""), "6362050000");
        assert_eq!(item(&[4, 0, 0x32, 0, 0, 0, 0, 0, 0, 0, 0], b""), "656E0000");
        // (i32 i32) to i32
        assert_eq!(item(&[1, 0, 1, 1, 0, 0, 0, 0, 0, 0, 0, 2, 0, 0, 0, 0, 0, 0, 1, 0, 0, 0], b""), "60027F7F017F");
        // active data at 42, "hello"
        assert_eq!(item(&[11, 1, 0, 0, 3, 3, 5], b"\x41\x2A\x0Bhello"), "00412A0B0568656C6C6F");
        // externref expressions without table at 42, none listed
        assert_eq!(item(&[9, 2, 0, 0, 0, 3, 1, 0x11, 0, 0], b"\x41\x2A\x0B"), "0600412A0B6F00");
        // easy to get wrong: final with a supertype; table 0 given
        assert_eq!(item(&[1, 0, 1, 1, 1, 0, 0, 0, 0, 0, 0, 2, 0], b""), "4F01005F00");
        assert_eq!(item(&[9, 2, 1, 0, 0, 1, 0, 0, 0, 0], b"\x0B"), "02000B0000");
        assert_eq!(item(&[9, 2, 0, 0, 0, 1, 0, 0, 0, 0], b"\x0B"), "000B00");
    }

    #[test]
    fn room_exactly_full() {
        assert_eq!(answer("add 0 8 - 0000000B000000000000000000000000000000000000000000000001 41"), "00 8 0B03000000010141");
        assert_eq!(answer("add 0 7 - 0000000B000000000000000000000000000000000000000000000001 41"), "07");
    }
}
