// Answers the oracle's calls (oracle/src/entries.rs says their form) by the safe functions. One line in, one line out. What a refusal leaves changed, or lies
// past a result and changed, ends the program.
use thriftbell::*;

pub fn unhex(field: &str) -> Vec<u8> {
    let digits = if field == "-" { "" } else { field };
    (0..digits.len() / 2).map(|i| u8::from_str_radix(&digits[2 * i..2 * i + 2], 16).unwrap()).collect()
}

fn shown(bytes: &[u8]) -> String {
    if bytes.is_empty() { "-".into() } else { bytes.iter().map(|b| format!("{b:02X}")).collect() }
}

fn told<T>(answer: Result<T, Refusal>, rest: impl FnOnce(T) -> String) -> String {
    match answer {
        Ok(value) => format!("00{}", rest(value)),
        Err(refusal) => format!("{:02X}", refusal.number),
    }
}

// A writer's output is lent with bytes that a refusal, and whatever lies past the result, must keep.
pub fn written(out: usize, write: impl FnOnce(&mut [u8]) -> Result<usize, Refusal>) -> String {
    let mut room = vec![0xA5u8; out];
    let answer = write(&mut room);
    assert!(room[answer.unwrap_or(0)..].iter().all(|&b| b == 0xA5), "a byte changed that must not");
    told(answer, |n| format!(" {}", shown(&room[..n])))
}

fn call_finish(used: usize, length: usize, store: &str, order: &str, count: u32, out: usize) -> String {
    let (mut store, order) = (unhex(store), unhex(order));
    store.resize(length, 0);
    written(out, |room| finish(used, &store, &order, count, room))
}

// Nothing but the frame may change in the store, and nothing at all where it is refused.
fn call_add(used: usize, length: usize, store: &str, words: &str, text: &str) -> String {
    let (mut before, words, text, mut next) = (unhex(store), unhex(words), unhex(text), used);
    before.resize(length, 0);
    let words: Vec<u32> = words.chunks(4).map(|w| u32::from_be_bytes(w.try_into().unwrap())).collect();
    let mut store = before.clone();
    let answer = add(&mut next, &mut store, &words, &text);
    if answer.is_err() {
        assert!(next == used && store == before, "a refusal changed something");
    } else {
        assert!(store[..used] == before[..used] && store[next..] == before[next..], "a byte changed that must not");
    }
    told(answer, |()| format!(" {next} {}", shown(&store[used..next])))
}

fn call_read(id: u8, out: usize, bytes: &str) -> String {
    let mut room = vec![0xA5A5A5A5u32; out];
    let answer = read_item(id, &unhex(bytes), &mut room);
    let words = answer.map_or(0, |(words, _)| words);
    assert!(room[words..].iter().all(|&w| w == 0xA5A5A5A5), "a word changed that must not");
    told(answer, |(_, taken)| format!(" {taken} {}", shown(&room[..words].iter().flat_map(|w| w.to_be_bytes()).collect::<Vec<_>>())))
}

fn call_write(ty: &str, v: &str, out: usize) -> String {
    written(out, |room| match ty {
        "u32" => encode_u32(v.parse().unwrap(), room),
        "u64" => encode_u64(v.parse().unwrap(), room),
        "i32" => encode_i32(v.parse().unwrap(), room),
        _ => encode_i64(v.parse().unwrap(), room),
    })
}

fn call_number(ty: &str, bytes: &str) -> String {
    let b = unhex(bytes);
    match ty {
        "u32" => told(decode_u32(&b, 0), |(v, end)| format!(" {v} {end}")),
        "u64" => told(decode_u64(&b, 0), |(v, end)| format!(" {v} {end}")),
        "i32" => told(decode_i32(&b, 0), |(v, end)| format!(" {v} {end}")),
        _ => told(decode_i64(&b, 0), |(v, end)| format!(" {v} {end}")),
    }
}

fn call_const(ty: &str, v: &str, out: usize) -> String {
    written(out, |room| if ty == "i32" { i32_const(v.parse().unwrap(), room) } else { i64_const(v.parse().unwrap(), room) })
}

// "?" for what is no call.
pub fn answer(line: &str) -> String {
    let fields: Vec<&str> = line.split(' ').collect();
    let number = |field: &str| field.parse::<usize>().unwrap();
    match fields[..] {
        ["finish", used, length, store, order, count, out] => call_finish(number(used), number(length), store, order, count.parse().unwrap(), number(out)),
        ["add", used, length, store, words, text] => call_add(number(used), number(length), store, words, text),
        ["read", id, out, bytes] => call_read(id.parse().unwrap(), number(out), bytes),
        ["write", ty, value, out] => call_write(ty, value, number(out)),
        ["number", ty, bytes] => call_number(ty, bytes),
        ["check", bytes] => told(check_expr(&unhex(bytes)), |()| String::new()),
        ["const", ty, value, out] => call_const(ty, value, number(out)),
        _ => "?".into(),
    }
}
