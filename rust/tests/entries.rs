// Every entry, called once where it accepts and once where it refuses, by document 01's examples; and what stands beside a refusal.
use thriftbell::*;

fn number<T>(answer: Result<T, Refusal>) -> u32 {
    answer.err().map_or(0, |r| r.number)
}

#[test]
fn numbers_are_written() {
    let mut out = [0xA5; 5];
    assert_eq!((encode_u32(624485, &mut out), out), (Ok(3), [0xE5, 0x8E, 0x26, 0xA5, 0xA5]));
    assert_eq!((encode_u64(128, &mut out), out[..2].to_vec()), (Ok(2), vec![0x80, 0x01]));
    assert_eq!((encode_i32(-123456, &mut out), out[..3].to_vec()), (Ok(3), vec![0xC0, 0xBB, 0x78]));
    assert_eq!((encode_i64(-65, &mut out), out[..2].to_vec()), (Ok(2), vec![0xBF, 0x7F]));
    assert_eq!((encode_index(64, &mut out), out[..2].to_vec()), (Ok(2), vec![0xC0, 0x00]));
    assert_eq!((i32_const(42, &mut out), out[..3].to_vec()), (Ok(3), vec![0x41, 0x2A, 0x0B]));
    assert_eq!((i64_const(-1, &mut out), out[..3].to_vec()), (Ok(3), vec![0x42, 0x7F, 0x0B]));
    let mut short = [0xA5];
    let refused = [
        encode_u32(128, &mut short), encode_u64(128, &mut short), encode_i32(64, &mut short), encode_i64(64, &mut short), encode_index(64, &mut short),
        i32_const(0, &mut short), i64_const(0, &mut short),
    ];
    assert!(refused.map(number) == [10; 7] && short == [0xA5]);
}

#[test]
fn numbers_are_read() {
    let bytes = [0xFF, 0x8F, 0xCE, 0x00, 0x80, 0x00];
    assert_eq!(decode_u32(&bytes[..3], 1), Err(Refusal { number: 11 }));
    assert_eq!(decode_i32(&bytes, 1), Ok((9999, 4)));
    assert_eq!(decode_i64(&bytes, 1), Ok((9999, 4)));
    assert_eq!(decode_index(&bytes, 1), Ok((9999, 4)));
    assert_eq!(decode_u32(&[0xE5, 0x8E, 0x26], 0), Ok((624485, 3)));
    assert_eq!(decode_u64(&[0x7F], 0), Ok((127, 1)));
    let padded = [number(decode_u32(&bytes, 4)), number(decode_u64(&bytes, 4)), number(decode_i32(&bytes, 4)), number(decode_i64(&bytes, 4)), number(decode_index(&bytes, 4))];
    assert_eq!(padded, [11; 5]);
    assert_eq!(number(decode_u32(&bytes, usize::MAX)), 11);
    assert_eq!([127, 128, u32::MAX].map(encoding_size), [1, 2, 5]);
}

#[test]
fn names_and_expressions() {
    assert!(is_name("é".as_bytes()) && is_name(b"") && !is_name(&[0xC3]));
    assert_eq!((check_expr(&[0x41, 0x2A, 0x0B]), number(check_expr(&[0x41, 0x2A]))), (Ok(()), 5));
}

#[test]
fn a_store() {
    let words = [11, 0, 0, 0, 0, 0, 1];
    let (mut store, mut out) = (Store::new(8), [0xA5; 19]);
    assert_eq!(number(Store::new(7).add(&words, b"A")), 7);
    assert_eq!((store.add(&words, b"A"), store.used()), (Ok(()), &[11, 3, 0, 0, 0, 1, 1, 0x41][..]));
    assert_eq!((number(store.add(&words[..6], b"A")), number(store.add(&words, b"")), number(store.add(&words, b"A"))), (2, 3, 7));
    assert_eq!(store.finish(&[12, 11], 1, &mut out), Ok(17));
    assert_eq!(out, *b"\0asm\x01\0\0\0\x0C\x01\x01\x0B\x04\x01\x01\x01A\xA5\xA5");
    assert_eq!((number(store.finish(&[3], 1, &mut out)), number(store.finish(&[11], 1, &mut [0; 13]))), (8, 10));
    assert_eq!((number(Store::new(16_777_217).add(&words, b"A")), number(finish(1, &[11], &[], 0, &mut out))), (1, 9));
}

#[test]
fn items_are_read() {
    let mut out = [0xA5; 8];
    assert_eq!((read_item(11, &[1, 1, 0x41, 0xFF], &mut out), out), (Ok((7, 3)), [11, 0, 0, 0, 0, 2, 1, 0xA5]));
    assert_eq!((number(read_item(11, &[3], &mut out)), number(read_item(11, &[1, 1, 0x41], &mut [0; 6]))), (11, 10));
}

#[test]
fn lines_are_answered() {
    let (mut used, mut store, mut buffer, mut out) = (0, [0; 64], [0; 64], [0; 130]);
    let mut answer = |line: &[u8]| answer_line(line, &mut used, &mut store, &mut buffer, &mut out).map(|n| String::from_utf8(out[..n].to_vec()).unwrap());
    assert_eq!(answer(b"0107000B00000000000000000000000000000000000000000000000100000041AB"), Ok("00".into()));
    assert_eq!(answer(b"02010000000C0BE6"), Ok("000061736D010000000C01010B0401010141".into()));
    assert_eq!(answer(b""), Ok("0C".into()));
    assert_eq!(number(answer_line(b"", &mut used, &mut store, &mut buffer, &mut out[1..])), 10);
}

// Each refusal by its name, on what the name says.
#[test]
fn refusals_by_name() {
    let add = |words: &[u32], text: &[u8]| Store::new(limits::MAX_STORE).add(words, text);
    let passive = |length| [11, 0, 0, 0, 0, 0, length];
    assert_eq!(Store::new(limits::MAX_STORE + 1).add(&passive(0), b""), Err(Refusal::StoreOver));
    assert_eq!(add(&[11], b""), Err(Refusal::NoRecord));
    assert_eq!(add(&passive(1), b""), Err(Refusal::BadText));
    assert_eq!(add(&[2, 0, 0, 1, 0, 0, 0, 0], &[0xFF]), Err(Refusal::BadName));
    assert_eq!(add(&[11, 1, 0, 0, 1, 0, 0], &[0]), Err(Refusal::BadExpr));
    assert_eq!(add(&passive(limits::MAX_TEXT as u32), &[0; limits::MAX_TEXT]), Err(Refusal::ItemLarge));
    assert_eq!(Store::new(limits::FRAME_HEAD + 1).add(&passive(0), b""), Err(Refusal::StoreFull));
    assert_eq!(finish(0, &[], &[11; limits::MAX_ORDER + 1], 0, &mut []), Err(Refusal::BadOrder));
    assert_eq!(finish(1, &[11], &[], 0, &mut []), Err(Refusal::NoFrames));
    assert_eq!(finish(0, &[], &[], 0, &mut []), Err(Refusal::OutputShort));
    assert_eq!(read_item(11, &[], &mut []), Err(Refusal::NothingToRead));
    let mut out = [0; 2];
    assert_eq!((answer_line(b"", &mut 0, &mut [], &mut [], &mut out), &out), (Ok(2), b"0C"));
    assert_eq!(Refusal::from_number(0x0C), Some(Refusal::BadLine));
}

// The numbers that are lent hold something before: beside a refusal they are 0, and the room used stays.
#[test]
fn numbers_beside_a_refusal() {
    let (mut a, mut b, mut v32, mut v64, mut i32, mut i64) = (99usize, 99usize, 99u32, 99u64, 99i32, 99i64);
    let (mut room, mut words) = ([0xA5u8; 4], [0xA5u32; 4]);
    let (p, w) = (room.as_mut_ptr(), words.as_mut_ptr());
    unsafe {
        assert_eq!((raw::thriftbell_encode_u32(128, p, 1, &mut a), a), (10, 0));
        a = 99;
        assert_eq!((raw::thriftbell_decode_u32(p, 0, 0, &mut v32, &mut a), v32, a), (11, 0, 0));
        a = 99;
        assert_eq!((raw::thriftbell_decode_u64(p, 0, 0, &mut v64, &mut a), v64, a), (11, 0, 0));
        a = 99;
        assert_eq!((raw::thriftbell_decode_i32(p, 0, 0, &mut i32, &mut a), i32, a), (11, 0, 0));
        a = 99;
        assert_eq!((raw::thriftbell_decode_i64(p, 0, 0, &mut i64, &mut a), i64, a), (11, 0, 0));
        a = 99;
        assert_eq!((raw::thriftbell_finish(0, p, 4, p, 0, 0, [0; 7].as_mut_ptr(), 7, &mut a), a), (10, 0));
        a = 99;
        assert_eq!((raw::thriftbell_read_item(11, p, 0, w, 4, &mut a, &mut b), a, b), (11, 0, 0));
        (a, b) = (99, 3);
        assert_eq!((raw::thriftbell_add(&mut b, p, 4, w, 0, [0].as_ptr(), 0), b), (2, 3));
        assert_eq!((raw::thriftbell_answer_line([0].as_ptr(), 0, &mut b, p, 4, [0; 4].as_mut_ptr(), 4, [0; 9].as_mut_ptr(), 9, &mut a), b, a), (10, 3, 0));
    }
    assert!(room == [0xA5; 4] && words == [0xA5; 4]);
}
