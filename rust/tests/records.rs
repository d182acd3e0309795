// Records that the builders make, by document 01's examples and its words; what each limit and refusal of a builder's record is; modules in a Vec.
use thriftbell::limits::*;
use thriftbell::records::*;
use thriftbell::{encode_i64, encode_u32, encode_u64, i64_const, Refusal, SectionId, Store};

fn section(record: &Record, id: SectionId) -> Result<Vec<u8>, Refusal> {
    let mut store = Store::new(MAX_STORE);
    store.add_record(record)?;
    Ok(store.finish_to_vec(&[id as u8], 0)?.split_off(8))
}

#[test]
fn examples_of_document_01() {
    let function = types::function([ValType::I32, ValType::I32], [ValType::I32]);
    assert_eq!(section(&function, SectionId::Type).unwrap(), [0x01, 0x07, 0x01, 0x60, 0x02, 0x7F, 0x7F, 0x01, 0x7F]);
    let hello = data::active(0, &ConstExpr::i32_const(42), b"hello");
    assert_eq!(section(&hello, SectionId::Data).unwrap()[3..], *b"\x00\x41\x2A\x0B\x05hello");
    let none = elements::active(None, &ConstExpr::i32_const(42), Elements::Expressions(RefType::EXTERNREF, &[]));
    assert_eq!(section(&none, SectionId::Element).unwrap()[3..], [0x06, 0x00, 0x41, 0x2A, 0x0B, 0x6F, 0x00]);
    let reference = |heap_type, nullable| section(&types::function([ValType::Ref(RefType { nullable, heap_type })], []), SectionId::Type).unwrap()[5..].to_vec();
    assert_eq!(reference(HeapType::Concrete(64), false), [0x64, 0xC0, 0x00, 0x00]);
    assert_eq!(reference(HeapType::Exact(5), true), [0x63, 0x62, 0x05, 0x00]);
    assert_eq!(reference(HeapType::Abstract { shared: true, ty: AbstractHeapType::Any }, true), [0x65, 0x6E, 0x00]);
}

// Every part of a record, word by word.
#[test]
fn words_of_document_01() {
    let table = TableType { element_type: RefType::FUNCREF, table64: true, minimum: 7, maximum: Some(1 << 32), shared: true };
    let record = imports::import("m", "né", table);
    assert_eq!((record.words(), record.text()), (&[2, 0, 0, 1, 1, 3, 1, 16, 0, 7, 7, 0, 0, 1][..], "mné".as_bytes()));
    let ty = CompositeType { inner: CompositeInnerType::Cont(ContType(9)), shared: true, descriptor: Some(8), describes: None };
    let ty = SubType { is_final: false, supertype_idxs: vec![5, 6], composite_type: ty };
    assert_eq!(types::rec(&[ty]).words(), [1, 1, 1, 0, 2, 5, 6, 1, 0, 0, 1, 8, 3, 9]);
    assert_eq!(types::array(StorageType::I16, true).words(), [1, 0, 1, 1, 0, 0, 0, 0, 0, 0, 1, 7, 0, 0, 1]);
    let record = tables::table_with_init(TableType { shared: false, maximum: None, ..table }, &ConstExpr::global_get(3));
    assert_eq!((record.words(), record.text()), (&[4, 1, 16, 0, 4, 7, 0, 0, 0, 0, 3][..], &[0x23, 3, 0x0B][..]));
    assert_eq!(elements::passive(Elements::Functions(&[4, 5])).words(), [9, 0, 0, 0, 0, 0, 0, 0, 0, 2, 4, 5]);
    assert_eq!(data::active(1, &ConstExpr::empty(), b"A").words(), [11, 1, 1, 0, 1, 1, 1]);
}

// A record that document 01 does not allow can be made, and is refused.
#[test]
fn refusals_of_built_records() {
    assert_eq!(section(&data::passive(&[0; MAX_TEXT + 1]), SectionId::Data), Err(Refusal::BadText));
    assert_eq!(section(&data::passive(&[0; MAX_TEXT]), SectionId::Data), Err(Refusal::ItemLarge));
    assert_eq!(section(&elements::passive(Elements::Functions(&[0; MAX_WORDS])), SectionId::Element), Err(Refusal::NoRecord));
    let shared = HeapType::Abstract { shared: true, ty: AbstractHeapType::Func };
    for expression in [ConstExpr::raw([0x0B]), ConstExpr::ref_null(shared), ConstExpr::ref_null(HeapType::Concrete(1)), ConstExpr::ref_null(HeapType::Exact(1))] {
        assert_eq!(section(&data::active(0, &expression, b""), SectionId::Data), Err(Refusal::BadExpr), "{expression:?}");
    }
}

#[test]
fn modules_in_a_vec() {
    let mut store = Store::new(100);
    assert_eq!(store.finish_to_vec(&[], 0).unwrap(), *b"\0asm\x01\0\0\0");
    store.add_record(&data::passive(&[7; 60])).unwrap();
    let data = SectionId::Data as u8;
    let module = store.finish_to_vec(&[data; MAX_ORDER], 0).unwrap();
    assert_eq!(module.len(), 8 + MAX_ORDER * 65);
    let mut out = [0; 8 + 65];
    assert_eq!((store.finish(&[data], 0, &mut out), &out[..]), (Ok(73), &module[..73]));
    // whatever its length, a list that is too long asks for no memory of its own
    for length in [MAX_ORDER + 1, 1 << 24] {
        assert_eq!(store.finish_to_vec(&vec![data; length], 0), Err(Refusal::BadOrder));
    }
    assert_eq!(store.finish_to_vec(&[3], 0), Err(Refusal::BadOrder));
    assert_eq!(Store::new(MAX_STORE + 1).finish_to_vec(&[], 0), Err(Refusal::StoreOver));
    assert_eq!(store.finish_to_vec(&[SectionId::DataCount.into()], u32::MAX).unwrap().len(), 8 + 7);
}

// The limits that no other test meets: what is longest is just as long.
#[test]
fn longest() {
    let mut out = [0; 2 * MAX_CONST];
    assert_eq!((encode_u32(u32::MAX, &mut out), encode_u64(u64::MAX, &mut out)), (Ok(MAX_NUMBER_32), Ok(MAX_NUMBER_64)));
    assert_eq!((encode_i64(i64::MIN, &mut out), i64_const(i64::MIN, &mut out)), (Ok(MAX_NUMBER_64), Ok(MAX_CONST)));
    let mut store = Store::new(100);
    store.add_record(&data::passive(b"")).unwrap();
    assert_eq!(store.used().len(), FRAME_HEAD + 2);
}
