// The builders against wasm-encoder: the same random values, as records that are added and finished here, and through the crate's own sections there, are the same
// modules. What was chosen is counted, and every choice has to have been made. rust/check runs this, since it needs the oracle beside this crate.
#[path = "../random/mod.rs"]
mod random;
mod values;

use oracle::item::Sections;
use std::collections::BTreeSet;
use thriftbell::limits::{FRAME_HEAD, MAX_ORDER};
use thriftbell::records::{self as ours, Record};
use thriftbell::{SectionId, Store};
use values::{borrowed, Values};
use wasm_encoder as theirs;

fn seeds() -> u64 {
    std::env::var("SEEDS").map_or(20, |s| s.parse().expect("SEEDS is a number"))
}

fn a_type(v: &mut Values, there: &mut Sections) -> Record {
    let ty = there.types.ty();
    match v.choice("type", 6) {
        0 => {
            let (params, results) = (v.list(Values::val_type), v.list(Values::val_type));
            ty.function(params.1, results.1);
            ours::types::function(params.0, results.0)
        }
        1 => {
            let field = v.field();
            ty.array(&field.1.element_type, field.1.mutable);
            ours::types::array(field.0.element_type, field.0.mutable)
        }
        2 => {
            let fields = v.list(Values::field);
            ty.struct_(fields.1);
            ours::types::struct_(fields.0)
        }
        3 => {
            let index = v.index();
            ty.cont(&theirs::ContType(index));
            ours::types::cont(ours::ContType(index))
        }
        4 => {
            let subtype = v.subtype();
            ty.subtype(&subtype.1);
            ours::types::subtype(&subtype.0)
        }
        _ => {
            let group = v.list(Values::subtype);
            ty.rec(group.1);
            ours::types::rec(&group.0)
        }
    }
}

fn an_import(v: &mut Values, there: &mut Sections) -> Record {
    let module = &v.name();
    match v.choice("import", 3) {
        0 => {
            let (name, ty) = (&v.name(), v.entity());
            there.imports.import(module, name, ty.1);
            ours::imports::import(module, name, ty.0)
        }
        1 => {
            let types = v.list(Values::entity);
            let names: Vec<String> = types.0.iter().map(|_| v.name()).collect();
            let items: Vec<_> = borrowed(&names).zip(types.1).map(|(name, ty)| theirs::ImportCompact { name, ty }).collect();
            there.imports.imports(theirs::Imports::Compact1 { module, items: items.into() });
            let items: Vec<_> = borrowed(&names).zip(types.0).map(|(name, ty)| ours::ImportCompact { name, ty }).collect();
            ours::imports::imports(ours::Imports::Compact1 { module, items: &items })
        }
        _ => {
            let (names, ty) = (v.names(), v.entity());
            let names: Vec<&str> = borrowed(&names).collect();
            there.imports.imports(theirs::Imports::Compact2 { module, ty: ty.1, names: names.clone().into() });
            ours::imports::imports(ours::Imports::Compact2 { module, ty: ty.0, names: &names })
        }
    }
}

fn a_table(v: &mut Values, there: &mut Sections) -> Record {
    let ty = v.table();
    if v.choice("initial value", 2) == 0 {
        there.tables.table(ty.1);
        return ours::tables::table(ty.0);
    }
    let init = v.expression();
    there.tables.table_with_init(ty.1, &init.1);
    ours::tables::table_with_init(ty.0, &init.0)
}

fn a_segment(v: &mut Values, there: &mut Sections) -> Record {
    let (functions, list);
    let elements = match v.choice("elements", 2) {
        0 => {
            functions = v.list(Values::indices).0;
            (ours::Elements::Functions(&functions), theirs::Elements::Functions(functions[..].into()))
        }
        _ => {
            let ty = v.element_type();
            list = v.list(Values::expression);
            (ours::Elements::Expressions(ty.0, &list.0), theirs::Elements::Expressions(ty.1, list.1[..].into()))
        }
    };
    match v.choice("element mode", 3) {
        0 => {
            there.elements.passive(elements.1);
            ours::elements::passive(elements.0)
        }
        1 => {
            there.elements.declared(elements.1);
            ours::elements::declared(elements.0)
        }
        _ => {
            let (table, offset) = (v.table_index(), v.expression());
            there.elements.active(table, &offset.1, elements.1);
            ours::elements::active(table, &offset.0, elements.0)
        }
    }
}

fn a_datum(v: &mut Values, there: &mut Sections) -> Record {
    let data = v.bytes();
    if v.choice("data mode", 2) == 0 {
        there.data.passive(data.iter().copied());
        return ours::data::passive(&data);
    }
    let (memory, offset) = (v.memory_index(), v.expression());
    there.data.active(memory, &offset.1, data.iter().copied());
    ours::data::active(memory, &offset.0, &data)
}

// Makes a record, and has the crate's section encode the same.
type Make = fn(&mut Values, &mut Sections) -> Record;

const ITEMS: [(SectionId, Make); 5] =
    [(SectionId::Type, a_type), (SectionId::Import, an_import), (SectionId::Table, a_table), (SectionId::Element, a_segment), (SectionId::Data, a_datum)];

// Which section, and the first byte of the item, which tells its form.
type Begun = BTreeSet<(u8, u8)>;

// Some records, an order list and a data count: how many records, if the modules are the same.
fn module(v: &mut Values, begun: &mut Begun) -> usize {
    let (mut store, mut there) = (Store::new(1 << 20), Sections::default());
    let records = v.below(12);
    for _ in 0..records {
        let (id, make) = ITEMS[v.choice("section", ITEMS.len())];
        let (record, at) = (make(v, &mut there), store.used().len());
        store.add_record(&record).unwrap_or_else(|refusal| panic!("{refusal}: {record:?}"));
        begun.insert((id as u8, store.used()[at + FRAME_HEAD]));
    }
    let ids = ITEMS.map(|(id, _)| id as u8).into_iter().chain([SectionId::DataCount.into()]).collect::<Vec<u8>>();
    let order: Vec<u8> = (0..v.below(MAX_ORDER + 1)).map(|_| ids[v.choice("order", ids.len())]).collect();
    let count = v.index();
    assert_eq!(store.finish_to_vec(&order, count).unwrap(), there.module(&order, count), "{order:?} of {:02X?}", store.used());
    records
}

// The eight flags of elements, the three of data, and all that a type can begin with.
fn all_begun(begun: &Begun) {
    let types = [0x4C, 0x4D, 0x4E, 0x4F, 0x50, 0x5D, 0x5E, 0x5F, 0x60, 0x65];
    for (id, first) in [(SectionId::Type, &types[..]), (SectionId::Element, &[0, 1, 2, 3, 4, 5, 6, 7]), (SectionId::Data, &[0, 1, 2])] {
        assert!(begun.iter().filter(|(of, _)| *of == id as u8).map(|(_, byte)| byte).eq(first), "{id:?}: {begun:02X?}");
    }
}

#[test]
fn modules_of_built_records() {
    const MODULES: usize = 1000;
    let (mut records, mut begun, mut seen) = (0, Begun::new(), values::Seen::new());
    for seed in 0..seeds() {
        let mut v = Values::new(seed);
        records += (0..MODULES).map(|_| module(&mut v, &mut begun)).sum::<usize>();
        values::join(&mut seen, v.seen);
    }
    println!("builders: {records} records of {} modules, none differs: {seen:?}", seeds() as usize * MODULES);
    all_begun(&begun);
    values::all_seen(&seen);
}

// The constants, each as a parameter's type.
#[test]
fn constants_of_types() {
    macro_rules! pairs {
        ($ty:ident: $($name:ident)*) => { [$((ours::$ty::$name, theirs::$ty::$name)),*] };
    }
    let of_heap = |(our, their)| (ours::RefType { nullable: false, heap_type: our }, theirs::RefType { nullable: false, heap_type: their });
    let of_ref = |(our, their): (ours::RefType, theirs::RefType)| (our.into(), their.into());
    let mut all: Vec<(ours::ValType, theirs::ValType)> = pairs!(HeapType: ANY FUNC EXTERN I31).map(of_heap).map(of_ref).into();
    all.extend(pairs!(RefType: ANYREF EQREF FUNCREF EXTERNREF I31REF ARRAYREF EXNREF).map(of_ref));
    all.extend(pairs!(ValType: FUNCREF EXTERNREF EXNREF));
    for (our, their) in all {
        let (mut store, mut there) = (Store::new(64), Sections::default());
        store.add_record(&ours::types::function([our], [])).unwrap();
        there.types.ty().function([their], []);
        assert_eq!(store.finish_to_vec(&[SectionId::Type as u8], 0).unwrap(), there.module(&[SectionId::Type as u8], 0), "{our:?}");
    }
}
