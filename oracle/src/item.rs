// A record's item, written by the crate: a section of the one item, less its framing. And answers 2 to 6.
use crate::record::{self, Kind, Members, Mode, Record, Span};
use crate::text;
use std::borrow::Cow;
use wasm_encoder::*;

pub fn bytes_of<'a>(text: &'a [u8], s: Span) -> Option<&'a [u8]> {
    let end = (s.start as usize).checked_add(s.len as usize)?;
    text.get(s.start as usize..end)
}

// Answers 2 to 6, lowest first; else the record.
pub fn judge(words: &[u32], text: &[u8]) -> Result<(Record, Vec<u8>), u8> {
    let record = record::parse(words).ok_or(2)?;
    if text.len() > 65536 {
        return Err(3);
    }
    let mut found = vec![];
    for (kind, span) in record.texts() {
        found.push((kind, bytes_of(text, span).ok_or(3)?));
    }
    if found.iter().any(|(kind, b)| *kind == Kind::Name && !text::is_name(b)) {
        return Err(4);
    }
    if found.iter().any(|(kind, b)| *kind == Kind::Expression && !text::is_expression(b)) {
        return Err(5);
    }
    let item = encode(&record, text);
    if item.len() > 65536 {
        return Err(6);
    }
    Ok((record, item))
}

pub fn encode(record: &Record, text: &[u8]) -> Vec<u8> {
    let mut sections = Sections::default();
    sections.add(record, text);
    let mut framed = vec![];
    match record.section() {
        1 => sections.types.encode(&mut framed),
        2 => sections.imports.encode(&mut framed),
        4 => sections.tables.encode(&mut framed),
        9 => sections.elements.encode(&mut framed),
        _ => sections.data.encode(&mut framed),
    }
    let size = framed.iter().position(|b| *b < 0x80).unwrap() + 1;
    assert_eq!(framed[size], 1, "a section of one item");
    framed.split_off(size + 1)
}

// The crate's builders, one for each section with items.
#[derive(Default)]
pub struct Sections {
    pub types: TypeSection,
    pub imports: ImportSection,
    pub tables: TableSection,
    pub elements: ElementSection,
    pub data: DataSection,
}

impl Sections {
    // The texts are there and are as they must be: `judge` has seen them.
    pub fn add(&mut self, record: &Record, text: &[u8]) {
        let name = |s: &Span| std::str::from_utf8(bytes_of(text, *s).unwrap()).unwrap();
        // `ConstExpr` appends the last 0B itself
        let expression = |s: &Span| {
            let b = bytes_of(text, *s).unwrap();
            ConstExpr::raw(b[..b.len() - 1].iter().copied())
        };
        match record {
            Record::Type { group: true, subtypes } => self.types.ty().rec(subtypes.clone()),
            Record::Type { group: false, subtypes } => self.types.ty().subtype(&subtypes[0]),
            Record::Single(m, n, ty) => {
                self.imports.import(name(m), name(n), *ty);
            }
            Record::Compact1(m, items) => {
                let items: Vec<_> = items.iter().map(|(n, ty)| ImportCompact { name: name(n), ty: *ty }).collect();
                self.imports.imports(Imports::Compact1 { module: name(m), items: Cow::Owned(items) });
            }
            Record::Compact2(m, ty, names) => {
                let names: Vec<_> = names.iter().map(name).collect();
                self.imports.imports(Imports::Compact2 { module: name(m), ty: *ty, names: Cow::Owned(names) });
            }
            Record::Table(ty, None) => {
                self.tables.table(*ty);
            }
            Record::Table(ty, Some(init)) => {
                self.tables.table_with_init(*ty, &expression(init));
            }
            Record::Element(mode, members) => {
                let elements = match members {
                    Members::Functions(fs) => Elements::Functions(Cow::Borrowed(fs)),
                    Members::Expressions(ty, spans) => Elements::Expressions(*ty, spans.iter().map(expression).collect()),
                };
                match mode {
                    Mode::Passive => self.elements.passive(elements),
                    Mode::Declared => self.elements.declared(elements),
                    Mode::Active(table, offset) => self.elements.active(*table, &expression(offset), elements),
                };
            }
            Record::Data(active, data) => {
                let data = bytes_of(text, *data).unwrap().iter().copied();
                match active {
                    None => self.data.passive(data),
                    Some((memory, offset)) => self.data.active(*memory, &expression(offset), data),
                };
            }
        }
    }

    pub fn module(&self, order: &[u8], count: u32) -> Vec<u8> {
        let mut module = Module::new();
        for id in order {
            match id {
                1 => module.section(&self.types),
                2 => module.section(&self.imports),
                4 => module.section(&self.tables),
                9 => module.section(&self.elements),
                11 => module.section(&self.data),
                _ => module.section(&DataCountSection { count }),
            };
        }
        module.finish()
    }
}

pub fn good_order(order: &[u8]) -> bool {
    order.len() <= 32 && order.iter().all(|id| [1, 2, 4, 9, 11, 12].contains(id))
}
