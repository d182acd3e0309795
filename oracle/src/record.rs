// Document 01, Records: words as a record, or nothing where they are none (answer 2). Spans stay spans; the types are the crate's own.
use wasm_encoder::*;

#[derive(Clone, Copy, Debug, PartialEq)]
pub struct Span {
    pub start: u32,
    pub len: u32,
}

#[derive(Clone, Debug)]
pub enum Mode {
    Passive,
    Declared,
    Active(Option<u32>, Span),
}

#[derive(Clone, Debug)]
pub enum Members {
    Functions(Vec<u32>),
    Expressions(RefType, Vec<Span>),
}

#[derive(Clone, Debug)]
pub enum Record {
    Type { group: bool, subtypes: Vec<SubType> },
    Single(Span, Span, EntityType),
    Compact1(Span, Vec<(Span, EntityType)>),
    Compact2(Span, EntityType, Vec<Span>),
    Table(TableType, Option<Span>),
    Element(Mode, Members),
    Data(Option<(u32, Span)>, Span),
}

#[derive(Clone, Copy, Debug, PartialEq)]
pub enum Kind {
    Name,
    Expression,
    Data,
}

pub const ABSTRACT: [AbstractHeapType; 14] = [
    AbstractHeapType::Func,
    AbstractHeapType::Extern,
    AbstractHeapType::Any,
    AbstractHeapType::None,
    AbstractHeapType::NoExtern,
    AbstractHeapType::NoFunc,
    AbstractHeapType::Eq,
    AbstractHeapType::Struct,
    AbstractHeapType::Array,
    AbstractHeapType::I31,
    AbstractHeapType::Exn,
    AbstractHeapType::NoExn,
    AbstractHeapType::Cont,
    AbstractHeapType::NoCont,
];

impl Record {
    pub fn section(&self) -> u8 {
        match self {
            Record::Type { .. } => 1,
            Record::Single(..) | Record::Compact1(..) | Record::Compact2(..) => 2,
            Record::Table(..) => 4,
            Record::Element(..) => 9,
            Record::Data(..) => 11,
        }
    }

    // Every text of the record, in the order of its words.
    pub fn texts(&self) -> Vec<(Kind, Span)> {
        use Kind::*;
        match self {
            Record::Type { .. } => vec![],
            Record::Single(module, name, _) => vec![(Name, *module), (Name, *name)],
            Record::Compact1(module, items) => std::iter::once(*module).chain(items.iter().map(|i| i.0)).map(|s| (Name, s)).collect(),
            Record::Compact2(module, _, names) => std::iter::once(*module).chain(names.iter().copied()).map(|s| (Name, s)).collect(),
            Record::Table(_, init) => init.iter().map(|s| (Expression, *s)).collect(),
            Record::Element(mode, members) => {
                let mut all = vec![];
                if let Mode::Active(_, offset) = mode {
                    all.push((Expression, *offset));
                }
                if let Members::Expressions(_, spans) = members {
                    all.extend(spans.iter().map(|s| (Expression, *s)));
                }
                all
            }
            Record::Data(active, data) => {
                let mut all: Vec<_> = active.iter().map(|(_, offset)| (Expression, *offset)).collect();
                all.push((Data, *data));
                all
            }
        }
    }
}

// All words, and no more than 4,096 of them.
pub fn parse(words: &[u32]) -> Option<Record> {
    if words.len() > 4096 {
        return None;
    }
    let mut w = Words { words, at: 0 };
    let record = w.record()?;
    (w.at == words.len()).then_some(record)
}

struct Words<'a> {
    words: &'a [u32],
    at: usize,
}

impl Words<'_> {
    fn word(&mut self) -> Option<u32> {
        let w = *self.words.get(self.at)?;
        self.at += 1;
        Some(w)
    }

    fn below(&mut self, n: u32) -> Option<u32> {
        self.word().filter(|w| *w < n)
    }

    fn flag(&mut self) -> Option<bool> {
        Some(self.below(2)? == 1)
    }

    fn unused(&mut self) -> Option<()> {
        self.below(1).map(|_| ())
    }

    fn long(&mut self) -> Option<u64> {
        let low = self.word()?;
        Some(u64::from(self.word()?) << 32 | u64::from(low))
    }

    fn span(&mut self) -> Option<Span> {
        Some(Span { start: self.word()?, len: self.word()? })
    }

    fn list<T>(&mut self, member: impl Fn(&mut Self) -> Option<T>) -> Option<Vec<T>> {
        let count = self.word()?;
        let mut all = vec![];
        for _ in 0..count {
            all.push(member(self)?);
        }
        Some(all)
    }

    // An index that is there only if its flag is set, and 0 otherwise.
    fn optional(&mut self) -> Option<Option<u32>> {
        if self.flag()? {
            Some(Some(self.word()?))
        } else {
            self.unused()?;
            Some(None)
        }
    }

    fn reference(&mut self) -> Option<RefType> {
        let h = self.below(64)?;
        let (kind, nullable, shared) = (h & 15, h >> 4 & 1 == 1, h >> 5 & 1 == 1);
        let heap_type = if kind < 14 {
            self.unused()?;
            HeapType::Abstract { shared, ty: ABSTRACT[kind as usize] }
        } else {
            if shared {
                return None;
            }
            let index = self.word()?;
            if kind == 14 { HeapType::Concrete(index) } else { HeapType::Exact(index) }
        };
        Some(RefType { nullable, heap_type })
    }

    fn storage(&mut self) -> Option<StorageType> {
        let plain = [ValType::I32, ValType::I64, ValType::F32, ValType::F64, ValType::V128];
        let k = self.below(8)?;
        if k == 5 {
            return Some(StorageType::Val(ValType::Ref(self.reference()?)));
        }
        self.unused()?;
        self.unused()?;
        Some(match k {
            6 => StorageType::I8,
            7 => StorageType::I16,
            _ => StorageType::Val(plain[k as usize]),
        })
    }

    fn value(&mut self) -> Option<ValType> {
        match self.storage()? {
            StorageType::Val(v) => Some(v),
            _ => None,
        }
    }

    fn field(&mut self) -> Option<FieldType> {
        Some(FieldType { element_type: self.storage()?, mutable: self.flag()? })
    }

    fn subtype(&mut self) -> Option<SubType> {
        let is_final = self.flag()?;
        let supertype_idxs = self.list(Self::word)?;
        let shared = self.flag()?;
        let describes = self.optional()?;
        let descriptor = self.optional()?;
        let inner = match self.below(4)? {
            0 => {
                let params = self.list(Self::value)?;
                CompositeInnerType::Func(FuncType::new(params, self.list(Self::value)?))
            }
            1 => CompositeInnerType::Array(ArrayType(self.field()?)),
            2 => CompositeInnerType::Struct(StructType { fields: self.list(Self::field)?.into() }),
            _ => CompositeInnerType::Cont(ContType(self.word()?)),
        };
        Some(SubType { is_final, supertype_idxs, composite_type: CompositeType { inner, shared, descriptor, describes } })
    }

    // flags, minimum, maximum: 64-bit flag, shared flag, minimum, maximum
    fn limits(&mut self) -> Option<(bool, bool, u64, Option<u64>)> {
        let flags = self.below(8)?;
        let minimum = self.long()?;
        let maximum = self.long()?;
        let has = flags & 1 == 1;
        if !has && maximum != 0 {
            return None;
        }
        Some((flags & 4 != 0, flags & 2 != 0, minimum, has.then_some(maximum)))
    }

    fn table(&mut self) -> Option<TableType> {
        let element_type = self.reference()?;
        let (table64, shared, minimum, maximum) = self.limits()?;
        Some(TableType { element_type, table64, minimum, maximum, shared })
    }

    fn entity(&mut self) -> Option<EntityType> {
        Some(match self.word()? {
            0 => EntityType::Function(self.word()?),
            32 => EntityType::FunctionExact(self.word()?),
            1 => EntityType::Table(self.table()?),
            2 => {
                let (memory64, shared, minimum, maximum) = self.limits()?;
                EntityType::Memory(MemoryType { minimum, maximum, memory64, shared, page_size_log2: None })
            }
            3 => EntityType::Global(GlobalType { val_type: self.value()?, mutable: self.flag()?, shared: false }),
            4 => EntityType::Tag(TagType { kind: TagKind::Exception, func_type_idx: self.word()? }),
            _ => return None,
        })
    }

    fn element(&mut self) -> Option<Record> {
        let mode = self.below(3)?;
        let table = self.optional()?;
        let offset = self.span()?;
        let mode = match mode {
            2 => Mode::Active(table, offset),
            _ if table.is_some() || offset != (Span { start: 0, len: 0 }) => return None,
            0 => Mode::Passive,
            _ => Mode::Declared,
        };
        let members = if self.flag()? {
            let ty = self.reference()?;
            Members::Expressions(ty, self.list(Self::span)?)
        } else {
            self.unused()?;
            self.unused()?;
            Members::Functions(self.list(Self::word)?)
        };
        Some(Record::Element(mode, members))
    }

    fn record(&mut self) -> Option<Record> {
        match self.word()? {
            1 => {
                let group = self.flag()?;
                let subtypes = self.list(Self::subtype)?;
                (group || subtypes.len() == 1).then_some(Record::Type { group, subtypes })
            }
            2 => match self.word()? {
                0 => Some(Record::Single(self.span()?, self.span()?, self.entity()?)),
                1 => Some(Record::Compact1(self.span()?, self.list(|w| Some((w.span()?, w.entity()?)))?)),
                2 => Some(Record::Compact2(self.span()?, self.entity()?, self.list(Self::span)?)),
                _ => None,
            },
            4 => {
                let init = self.flag()?;
                let ty = self.table()?;
                let span = self.span()?;
                if !init && span != (Span { start: 0, len: 0 }) {
                    return None;
                }
                Some(Record::Table(ty, init.then_some(span)))
            }
            9 => self.element(),
            11 => {
                let active = self.flag()?;
                let memory = self.word()?;
                let offset = self.span()?;
                if !active && (memory != 0 || offset != (Span { start: 0, len: 0 })) {
                    return None;
                }
                let data = self.span()?;
                Some(Record::Data(active.then_some((memory, offset)), data))
            }
            _ => None,
        }
    }
}
