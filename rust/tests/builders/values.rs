// Random values of every kind, each as a pair: the builders' and wasm-encoder's.
use crate::random::Random;
use crate::{ours, theirs};
use std::collections::BTreeMap;

/// How often each alternative of each choice was taken. What is chosen is used.
pub type Seen = BTreeMap<&'static str, Vec<usize>>;

pub fn join(all: &mut Seen, more: Seen) {
    for (what, counts) in more {
        let sum = all.entry(what).or_insert_with(|| vec![0; counts.len()]);
        sum.iter_mut().zip(counts).for_each(|(sum, n)| *sum += n);
    }
}

// Every choice that is made here and in main.rs, and how many alternatives it has.
const CHOICES: [(&str, usize); 22] = [
    ("composite", 4), ("data mode", 2), ("element mode", 3), ("element type", 2), ("elements", 2), ("entity", 6), ("expression", 9), ("final", 2), ("heap", 30),
    ("import", 3), ("initial value", 2), ("instruction", 13), ("limits", 8), ("maybe", 2), ("mutable", 2), ("nullable", 2), ("order", 6), ("section", 5),
    ("shared", 2), ("storage", 3), ("type", 6), ("value", 6),
];

pub fn all_seen(seen: &Seen) {
    assert!(seen.iter().map(|(what, counts)| (*what, counts.len())).eq(CHOICES), "{:?}", seen.keys());
    assert!(seen.values().flatten().all(|n| *n > 0), "{seen:?}");
}

macro_rules! abstract_types {
    ($($name:ident)*) => { [$((ours::AbstractHeapType::$name, theirs::AbstractHeapType::$name)),*] };
}

const ABSTRACT: [(ours::AbstractHeapType, theirs::AbstractHeapType); 14] =
    abstract_types!(Func Extern Any None NoExtern NoFunc Eq Struct Array I31 Exn NoExn Cont NoCont);

pub fn borrowed(names: &[String]) -> impl Iterator<Item = &str> {
    names.iter().map(String::as_str)
}

pub struct Values {
    random: Random,
    pub seen: Seen,
}

type Pair<A, B> = (A, B);

impl Values {
    pub fn new(seed: u64) -> Values {
        let mut random = Random(seed.wrapping_mul(0x9E37_79B9_7F4A_7C15) | 1);
        (0..8).for_each(|_| _ = random.next());
        Values { random, seen: Seen::new() }
    }

    pub fn below(&mut self, n: usize) -> usize {
        self.random.below(n)
    }

    /// One of so many alternatives, counted.
    pub fn choice(&mut self, what: &'static str, n: usize) -> usize {
        let taken = self.below(n);
        self.seen.entry(what).or_insert_with(|| vec![0; n])[taken] += 1;
        taken
    }

    fn flag(&mut self, what: &'static str) -> bool {
        self.choice(what, 2) == 1
    }

    /// Of every length in bits.
    pub fn index(&mut self) -> u32 {
        self.long() as u32 >> self.below(32)
    }

    fn long(&mut self) -> u64 {
        self.random.next() >> self.below(64)
    }

    fn maybe(&mut self) -> Option<u32> {
        let index = self.index();
        self.flag("maybe").then_some(index)
    }

    /// 0 as often as another.
    pub fn memory_index(&mut self) -> u32 {
        self.maybe().unwrap_or(0)
    }

    /// None, 0 or another.
    pub fn table_index(&mut self) -> Option<u32> {
        let index = self.memory_index();
        self.flag("maybe").then_some(index)
    }

    pub fn list<A, B>(&mut self, member: fn(&mut Values) -> Pair<A, B>) -> Pair<Vec<A>, Vec<B>> {
        let most = if self.below(20) == 0 { 40 } else { 4 };
        (0..self.below(most)).map(|_| member(self)).unzip()
    }

    pub fn indices(&mut self) -> Pair<u32, u32> {
        let index = self.index();
        (index, index)
    }

    pub fn name(&mut self) -> String {
        (0..self.below(5)).map(|_| ["a", "é", "油", "𝟘", "pump.limit."][self.below(5)]).collect()
    }

    pub fn names(&mut self) -> Vec<String> {
        (0..self.below(4)).map(|_| self.name()).collect()
    }

    pub fn bytes(&mut self) -> Vec<u8> {
        let most = if self.below(20) == 0 { 300 } else { 8 };
        (0..self.below(most)).map(|_| self.random.next() as u8).collect()
    }

    // ---- types

    fn heap(&mut self) -> Pair<ours::HeapType, theirs::HeapType> {
        let index = self.index();
        match self.choice("heap", 2 + 2 * ABSTRACT.len()) {
            0 => (ours::HeapType::Concrete(index), theirs::HeapType::Concrete(index)),
            1 => (ours::HeapType::Exact(index), theirs::HeapType::Exact(index)),
            i => {
                let (shared, ty) = (i % 2 == 1, ABSTRACT[i / 2 - 1]);
                (ours::HeapType::Abstract { shared, ty: ty.0 }, theirs::HeapType::Abstract { shared, ty: ty.1 })
            }
        }
    }

    fn reference(&mut self) -> Pair<ours::RefType, theirs::RefType> {
        let (nullable, heap) = (self.flag("nullable"), self.heap());
        (ours::RefType { nullable, heap_type: heap.0 }, theirs::RefType { nullable, heap_type: heap.1 })
    }

    /// The type that needs no flag as often as another.
    pub fn element_type(&mut self) -> Pair<ours::RefType, theirs::RefType> {
        if self.flag("element type") { self.reference() } else { (ours::RefType::FUNCREF, theirs::RefType::FUNCREF) }
    }

    pub fn val_type(&mut self) -> Pair<ours::ValType, theirs::ValType> {
        match self.choice("value", 6) {
            0 => (ours::ValType::I32, theirs::ValType::I32),
            1 => (ours::ValType::I64, theirs::ValType::I64),
            2 => (ours::ValType::F32, theirs::ValType::F32),
            3 => (ours::ValType::F64, theirs::ValType::F64),
            4 => (ours::ValType::V128, theirs::ValType::V128),
            _ => {
                let ty = self.reference();
                (ty.0.into(), ty.1.into())
            }
        }
    }

    pub fn field(&mut self) -> Pair<ours::FieldType, theirs::FieldType> {
        let mutable = self.flag("mutable");
        let ty = match self.choice("storage", 3) {
            0 => (ours::StorageType::I8, theirs::StorageType::I8),
            1 => (ours::StorageType::I16, theirs::StorageType::I16),
            _ => {
                let ty = self.val_type();
                (ours::StorageType::Val(ty.0), theirs::StorageType::Val(ty.1))
            }
        };
        (ours::FieldType { element_type: ty.0, mutable }, theirs::FieldType { element_type: ty.1, mutable })
    }

    fn composite(&mut self) -> Pair<ours::CompositeInnerType, theirs::CompositeInnerType> {
        use {ours::CompositeInnerType as Our, theirs::CompositeInnerType as Their};
        match self.choice("composite", 4) {
            0 => {
                let (params, results) = (self.list(Values::val_type), self.list(Values::val_type));
                (Our::Func(ours::FuncType::new(params.0, results.0)), Their::Func(theirs::FuncType::new(params.1, results.1)))
            }
            1 => {
                let field = self.field();
                (Our::Array(ours::ArrayType(field.0)), Their::Array(theirs::ArrayType(field.1)))
            }
            2 => {
                let fields = self.list(Values::field);
                (Our::Struct(ours::StructType { fields: fields.0 }), Their::Struct(theirs::StructType { fields: fields.1.into() }))
            }
            _ => {
                let index = self.index();
                (Our::Cont(ours::ContType(index)), Their::Cont(theirs::ContType(index)))
            }
        }
    }

    pub fn subtype(&mut self) -> Pair<ours::SubType, theirs::SubType> {
        let (is_final, shared, describes, descriptor) = (self.flag("final"), self.flag("shared"), self.maybe(), self.maybe());
        let supertype_idxs = self.list(Values::indices).0;
        let inner = self.composite();
        let composite_type = ours::CompositeType { inner: inner.0, shared, descriptor, describes };
        let our = ours::SubType { is_final, supertype_idxs: supertype_idxs.clone(), composite_type };
        let composite_type = theirs::CompositeType { inner: inner.1, shared, descriptor, describes };
        (our, theirs::SubType { is_final, supertype_idxs, composite_type })
    }

    // ---- tables, and what is imported

    // Minimum, maximum, whether shared, and whether of 64 bits.
    fn limits(&mut self) -> (u64, Option<u64>, bool, bool) {
        let (flags, minimum, most) = (self.choice("limits", 8), self.long(), self.long());
        (minimum, (flags & 1 != 0).then_some(most), flags & 2 != 0, flags & 4 != 0)
    }

    pub fn table(&mut self) -> Pair<ours::TableType, theirs::TableType> {
        let (ty, (minimum, maximum, shared, table64)) = (self.reference(), self.limits());
        let our = ours::TableType { element_type: ty.0, table64, minimum, maximum, shared };
        (our, theirs::TableType { element_type: ty.1, table64, minimum, maximum, shared })
    }

    // Custom page sizes and shared globals are not built.
    pub fn entity(&mut self) -> Pair<ours::EntityType, theirs::EntityType> {
        let index = self.index();
        match self.choice("entity", 6) {
            0 => (ours::EntityType::Function(index), theirs::EntityType::Function(index)),
            1 => (ours::EntityType::FunctionExact(index), theirs::EntityType::FunctionExact(index)),
            2 => {
                let table = self.table();
                (table.0.into(), table.1.into())
            }
            3 => {
                let (minimum, maximum, shared, memory64) = self.limits();
                let our = ours::MemoryType { minimum, maximum, memory64, shared };
                (our.into(), theirs::MemoryType { minimum, maximum, memory64, shared, page_size_log2: None }.into())
            }
            4 => {
                let (ty, mutable) = (self.val_type(), self.flag("mutable"));
                (ours::GlobalType { val_type: ty.0, mutable }.into(), theirs::GlobalType { val_type: ty.1, mutable, shared: false }.into())
            }
            _ => {
                let their = theirs::TagType { kind: theirs::TagKind::Exception, func_type_idx: index };
                (ours::TagType { func_type_idx: index }.into(), their.into())
            }
        }
    }
}

// ---- expressions

type Expressions = Pair<ours::ConstExpr, theirs::ConstExpr>;

macro_rules! both {
    ($name:ident($v:expr)) => {
        (ours::ConstExpr::$name($v), theirs::ConstExpr::$name($v))
    };
    ($pair:ident.$name:ident($($v:expr)?)) => {
        ($pair.0.$name($($v)?), $pair.1.$name($($v)?))
    };
}

impl Values {
    pub fn expression(&mut self) -> Expressions {
        let (v, index, heap) = (self.long(), self.index(), ABSTRACT[self.below(ABSTRACT.len())]);
        let begun = match self.choice("expression", 9) {
            0 => (ours::ConstExpr::empty(), theirs::ConstExpr::empty()),
            1 => both!(raw([0x41, 0xFF, 0x00])),
            2 => both!(i32_const(v as i32)),
            3 => both!(i64_const(v as i64)),
            4 => both!(f32_const(f32::from_bits(v as u32).into())),
            5 => both!(f64_const(f64::from_bits(v).into())),
            6 => both!(global_get(index)),
            7 => both!(ref_func(index)),
            _ => (ours::ConstExpr::ref_null(unshared(heap.0)), theirs::ConstExpr::ref_null(theirs::HeapType::Abstract { shared: false, ty: heap.1 })),
        };
        (0..self.below(3)).fold(begun, |so_far, _| self.go_on(so_far))
    }

    fn go_on(&mut self, so_far: Expressions) -> Expressions {
        let (v, index, heap) = (self.long(), self.index(), ABSTRACT[self.below(ABSTRACT.len())]);
        match self.choice("instruction", 13) {
            0 => both!(so_far.with_i32_const(v as i32)),
            1 => both!(so_far.with_i64_const(v as i64)),
            2 => both!(so_far.with_f32_const(f32::from_bits(v as u32).into())),
            3 => both!(so_far.with_f64_const(f64::from_bits(v).into())),
            4 => both!(so_far.with_global_get(index)),
            5 => both!(so_far.with_ref_func(index)),
            6 => (so_far.0.with_ref_null(unshared(heap.0)), so_far.1.with_ref_null(theirs::HeapType::Abstract { shared: false, ty: heap.1 })),
            7 => both!(so_far.with_i32_add()),
            8 => both!(so_far.with_i32_sub()),
            9 => both!(so_far.with_i32_mul()),
            10 => both!(so_far.with_i64_add()),
            11 => both!(so_far.with_i64_sub()),
            _ => both!(so_far.with_i64_mul()),
        }
    }
}

// The others are refused: tests/records.rs.
fn unshared(ty: ours::AbstractHeapType) -> ours::HeapType {
    ours::HeapType::Abstract { shared: false, ty }
}
