// Heap, reference, value, storage and field types, which the sections share.
use super::{Put, Record, NO_REFERENCE};

/// An abstract heap type, in the order of document 01's kinds.
#[derive(Debug, Clone, Copy, PartialEq, Eq, Hash)]
pub enum AbstractHeapType {
    Func,
    Extern,
    Any,
    None,
    NoExtern,
    NoFunc,
    Eq,
    Struct,
    Array,
    I31,
    Exn,
    NoExn,
    Cont,
    NoCont,
}

/// A heap type: an abstract one, or one by its index.
#[derive(Debug, Clone, Copy, PartialEq, Eq, Hash)]
pub enum HeapType {
    Abstract { shared: bool, ty: AbstractHeapType },
    Concrete(u32),
    Exact(u32),
}

impl HeapType {
    pub const ANY: HeapType = unshared(AbstractHeapType::Any);
    pub const FUNC: HeapType = unshared(AbstractHeapType::Func);
    pub const EXTERN: HeapType = unshared(AbstractHeapType::Extern);
    pub const I31: HeapType = unshared(AbstractHeapType::I31);
}

const fn unshared(ty: AbstractHeapType) -> HeapType {
    HeapType::Abstract { shared: false, ty }
}

/// A reference type.
#[derive(Debug, Clone, Copy, PartialEq, Eq, Hash)]
pub struct RefType {
    pub nullable: bool,
    pub heap_type: HeapType,
}

impl RefType {
    pub const ANYREF: RefType = nullable(AbstractHeapType::Any);
    pub const EQREF: RefType = nullable(AbstractHeapType::Eq);
    pub const FUNCREF: RefType = nullable(AbstractHeapType::Func);
    pub const EXTERNREF: RefType = nullable(AbstractHeapType::Extern);
    pub const I31REF: RefType = nullable(AbstractHeapType::I31);
    pub const ARRAYREF: RefType = nullable(AbstractHeapType::Array);
    pub const EXNREF: RefType = nullable(AbstractHeapType::Exn);

    pub fn new_abstract(ty: AbstractHeapType, nullable: bool, shared: bool) -> RefType {
        RefType { nullable, heap_type: HeapType::Abstract { shared, ty } }
    }
}

const fn nullable(ty: AbstractHeapType) -> RefType {
    RefType { nullable: true, heap_type: unshared(ty) }
}

// Word h: the kind in its low bits, and two flags; word x: the index.
impl Put for RefType {
    fn put(&self, record: &mut Record) {
        const NULLABLE: u32 = 4;
        const SHARED: u32 = 5;
        let (kind, shared, index) = match self.heap_type {
            HeapType::Abstract { shared, ty } => (ty as u32, shared, 0),
            HeapType::Concrete(index) => (14, false, index),
            HeapType::Exact(index) => (15, false, index),
        };
        record.push(&[kind | u32::from(self.nullable) << NULLABLE | u32::from(shared) << SHARED, index]);
    }
}

/// A value type.
#[derive(Debug, Clone, Copy, PartialEq, Eq, Hash)]
pub enum ValType {
    I32,
    I64,
    F32,
    F64,
    V128,
    Ref(RefType),
}

impl ValType {
    pub const FUNCREF: ValType = ValType::Ref(RefType::FUNCREF);
    pub const EXTERNREF: ValType = ValType::Ref(RefType::EXTERNREF);
    pub const EXNREF: ValType = ValType::Ref(RefType::EXNREF);
}

impl From<RefType> for ValType {
    fn from(ty: RefType) -> ValType {
        ValType::Ref(ty)
    }
}

impl Put for ValType {
    fn put(&self, record: &mut Record) {
        StorageType::Val(*self).put(record);
    }
}

/// A field's type: a value type, or a packed one.
#[derive(Debug, Clone, Copy, PartialEq, Eq, Hash)]
pub enum StorageType {
    I8,
    I16,
    Val(ValType),
}

// Word k, and a reference or the words of none.
impl Put for StorageType {
    fn put(&self, record: &mut Record) {
        let (k, reference) = match self {
            StorageType::Val(ValType::I32) => (0, None),
            StorageType::Val(ValType::I64) => (1, None),
            StorageType::Val(ValType::F32) => (2, None),
            StorageType::Val(ValType::F64) => (3, None),
            StorageType::Val(ValType::V128) => (4, None),
            StorageType::Val(ValType::Ref(ty)) => (5, Some(ty)),
            StorageType::I8 => (6, None),
            StorageType::I16 => (7, None),
        };
        record.push(&[k]);
        match reference {
            Some(ty) => ty.put(record),
            None => record.push(NO_REFERENCE),
        }
    }
}

/// A field of a structure or an array.
#[derive(Debug, Clone, Copy, PartialEq, Eq, Hash)]
pub struct FieldType {
    pub element_type: StorageType,
    pub mutable: bool,
}

impl Put for FieldType {
    fn put(&self, record: &mut Record) {
        self.element_type.put(record);
        self.mutable.put(record);
    }
}
