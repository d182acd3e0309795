//! The type section: a subtype alone, or a group of them, which counts as one item.
use super::{FieldType, Put, Record, StorageType, ValType};
use crate::SectionId;
use alloc::vec::Vec;
use core::slice;

/// A type with what stands before it: whether it is final, and its supertypes.
#[derive(Debug, Clone, PartialEq, Eq, Hash)]
pub struct SubType {
    pub is_final: bool,
    pub supertype_idxs: Vec<u32>,
    pub composite_type: CompositeType,
}

// Final, without supertypes: what has no prefix in bytes.
impl From<CompositeType> for SubType {
    fn from(composite_type: CompositeType) -> SubType {
        SubType { is_final: true, supertype_idxs: Vec::new(), composite_type }
    }
}

/// A composite type, shared or not, with the indices that it describes and is described by.
#[derive(Debug, Clone, PartialEq, Eq, Hash)]
pub struct CompositeType {
    pub inner: CompositeInnerType,
    pub shared: bool,
    pub descriptor: Option<u32>,
    pub describes: Option<u32>,
}

impl From<CompositeInnerType> for CompositeType {
    fn from(inner: CompositeInnerType) -> CompositeType {
        CompositeType { inner, shared: false, descriptor: None, describes: None }
    }
}

#[derive(Debug, Clone, PartialEq, Eq, Hash)]
pub enum CompositeInnerType {
    Func(FuncType),
    Array(ArrayType),
    Struct(StructType),
    Cont(ContType),
}

/// A function's type.
#[derive(Debug, Clone, PartialEq, Eq, Hash)]
pub struct FuncType {
    pub params: Vec<ValType>,
    pub results: Vec<ValType>,
}

impl FuncType {
    pub fn new(params: impl IntoIterator<Item = ValType>, results: impl IntoIterator<Item = ValType>) -> FuncType {
        FuncType { params: params.into_iter().collect(), results: results.into_iter().collect() }
    }
}

/// An array's type.
#[derive(Debug, Clone, Copy, PartialEq, Eq, Hash)]
pub struct ArrayType(pub FieldType);

/// A structure's type.
#[derive(Debug, Clone, PartialEq, Eq, Hash)]
pub struct StructType {
    pub fields: Vec<FieldType>,
}

/// A continuation's type: the index of its function's.
#[derive(Debug, Clone, Copy, PartialEq, Eq, Hash)]
pub struct ContType(pub u32);

/// A function type, by itself.
pub fn function(params: impl IntoIterator<Item = ValType>, results: impl IntoIterator<Item = ValType>) -> Record {
    plain(CompositeInnerType::Func(FuncType::new(params, results)))
}

/// An array type, by itself.
pub fn array(element_type: StorageType, mutable: bool) -> Record {
    plain(CompositeInnerType::Array(ArrayType(FieldType { element_type, mutable })))
}

/// A structure type, by itself.
pub fn struct_(fields: impl IntoIterator<Item = FieldType>) -> Record {
    plain(CompositeInnerType::Struct(StructType { fields: fields.into_iter().collect() }))
}

/// A continuation type, by itself.
pub fn cont(ty: ContType) -> Record {
    plain(CompositeInnerType::Cont(ty))
}

fn plain(inner: CompositeInnerType) -> Record {
    subtype(&CompositeType::from(inner).into())
}

/// A subtype, by itself.
pub fn subtype(ty: &SubType) -> Record {
    record(false, slice::from_ref(ty))
}

/// A group of subtypes.
pub fn rec(types: &[SubType]) -> Record {
    record(true, types)
}

fn record(group: bool, types: &[SubType]) -> Record {
    Record::new(SectionId::Type).with(&group).with(types)
}

impl Put for SubType {
    fn put(&self, record: &mut Record) {
        self.is_final.put(record);
        self.supertype_idxs[..].put(record);
        self.composite_type.put(record);
    }
}

impl Put for CompositeType {
    fn put(&self, record: &mut Record) {
        self.shared.put(record);
        self.describes.put(record);
        self.descriptor.put(record);
        self.inner.put(record);
    }
}

impl Put for CompositeInnerType {
    fn put(&self, record: &mut Record) {
        let kind = match self {
            CompositeInnerType::Func(_) => 0,
            CompositeInnerType::Array(_) => 1,
            CompositeInnerType::Struct(_) => 2,
            CompositeInnerType::Cont(_) => 3,
        };
        record.push(&[kind]);
        match self {
            CompositeInnerType::Func(ty) => {
                ty.params[..].put(record);
                ty.results[..].put(record);
            }
            CompositeInnerType::Array(ArrayType(field)) => field.put(record),
            CompositeInnerType::Struct(ty) => ty.fields[..].put(record),
            CompositeInnerType::Cont(ContType(index)) => index.put(record),
        }
    }
}
