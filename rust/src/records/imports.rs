//! The import section: one import, or several of one module in the two compact forms; and the types of what is imported.
use super::tables::Limits;
use super::{Put, Record, TableType, ValType};
use crate::SectionId;

/// A memory's type.
#[derive(Debug, Clone, Copy, PartialEq, Eq, Hash)]
pub struct MemoryType {
    pub minimum: u64,
    pub maximum: Option<u64>,
    pub memory64: bool,
    pub shared: bool,
}

/// A global's type.
#[derive(Debug, Clone, Copy, PartialEq, Eq, Hash)]
pub struct GlobalType {
    pub val_type: ValType,
    pub mutable: bool,
}

/// A tag's type: the index of its function's.
#[derive(Debug, Clone, Copy, PartialEq, Eq, Hash)]
pub struct TagType {
    pub func_type_idx: u32,
}

/// What is imported; a function by its type's index.
#[derive(Debug, Clone, Copy, PartialEq, Eq, Hash)]
pub enum EntityType {
    Function(u32),
    Table(TableType),
    Memory(MemoryType),
    Global(GlobalType),
    Tag(TagType),
    FunctionExact(u32),
}

impl From<TableType> for EntityType {
    fn from(ty: TableType) -> EntityType {
        EntityType::Table(ty)
    }
}

impl From<MemoryType> for EntityType {
    fn from(ty: MemoryType) -> EntityType {
        EntityType::Memory(ty)
    }
}

impl From<GlobalType> for EntityType {
    fn from(ty: GlobalType) -> EntityType {
        EntityType::Global(ty)
    }
}

impl From<TagType> for EntityType {
    fn from(ty: TagType) -> EntityType {
        EntityType::Tag(ty)
    }
}

/// One import.
#[derive(Debug, Clone, Copy, PartialEq, Eq)]
pub struct Import<'a> {
    pub module: &'a str,
    pub name: &'a str,
    pub ty: EntityType,
}

/// An import of a module that is named once for all.
#[derive(Debug, Clone, Copy, PartialEq, Eq)]
pub struct ImportCompact<'a> {
    pub name: &'a str,
    pub ty: EntityType,
}

/// An item of the import section. The compact forms have the module once, the second the type too.
#[derive(Debug, Clone, Copy, PartialEq, Eq)]
pub enum Imports<'a> {
    Single(Import<'a>),
    Compact1 { module: &'a str, items: &'a [ImportCompact<'a>] },
    Compact2 { module: &'a str, ty: EntityType, names: &'a [&'a str] },
}

/// One import, by itself.
pub fn import(module: &str, name: &str, ty: impl Into<EntityType>) -> Record {
    imports(Imports::Single(Import { module, name, ty: ty.into() }))
}

/// An item of any form.
pub fn imports(imports: Imports) -> Record {
    Record::new(SectionId::Import).with(&imports)
}

impl Put for Imports<'_> {
    fn put(&self, record: &mut Record) {
        let (form, module) = match self {
            Imports::Single(import) => (0, import.module),
            Imports::Compact1 { module, .. } => (1, *module),
            Imports::Compact2 { module, .. } => (2, *module),
        };
        record.push(&[form]);
        module.put(record);
        match self {
            Imports::Single(Import { name, ty, .. }) => ImportCompact { name, ty: *ty }.put(record),
            Imports::Compact1 { items, .. } => items.put(record),
            Imports::Compact2 { ty, names, .. } => {
                ty.put(record);
                names.put(record);
            }
        }
    }
}

impl Put for ImportCompact<'_> {
    fn put(&self, record: &mut Record) {
        self.name.put(record);
        self.ty.put(record);
    }
}

impl Put for EntityType {
    fn put(&self, record: &mut Record) {
        let sort = match self {
            EntityType::Function(_) => 0,
            EntityType::Table(_) => 1,
            EntityType::Memory(_) => 2,
            EntityType::Global(_) => 3,
            EntityType::Tag(_) => 4,
            EntityType::FunctionExact(_) => 32,
        };
        record.push(&[sort]);
        match self {
            EntityType::Function(index) | EntityType::FunctionExact(index) => index.put(record),
            EntityType::Table(ty) => ty.put(record),
            EntityType::Memory(ty) => ty.put(record),
            EntityType::Global(ty) => ty.put(record),
            EntityType::Tag(ty) => ty.func_type_idx.put(record),
        }
    }
}

impl Put for MemoryType {
    fn put(&self, record: &mut Record) {
        Limits { minimum: self.minimum, maximum: self.maximum, shared: self.shared, wide: self.memory64 }.put(record);
    }
}

impl Put for GlobalType {
    fn put(&self, record: &mut Record) {
        self.val_type.put(record);
        self.mutable.put(record);
    }
}
