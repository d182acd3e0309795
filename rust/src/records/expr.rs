// Constant expressions, as ready bytes.
use super::{AbstractHeapType, HeapType, Put, Record, Span};
use crate::limits::MAX_NUMBER_64;
use crate::{encode_i32, encode_i64, encode_index, encode_u32, Refusal};
use alloc::vec::Vec;

/// A constant expression, of the instructions that document 01 allows; [`ConstExpr::raw`] takes any bytes, and an add refuses, with 5, those that are none.
#[derive(Debug, Clone, PartialEq, Eq, Hash)]
pub struct ConstExpr {
    bytes: Vec<u8>,
}

// An instruction with an operand: the expression of it alone, and the one that goes on with it.
macro_rules! instructions {
    ($($(#[$doc:meta])* $name:ident, $with:ident, $code:literal, $ty:ty, $operand:expr;)*) => {
        impl ConstExpr {
            $($(#[$doc])*
            pub fn $name(value: $ty) -> ConstExpr {
                ConstExpr::empty().$with(value)
            }

            #[doc = concat!("This, then [`", stringify!($name), "`](Self::", stringify!($name), ").")]
            pub fn $with(self, value: $ty) -> ConstExpr {
                let operand: fn($ty) -> Vec<u8> = $operand;
                self.then($code, &operand(value))
            })*
        }
    };
}

instructions! {
    i32_const, with_i32_const, 0x41, i32, |v| number(|out| encode_i32(v, out));
    i64_const, with_i64_const, 0x42, i64, |v| number(|out| encode_i64(v, out));
    f32_const, with_f32_const, 0x43, f32, |v| v.to_le_bytes().into();
    f64_const, with_f64_const, 0x44, f64, |v| v.to_le_bytes().into();
    global_get, with_global_get, 0x23, u32, |index| number(|out| encode_u32(index, out));
    /// Of an abstract heap type that is not shared; an add refuses the others, with 5.
    ref_null, with_ref_null, 0xD0, HeapType, heap_type;
    ref_func, with_ref_func, 0xD2, u32, |index| number(|out| encode_u32(index, out));
}

// An instruction without one.
macro_rules! operations {
    ($($with:ident, $code:literal;)*) => {
        impl ConstExpr {
            $(pub fn $with(self) -> ConstExpr {
                self.then($code, &[])
            })*
        }
    };
}

operations! {
    with_i32_add, 0x6A;
    with_i32_sub, 0x6B;
    with_i32_mul, 0x6C;
    with_i64_add, 0x7C;
    with_i64_sub, 0x7D;
    with_i64_mul, 0x7E;
}

impl ConstExpr {
    /// No instruction yet.
    pub fn empty() -> ConstExpr {
        ConstExpr { bytes: Vec::new() }
    }

    /// Ready bytes without their last 0B.
    pub fn raw(bytes: impl IntoIterator<Item = u8>) -> ConstExpr {
        ConstExpr { bytes: bytes.into_iter().collect() }
    }

    fn then(mut self, code: u8, operand: &[u8]) -> ConstExpr {
        self.bytes.push(code);
        self.bytes.extend(operand);
        self
    }
}

// A number as the proved writer has it.
fn number(write: impl FnOnce(&mut [u8]) -> Result<usize, Refusal>) -> Vec<u8> {
    let mut out = [0; MAX_NUMBER_64];
    let length = write(&mut out).expect("no number is longer");
    out[..length].into()
}

fn heap_type(ty: HeapType) -> Vec<u8> {
    const SHARED: u8 = 0x65;
    const EXACT: u8 = 0x62;
    match ty {
        HeapType::Abstract { shared: false, ty } => [byte(ty)].into(),
        HeapType::Abstract { shared: true, ty } => [SHARED, byte(ty)].into(),
        HeapType::Concrete(index) => number(|out| encode_index(index, out)),
        HeapType::Exact(index) => [&[EXACT][..], &number(|out| encode_u32(index, out))].concat(),
    }
}

fn byte(ty: AbstractHeapType) -> u8 {
    match ty {
        AbstractHeapType::Func => 0x70,
        AbstractHeapType::Extern => 0x6F,
        AbstractHeapType::Any => 0x6E,
        AbstractHeapType::None => 0x71,
        AbstractHeapType::NoExtern => 0x72,
        AbstractHeapType::NoFunc => 0x73,
        AbstractHeapType::Eq => 0x6D,
        AbstractHeapType::Struct => 0x6B,
        AbstractHeapType::Array => 0x6A,
        AbstractHeapType::I31 => 0x6C,
        AbstractHeapType::Exn => 0x69,
        AbstractHeapType::NoExn => 0x74,
        AbstractHeapType::Cont => 0x68,
        AbstractHeapType::NoCont => 0x75,
    }
}

impl Put for ConstExpr {
    fn put(&self, record: &mut Record) {
        const END: u8 = 0x0B;
        Span(&[&self.bytes[..], &[END]].concat()).put(record);
    }
}
