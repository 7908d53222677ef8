//! Values of the published Rust as rows of plain numbers, to be compared element by element.
use crate::tags_impl::*;

/// One number; of every NaN the bits of one.
#[derive(Clone, Copy, Debug, PartialEq)]
pub enum Plain { Signed(i64), Unsigned(u64), Single(u32), Double(u64) }

pub fn single(x: f32) -> Plain { Plain::Single(if x.is_nan() { f32::NAN.to_bits() } else { x.to_bits() }) }
pub fn double(x: f64) -> Plain { Plain::Double(if x.is_nan() { f64::NAN.to_bits() } else { x.to_bits() }) }

/// A number.
pub trait Number { fn plain(&self) -> Plain; }
macro_rules! numbers {
    ($($t:ty => $form:ident $wide:ty),*) => { $(impl Number for $t { fn plain(&self) -> Plain { Plain::$form(*self as $wide) } })* };
}
numbers!(i8 => Signed i64, i16 => Signed i64, i32 => Signed i64, i64 => Signed i64, u8 => Unsigned u64, u16 => Unsigned u64, u32 => Unsigned u64, u64 => Unsigned u64);
impl Number for f32 { fn plain(&self) -> Plain { single(*self) } }
impl Number for f64 { fn plain(&self) -> Plain { double(*self) } }
impl Number for Scalar {
    fn plain(&self) -> Plain {
        match self {
            Scalar::u8(v) => v.plain(),  Scalar::i8(v) => v.plain(),  Scalar::u16(v) => v.plain(), Scalar::i16(v) => v.plain(),
            Scalar::u32(v) => v.plain(), Scalar::i32(v) => v.plain(), Scalar::u64(v) => v.plain(), Scalar::i64(v) => v.plain(),
            Scalar::f32(v) => v.plain(), Scalar::f64(v) => v.plain(), Scalar::String(_) | Scalar::bool(_) => unreachable!("klv.rs makes no such scalar"),
        }
    }
}

/// A row.
pub trait Cells { fn cells(&self) -> Vec<Plain>; }
impl<N: Number> Cells for N { fn cells(&self) -> Vec<Plain> { vec![self.plain()] } }
impl<N: Number> Cells for Vec<N> { fn cells(&self) -> Vec<Plain> { self.iter().map(Number::plain).collect() } }
impl<N: Number> Cells for Vector3<N> { fn cells(&self) -> Vec<Plain> { vec![self.x.plain(), self.y.plain(), self.z.plain()] } }
impl<N: Number> Cells for TimeVector3<N> { fn cells(&self) -> Vec<Plain> { vec![self.t.plain(), self.x.plain(), self.y.plain(), self.z.plain()] } }
impl<N: Number> Cells for Quaternion<N> { fn cells(&self) -> Vec<Plain> { vec![self.w.plain(), self.x.plain(), self.y.plain(), self.z.plain()] } }
impl<N: Number> Cells for TimeQuaternion<N> { fn cells(&self) -> Vec<Plain> { [vec![self.t.plain()], self.v.cells()].concat() } }
/// One text of several: its UTF-8 bytes.
impl Cells for String { fn cells(&self) -> Vec<Plain> { self.bytes().map(|b| b.plain()).collect() } }

/// A value: its rows.
pub trait Rows { fn rows(&self) -> Vec<Vec<Plain>>; }
impl<N: Number> Rows for N { fn rows(&self) -> Vec<Vec<Plain>> { vec![self.cells()] } }
impl<C: Cells> Rows for Vec<C> { fn rows(&self) -> Vec<Vec<Plain>> { self.iter().map(Cells::cells).collect() } }
/// A text alone: its Latin-1 bytes.
impl Rows for String { fn rows(&self) -> Vec<Vec<Plain>> { vec![self.chars().map(|c| Plain::Unsigned(c as u64)).collect()] } }
impl Rows for (u32, u32, u32, u32) { fn rows(&self) -> Vec<Vec<Plain>> { vec![vec![self.0.plain(), self.1.plain(), self.2.plain(), self.3.plain()]] } }
impl Rows for crate::rig::CameraRig { fn rows(&self) -> Vec<Vec<Plain>> { Vec::new() } }

/// What the read of a value gives.
#[derive(Debug)]
pub enum ReadBack { Is(Vec<Vec<Plain>>), Failed, Panicked }

/// The read of a value, by its own parse function.
pub fn read_back<T: Clone + Rows>(value: &ValueType<T>) -> ReadBack {
    match std::panic::catch_unwind(std::panic::AssertUnwindSafe(|| probe_parse(value))) {
        Ok(Ok(value)) => ReadBack::Is(value.rows()),
        Ok(Err(_)) => ReadBack::Failed,
        Err(_) => ReadBack::Panicked,
    }
}
