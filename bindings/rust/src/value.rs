//! Values: of the item whose header stands at a place, with its TYPE at another where it is a `?` item.
use crate::item::Klv;
use crate::number::Element;
use crate::refusal::{is, Refusal};
use crate::sys;

/// What a value is called.
///
/// ```
/// let shape = gpmf::shape_at(b"ABCDB\x03\x00\x02abcdef", 0, None)?;
/// assert_eq!(shape.kind, gpmf::Kind::Vector);
/// # Ok::<(), gpmf::Refusal>(())
/// ```
#[derive(Clone, Copy, Debug, PartialEq, Eq, Hash)]
pub enum Kind {
    /// One number.
    Single,
    /// A number a row.
    List,
    /// Three a row.
    Vector,
    /// Four a row.
    TimedVector,
    /// Any other count a row.
    Nested,
    /// One Latin-1 text: its bytes are the columns.
    Text,
    /// A UTF-8 text a row.
    Texts,
    /// Four 32-bit numbers.
    Identifier,
    /// Milliseconds since 1970.
    DateTime,
    /// w x y z a row, as they stand.
    Quaternions,
    /// A structure a row, by its TYPE.
    Structures,
    /// Of a type that is not read: no elements.
    Unknown,
}

/// The kinds by number.
const KINDS: [Kind; 12] = [
    Kind::Single,
    Kind::List,
    Kind::Vector,
    Kind::TimedVector,
    Kind::Nested,
    Kind::Text,
    Kind::Texts,
    Kind::Identifier,
    Kind::DateTime,
    Kind::Quaternions,
    Kind::Structures,
    Kind::Unknown,
];

/// The shape of a value.
///
/// ```
/// let shape = gpmf::shape_at(b"MWETB\x03\x00\x02abcdef", 0, None)?;
/// assert_eq!(shape, gpmf::Shape { kind: gpmf::Kind::Vector, rows: 2, columns: 3 });
/// # Ok::<(), gpmf::Refusal>(())
/// ```
#[derive(Clone, Copy, Debug, PartialEq, Eq, Hash)]
pub struct Shape {
    /// What it is called.
    pub kind: Kind,
    /// How many rows it has.
    pub rows: usize,
    /// How many columns its first row has.
    pub columns: usize,
}

fn type_at(place: Option<usize>) -> usize {
    place.unwrap_or(sys::NO_TYPE as usize)
}

/// The element at a row and a column of the item at a place. Refused with 1, at place 0, or with 2, 6, 7, 8, 12 or 13, at the place asked.
///
/// Each call goes through the whole TYPE text of a structure, or through all texts of several, as [`columns_at`] and [`text_at`] do: for all elements of a value take
/// [`elements_at`].
///
/// Here and in the calls below, a `type_place` of `Some(4294967295)` is none: the library has that number for a TYPE that is not there, and no payload is so long.
///
/// ```
/// use gpmf::{element, Element, Refusal};
/// let item = b"AALPb\x02\x00\x02\xdd\xe5\xda\xe8";
/// assert_eq!(element(item, 0, None, 1, 0)?, Element::Signed(-38));
/// assert_eq!(element(item, 0, None, 2, 0).unwrap_err().number, Refusal::OUTSIDE);
///
/// let structure = b"TYPEc\x01\x00\x02Lf\0\0FACE?\x08\x00\x01\0\0\0\x07\x3f\xc0\0\0";
/// assert_eq!(element(structure, 12, Some(0), 0, 1)?, Element::Single(1.5));
/// # Ok::<(), Refusal>(())
/// ```
pub fn element(bytes: &[u8], at: usize, type_place: Option<usize>, row: usize, column: usize) -> Result<Element, Refusal> {
    let a = unsafe { sys::gpmf_element(bytes.as_ptr(), bytes.len(), at, type_at(type_place), row, column) };
    is(a.kind, a.number, a.place, Element::from_sys(a.element))
}

/// What the value of the item at a place is called, its rows, and the columns of its first row. Refused as an element is, but for 13.
///
/// ```
/// let name = b"STNMc\x01\x00\x05Faces";
/// let shape = gpmf::shape_at(name, 0, None)?;
/// assert_eq!((shape.kind, shape.rows, shape.columns), (gpmf::Kind::Text, 1, 5));
/// assert_eq!(gpmf::shape_at(name, 6, None).unwrap_err().number, gpmf::Refusal::NO_ITEM);
/// # Ok::<(), gpmf::Refusal>(())
/// ```
pub fn shape_at(bytes: &[u8], at: usize, type_place: Option<usize>) -> Result<Shape, Refusal> {
    let a = unsafe { sys::gpmf_shape_at(bytes.as_ptr(), bytes.len(), at, type_at(type_place)) };
    let kind = KINDS.get(a.value_kind as usize).copied().unwrap_or(Kind::Unknown);
    is(a.kind, a.number, a.place, Shape { kind, rows: a.rows, columns: a.columns })
}

/// The columns of a row: of a text, its bytes. Refused as an element is; with 13 where the row lies outside. Each call costs as much as [`element`].
///
/// ```
/// let units = b"UNITc\x03\x00\x02degm\0\0";
/// assert_eq!(gpmf::columns_at(units, 0, None, 1), Ok(1));
/// ```
pub fn columns_at(bytes: &[u8], at: usize, type_place: Option<usize>, row: usize) -> Result<usize, Refusal> {
    let a = unsafe { sys::gpmf_columns_at(bytes.as_ptr(), bytes.len(), at, type_at(type_place), row) };
    is(a.kind, a.number, a.place, a.value as usize)
}

/// All elements of the value of the item at a place, each as one number, row after row and in a row column after column; how many there are. The numbers behind them
/// stay as they were. By the letter of the type, `b s l j` are signed, two's complement in 64 bits, `f q` the bits of an f32 ([`single_bits`](crate::single_bits)), `d Q` those
/// of an f64 ([`double_bits`](crate::double_bits)), and others unsigned; the columns of a `?` item have the letters of its TYPE, written out, whose [`width`](crate::width) is not 0.
/// Refused as [`shape_at`]; with 5, at the place asked, where they do not fit. Where it is refused, all numbers stay as they were.
///
/// ```
/// let item = b"AALPb\x02\x00\x02\xdd\xe5\xda\xe8";
/// let mut numbers = [0; 5];
/// assert_eq!(gpmf::elements_at(item, 0, None, &mut numbers), Ok(4));
/// assert_eq!(numbers.map(|n| n as i64), [-35, -27, -38, -24, 0]);
/// assert_eq!(gpmf::elements_at(item, 0, None, &mut numbers[..3]).unwrap_err().number, gpmf::Refusal::NO_ROOM);
/// ```
pub fn elements_at(bytes: &[u8], at: usize, type_place: Option<usize>, numbers: &mut [u64]) -> Result<usize, Refusal> {
    let a = unsafe { sys::gpmf_elements_at(bytes.as_ptr(), bytes.len(), at, type_at(type_place), numbers.as_mut_ptr(), numbers.len()) };
    is(a.kind, a.number, a.place, a.value as usize)
}

/// The header of the item at a place that has a value. Refused with 1, at place 0, or with 2 or 12, at the place asked.
///
/// ```
/// let item = b"MWETB\x03\x00\x02abcdef";
/// assert_eq!(gpmf::klv_at(item, 0, None)?.repeat, 2);
/// assert_eq!(gpmf::klv_at(item, 9, None).unwrap_err().number, gpmf::Refusal::NO_ITEM);
/// # Ok::<(), gpmf::Refusal>(())
/// ```
pub fn klv_at(bytes: &[u8], at: usize, type_place: Option<usize>) -> Result<Klv, Refusal> {
    let a = unsafe { sys::gpmf_klv_at(bytes.as_ptr(), bytes.len(), at, type_at(type_place)) };
    is(a.kind, a.number, a.place, Klv::from_sys(a.klv))
}

/// A part of some bytes, as the library tells it.
fn part(bytes: &[u8], a: sys::PartAnswer) -> Result<&[u8], Refusal> {
    is(a.kind, a.number, a.place, ())?;
    Ok(&bytes[a.start..a.start + a.length])
}

/// The own payload of the item at a place, as a part of the bytes. Refused as [`klv_at`].
///
/// ```
/// let item = b"MWETB\x03\x00\x02abcdef\0\0";
/// assert_eq!(gpmf::bytes_at(item, 0, None)?, b"abcdef");
/// # Ok::<(), gpmf::Refusal>(())
/// ```
pub fn bytes_at(bytes: &[u8], at: usize, type_place: Option<usize>) -> Result<&[u8], Refusal> {
    part(bytes, unsafe { sys::gpmf_bytes_at(bytes.as_ptr(), bytes.len(), at, type_at(type_place)) })
}

/// The text of a row of the item at a place, as a part of the bytes: of one text without the zeros behind it, of several up to the first zero. Refused as [`columns_at`]; with 13
/// too where the value is no text. Each call goes through all texts of several: for all of them see by [`shape_at`] that they are readable, and take [`bytes_at`] in runs of the
/// item's size, each up to its [`utf8_len`](crate::utf8_len).
///
/// ```
/// let name = b"STNMc\x01\x00\x06a\0b\0\0\0";
/// assert_eq!(gpmf::text_at(name, 0, None, 0)?, b"a\0b");
/// let units = b"UNITc\x03\x00\x02a\0bm\0\0";
/// assert_eq!(gpmf::text_at(units, 0, None, 0)?, b"a");
/// let all: Vec<&[u8]> = gpmf::bytes_at(units, 0, None)?.chunks(3).map(|text| &text[..gpmf::utf8_len(text)]).collect();
/// assert_eq!(all, [b"a", b"m"]);
/// assert_eq!(gpmf::text_at(units, 0, None, 2).unwrap_err().number, gpmf::Refusal::OUTSIDE);
/// # Ok::<(), gpmf::Refusal>(())
/// ```
pub fn text_at(bytes: &[u8], at: usize, type_place: Option<usize>, row: usize) -> Result<&[u8], Refusal> {
    part(bytes, unsafe { sys::gpmf_text_at(bytes.as_ptr(), bytes.len(), at, type_at(type_place), row) })
}
