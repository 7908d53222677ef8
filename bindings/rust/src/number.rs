//! Numbers of a value.
use crate::sys;

/// One number of a value.
///
/// ```
/// use gpmf::Element;
/// assert_eq!(gpmf::element_at(&[0xff, 0xfe], 0, b's'), Element::Signed(-2));
/// ```
#[derive(Clone, Copy, Debug, PartialEq)]
pub enum Element {
    /// A whole number with a sign.
    Signed(i64),
    /// A whole number without one.
    Unsigned(u64),
    /// A float.
    Single(f32),
    /// A double.
    Double(f64),
}

impl Element {
    pub(crate) fn from_sys(n: sys::Number) -> Self {
        match n.form {
            sys::SIGNED => Element::Signed(n.signed_value),
            sys::UNSIGNED => Element::Unsigned(n.unsigned_value),
            sys::SINGLE => Element::Single(n.single_value),
            _ => Element::Double(n.double_value),
        }
    }

    /// The number in double, which rounds whole numbers of more than 53 bits.
    ///
    /// ```
    /// assert_eq!(gpmf::Element::Signed(-35).to_f64(), -35.0);
    /// ```
    pub fn to_f64(self) -> f64 {
        match self {
            Element::Signed(n) => n as f64,
            Element::Unsigned(n) => n as f64,
            Element::Single(x) => f64::from(x),
            Element::Double(x) => x,
        }
    }
}

/// A fraction.
///
/// ```
/// let half = gpmf::Exact { numerator: 1, denominator: 2 };
/// assert_ne!(half, gpmf::q31_32_exact(0, 1 << 31));
/// ```
#[derive(Clone, Copy, Debug, PartialEq, Eq, Hash)]
pub struct Exact {
    /// Above.
    pub numerator: i64,
    /// Below.
    pub denominator: u64,
}

impl Exact {
    fn from_sys(x: sys::Exact) -> Self {
        Exact { numerator: x.numerator, denominator: x.denominator }
    }
}

/// high + low / 65536 in f32.
///
/// ```
/// assert_eq!(gpmf::q15_16(-1, 16384), -0.75);
/// ```
pub fn q15_16(high: i16, low: u16) -> f32 {
    unsafe { sys::gpmf_q15_16(high, low) }
}

/// high + low / 4294967295 in f64.
///
/// ```
/// assert_eq!(gpmf::q31_32(0, 4294967295), 1.0);
/// ```
pub fn q31_32(high: i32, low: u32) -> f64 {
    unsafe { sys::gpmf_q31_32(high, low) }
}

/// The same with nothing rounded.
///
/// ```
/// assert_eq!(gpmf::q31_32_exact(2, 7), gpmf::Exact { numerator: 8589934597, denominator: 4294967295 });
/// ```
pub fn q31_32_exact(high: i32, low: u32) -> Exact {
    Exact::from_sys(unsafe { sys::gpmf_q31_32_exact(high, low) })
}

/// The bytes of one element of a type; 0 for a letter that reads nothing.
///
/// ```
/// assert_eq!((gpmf::width(b'S'), gpmf::width(b'Q'), gpmf::width(b'?')), (2, 8, 0));
/// ```
pub fn width(letter: u8) -> usize {
    unsafe { sys::gpmf_width(letter) }
}

/// What the bytes at a place stand for, by the letter of a type; the unsigned 0 where they are not all there.
///
/// ```
/// use gpmf::{element_at, Element};
/// let bytes = [0x3f, 0xc0, 0, 0];
/// assert_eq!(element_at(&bytes, 0, b'f'), Element::Single(1.5));
/// assert_eq!(element_at(&bytes, 0, b'B'), Element::Unsigned(63));
/// assert_eq!(element_at(&bytes, 1, b'f'), Element::Unsigned(0));
/// ```
pub fn element_at(bytes: &[u8], at: usize, letter: u8) -> Element {
    Element::from_sys(unsafe { sys::gpmf_element_at(bytes.as_ptr(), bytes.len(), at, letter) })
}

/// The exact form of the `Q` number at a place; 0 / 4294967295 where its bytes are not all there.
///
/// ```
/// let bytes = [0xff, 0xff, 0xff, 0xff, 0, 0, 0, 5];
/// assert_eq!(gpmf::exact_at(&bytes, 0).numerator, -4294967290);
/// assert_eq!(gpmf::exact_at(&bytes, 1), gpmf::Exact { numerator: 0, denominator: 4294967295 });
/// ```
pub fn exact_at(bytes: &[u8], at: usize) -> Exact {
    Exact::from_sys(unsafe { sys::gpmf_exact_at(bytes.as_ptr(), bytes.len(), at) })
}

/// The bits of an f32; of every NaN those of one.
///
/// ```
/// assert_eq!(gpmf::single_bits(1.5), 0x3fc00000);
/// assert_eq!(gpmf::single_bits(-f32::NAN), gpmf::single_bits(f32::NAN));
/// ```
pub fn single_bits(x: f32) -> u32 {
    unsafe { sys::gpmf_single_bits(x) }
}

/// The bits of an f64; of every NaN those of one.
///
/// ```
/// assert_eq!(gpmf::double_bits(f64::NAN), 0x7ff8_0000_0000_0000);
/// ```
pub fn double_bits(x: f64) -> u64 {
    unsafe { sys::gpmf_double_bits(x) }
}
