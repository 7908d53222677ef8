//! What is read out of a line.
use crate::sys;

/// How many pieces a text falls into, each ended by a byte or by the end.
///
/// ```
/// assert_eq!(gpmf::pieces(b"a bc d", b' '), 3);
/// ```
pub fn pieces(text: &[u8], b: u8) -> usize {
    unsafe { sys::gpmf_pieces(text.as_ptr(), text.len(), b) }
}

fn number(a: sys::WholeAnswer) -> Option<u64> {
    (a.kind == sys::IS).then_some(a.value)
}

/// The number in decimal digits, where there is one of 64 bits.
///
/// ```
/// assert_eq!(gpmf::decimal_number(b"984"), Some(984));
/// assert_eq!(gpmf::decimal_number(b"18446744073709551616"), None);
/// ```
pub fn decimal_number(text: &[u8]) -> Option<u64> {
    number(unsafe { sys::gpmf_decimal_number(text.as_ptr(), text.len()) })
}

/// The number in small hex digits, where there is one of 64 bits.
///
/// ```
/// assert_eq!(gpmf::hex_number(b"4d574554"), Some(0x4d574554));
/// assert_eq!(gpmf::hex_number(b"4D"), None);
/// ```
pub fn hex_number(text: &[u8]) -> Option<u64> {
    number(unsafe { sys::gpmf_hex_number(text.as_ptr(), text.len()) })
}

/// What a text in hex is read as.
///
/// ```
/// assert_eq!(gpmf::unhex(b"0g", &mut [0; 4]), gpmf::Decoded::NotHex);
/// ```
#[derive(Clone, Copy, Debug, PartialEq, Eq, Hash)]
pub enum Decoded {
    /// So many bytes, laid at the front of the buffer.
    Bytes(usize),
    /// The buffer is too short for them.
    NoRoom,
    /// The text is not hex.
    NotHex,
}

/// The bytes in small hex digits, laid at the front of `out`.
///
/// ```
/// let mut out = [0; 2];
/// assert_eq!(gpmf::unhex(b"00ff", &mut out), gpmf::Decoded::Bytes(2));
/// assert_eq!(out, [0, 255]);
/// assert_eq!(gpmf::unhex(b"001122", &mut out), gpmf::Decoded::NoRoom);
/// ```
pub fn unhex(text: &[u8], out: &mut [u8]) -> Decoded {
    let a = unsafe { sys::gpmf_unhex(text.as_ptr(), text.len(), out.as_mut_ptr(), out.len()) };
    match a.kind {
        sys::IS => Decoded::Bytes(a.value as usize),
        sys::MORE => Decoded::NoRoom,
        _ => Decoded::NotHex,
    }
}
