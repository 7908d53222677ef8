//! Texts and dates.
use crate::refusal::{is, Refusal};
use crate::sys;

/// A TYPE text written out into `out`, and how many characters it has. Refused with 8 where it is over 256 characters, and then `out` stays as it was.
///
/// ```
/// let mut out = [0; 256];
/// let count = gpmf::resolve_custom_type(b"Lf[4]", &mut out)?;
/// assert_eq!(&out[..count], b"Lffff");
/// assert_eq!(gpmf::resolve_custom_type(b"f[257]", &mut out).unwrap_err().number, gpmf::Refusal::LONG_TYPE);
/// # Ok::<(), gpmf::Refusal>(())
/// ```
pub fn resolve_custom_type(text: &[u8], out: &mut [u8; 256]) -> Result<usize, Refusal> {
    let a = unsafe { sys::gpmf_resolve_custom_type(text.as_ptr(), text.len(), out.as_mut_ptr()) };
    is(a.kind, a.number, a.place, a.value as usize)
}

/// How many bytes of a Latin-1 text are kept: all but its trailing zeros.
///
/// ```
/// assert_eq!(gpmf::latin1_len(b"ab\0c\0\0"), 4);
/// ```
pub fn latin1_len(text: &[u8]) -> usize {
    unsafe { sys::gpmf_latin1_len(text.as_ptr(), text.len()) }
}

/// How many bytes a UTF-8 text has up to its first zero.
///
/// ```
/// assert_eq!(gpmf::utf8_len(b"ab\0c\0\0"), 2);
/// ```
pub fn utf8_len(text: &[u8]) -> usize {
    unsafe { sys::gpmf_utf8_len(text.as_ptr(), text.len()) }
}

/// Whether bytes are well-formed UTF-8.
///
/// ```
/// assert!(gpmf::is_utf8("m/s²".as_bytes()) && !gpmf::is_utf8(b"m/s\xb2"));
/// ```
pub fn is_utf8(text: &[u8]) -> bool {
    unsafe { sys::gpmf_is_utf8(text.as_ptr(), text.len()) }
}

/// Whether each run of `size` bytes is, up to its first zero; with size 0, the whole.
///
/// ```
/// assert!(gpmf::are_utf8(b"a\0\xffb", 4) && !gpmf::are_utf8(b"a\0\xffb", 2));
/// ```
pub fn are_utf8(texts: &[u8], size: usize) -> bool {
    unsafe { sys::gpmf_are_utf8(texts.as_ptr(), texts.len(), size) }
}

/// Milliseconds from the start of 1970 to the date yymmddhhmmss.sss, 0 for one that is impossible. Refused with 6 under 16 bytes, with 7 where it is not readable.
///
/// ```
/// assert_eq!(gpmf::parse_utcdate(b"240229120000.000"), Ok(1709208000000));
/// assert_eq!(gpmf::parse_utcdate(b"230229120000.000"), Ok(0));
/// ```
pub fn parse_utcdate(text: &[u8]) -> Result<u64, Refusal> {
    let a = unsafe { sys::gpmf_parse_utcdate(text.as_ptr(), text.len()) };
    is(a.kind, a.number, a.place, a.value)
}
