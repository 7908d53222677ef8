//! Printing into a lent buffer: each call lays text from a place on and tells the place behind it, or `None` where it does not fit. What does not fit is not laid; a call that lays
//! several parts, as lines, leaves those that were laid before the first that does not fit.
use crate::refusal::Refusal;
use crate::rows::Counts;
use crate::sys;

fn behind(end: usize) -> Option<usize> {
    (end != sys::FULL).then_some(end)
}

/// The listing of a payload: its first line, and a line a row; the rows go into `rows` as in [`parse_metadata`](crate::parse_metadata). It has at most 56 bytes for each row that
/// `rows` has room for ([`room`](crate::room)), and 56 more. Where it does not fit, the parts that were laid before the first that does not stay.
///
/// ```
/// let payload = b"STRM\x00\x01\x00\x14SCALs\x02\x00\x01\x00\x01\x00\x00GYROs\x06\x00\x00";
/// let (mut rows, mut out) = ([0; 64], [0; 64]);
/// let end = gpmf::list(payload, &mut rows, &mut out, 0).unwrap();
/// assert_eq!(&out[..end], b"rows 1 headers 3\n8 GYRO SCAL 115 2 1 1\n");
/// let mut short = [0; 17];
/// assert_eq!(gpmf::list(payload, &mut rows, &mut short, 0), None);
/// assert_eq!(&short, b"rows 1 headers 3\n");
/// ```
pub fn list(payload: &[u8], rows: &mut [u32], out: &mut [u8], at: usize) -> Option<usize> {
    behind(unsafe { sys::gpmf_list(payload.as_ptr(), payload.len(), rows.as_mut_ptr(), rows.len(), out.as_mut_ptr(), out.len(), at) })
}

/// The first line of a listing.
///
/// ```
/// let mut out = [0; 32];
/// let refused = gpmf::parse_metadata(b"ABCDB\x06\x00\x01", false, &mut []);
/// let end = gpmf::put_answer(&mut out, 0, refused).unwrap();
/// assert_eq!(&out[..end], b"refused 2 at 0\n");
/// ```
pub fn put_answer(out: &mut [u8], at: usize, answer: Result<Counts, Refusal>) -> Option<usize> {
    let answer = match answer {
        Ok(Counts { rows, headers }) => sys::MetadataAnswer { kind: sys::IS, number: 0, place: 0, rows, headers },
        Err(Refusal { number, place }) => sys::MetadataAnswer { kind: sys::REFUSED, number, place, rows: 0, headers: 0 },
    };
    behind(unsafe { sys::gpmf_put_answer(out.as_mut_ptr(), out.len(), at, answer) })
}

/// A line for each of the first `count` rows; the line of the refusal with 5 at 0 alone where `rows` has no room for so many. Where they do not all fit, what is laid is as
/// in [`list`].
///
/// ```
/// let mut out = [0; 32];
/// let reading = gpmf::Reading::of(b"ABCDB\x05\x00\x01abcde")?;
/// let end = gpmf::put_rows(&mut out, 0, reading.numbers(), reading.len()).unwrap();
/// assert_eq!(&out[..end], b"0 - ABCD 66 5 1 0\n");
/// let end = gpmf::put_rows(&mut out, 0, &[], 1).unwrap();
/// assert_eq!(&out[..end], b"refused 5 at 0\n");
/// # Ok::<(), gpmf::Refusal>(())
/// ```
pub fn put_rows(out: &mut [u8], at: usize, rows: &[u32], count: usize) -> Option<usize> {
    behind(unsafe { sys::gpmf_put_rows(out.as_mut_ptr(), out.len(), at, rows.as_ptr(), rows.len(), count) })
}

/// How a packet of a take is told: its number from 1, its place in the file, and whether refused packets are left out.
///
/// ```
/// let about = gpmf::About { number: 1, place: 8, whole: true };
/// let (end, accepted) = gpmf::put_packet(b"ABCDB\x06\x00\x01", about, &mut [], &mut [], 0);
/// assert_eq!((end, accepted), (Some(0), false));
/// ```
#[derive(Clone, Copy, Debug, PartialEq, Eq, Hash)]
pub struct About {
    /// The packet's number, from 1.
    pub number: u64,
    /// Where its payload stands in the file.
    pub place: u64,
    /// Whether nothing is laid of a packet that is refused.
    pub whole: bool,
}

/// A packet of a take: its line, its listing, and where it is refused the listing of what stands before the place; with `whole`, nothing of a refused one. Tells the place behind
/// it, and whether the packet was accepted. The rows of what is listed go into `rows`: of a refused packet those of its front, and with `whole` none, so that `rows` stay as they
/// were. It has at most 106 bytes more than a listing ([`list`]), so that 56 bytes for each row that `rows` has room for and 162 more are enough; with fewer, what is laid is as
/// there.
///
/// ```
/// let mut out = [0; 64];
/// let about = gpmf::About { number: 2, place: 100, whole: false };
/// let (end, accepted) = gpmf::put_packet(b"GYROs\x06\x00\x00", about, &mut [], &mut out, 0);
/// assert_eq!(&out[..end.unwrap()], b"packet 2 at 100 bytes 8\nrows 0 headers 1\n");
/// assert!(accepted);
/// let mut short = [0; 24];
/// assert_eq!(gpmf::put_packet(b"GYROs\x06\x00\x00", about, &mut [], &mut short, 0), (None, true));
/// assert_eq!(&short, b"packet 2 at 100 bytes 8\n");
/// ```
pub fn put_packet(payload: &[u8], about: About, rows: &mut [u32], out: &mut [u8], at: usize) -> (Option<usize>, bool) {
    let About { number, place, whole } = about;
    let taken =
        unsafe { sys::gpmf_put_packet(payload.as_ptr(), payload.len(), number, place, whole, rows.as_mut_ptr(), rows.len(), out.as_mut_ptr(), out.len(), at) };
    (behind(taken.end), taken.accepted)
}

/// A packet of more bytes than are held: its line, its refusal with 1, and the line of a front without rows; with `whole`, nothing.
///
/// ```
/// let mut out = [0; 128];
/// let about = gpmf::About { number: 3, place: 100, whole: false };
/// let end = gpmf::put_long_packet(about, 2_000_000, &mut out, 0).unwrap();
/// assert_eq!(&out[..end], b"packet 3 at 100 bytes 2000000\nrefused 1 at 0\nfront rows 0 headers 0\n");
/// let whole = gpmf::About { whole: true, ..about };
/// assert_eq!(gpmf::put_long_packet(whole, 2_000_000, &mut [], 0), Some(0));
/// ```
pub fn put_long_packet(about: About, bytes: u64, out: &mut [u8], at: usize) -> Option<usize> {
    behind(unsafe { sys::gpmf_put_long_packet(about.number, about.place, bytes, about.whole, out.as_mut_ptr(), out.len(), at) })
}

/// The last line of a take: its counts.
///
/// ```
/// let mut out = [0; 32];
/// let end = gpmf::put_totals(&mut out, 0, 5, 2, 3).unwrap();
/// assert_eq!(&out[..end], b"packets 5 read 2 refused 3\n");
/// ```
pub fn put_totals(out: &mut [u8], at: usize, packets: u64, read: u64, refused: u64) -> Option<usize> {
    behind(unsafe { sys::gpmf_put_totals(out.as_mut_ptr(), out.len(), at, packets, read, refused) })
}

/// A byte.
///
/// ```
/// let mut out = [0; 1];
/// assert_eq!(gpmf::put(&mut out, 0, b'x'), Some(1));
/// assert_eq!(gpmf::put(&mut out, 1, b'y'), None);
/// assert_eq!(&out, b"x");
/// ```
pub fn put(out: &mut [u8], at: usize, b: u8) -> Option<usize> {
    behind(unsafe { sys::gpmf_put(out.as_mut_ptr(), out.len(), at, b) })
}

/// Bytes.
///
/// ```
/// let mut out = *b".....";
/// assert_eq!(gpmf::put_bytes(&mut out, 1, b"abc"), Some(4));
/// assert_eq!(&out, b".abc.");
/// ```
pub fn put_bytes(out: &mut [u8], at: usize, text: &[u8]) -> Option<usize> {
    behind(unsafe { sys::gpmf_put_bytes(out.as_mut_ptr(), out.len(), at, text.as_ptr(), text.len()) })
}

/// A number in decimal.
///
/// ```
/// let mut out = *b".....";
/// assert_eq!(gpmf::put_decimal(&mut out, 0, 984), Some(3));
/// assert_eq!(&out, b"984..");
/// ```
pub fn put_decimal(out: &mut [u8], at: usize, n: u64) -> Option<usize> {
    behind(unsafe { sys::gpmf_put_decimal(out.as_mut_ptr(), out.len(), at, n) })
}

/// The last `count` digits of a number in hex.
///
/// ```
/// let mut out = *b"........";
/// assert_eq!(gpmf::put_hex(&mut out, 0, 0x4d574554, 8), Some(8));
/// assert_eq!(&out, b"4d574554");
/// ```
pub fn put_hex(out: &mut [u8], at: usize, n: u64, count: usize) -> Option<usize> {
    behind(unsafe { sys::gpmf_put_hex(out.as_mut_ptr(), out.len(), at, n, count) })
}

/// A signed number in decimal.
///
/// ```
/// let mut out = *b".....";
/// assert_eq!(gpmf::put_signed(&mut out, 0, -35), Some(3));
/// assert_eq!(&out, b"-35..");
/// ```
pub fn put_signed(out: &mut [u8], at: usize, n: i64) -> Option<usize> {
    behind(unsafe { sys::gpmf_put_signed(out.as_mut_ptr(), out.len(), at, n) })
}
