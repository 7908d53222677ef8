//! What the first `count` rows of a reading lead to, for a group; [`Reading`](crate::Reading) has the same calls for its own rows.
use crate::axes::{axes_or_none, Axes};
use crate::item::{placed, Klv, Tag};
use crate::refusal::{told, Refusal};
use crate::rows::Group;
use crate::sys;

/// The item of a group and tag, if there is such a row: where it stands, and its header. The row is that of [`lookup`](crate::lookup), and so [`Tag::Other`] finds no key that has a
/// tag. Refused with 1, at place 0, with 5 as [`lookup`](crate::lookup), or with 2 or 12, at the row's place, where that holds no such item.
///
/// ```
/// use gpmf::{tagged_item, Group, Tag};
/// let payload = b"SCALs\x02\x00\x01\x00\x05";
/// let mut rows = [0; 8];
/// let count = gpmf::parse_metadata(payload, false, &mut rows)?.rows;
/// let (place, header) = tagged_item(payload, &rows, count, Group::CALLER, Tag::Scale)?.unwrap();
/// assert_eq!((place, &header.key), (0, b"SCAL"));
/// assert_eq!(tagged_item(payload, &rows, count, Group::CALLER, Tag::Other(*b"SCAL"))?, None);
/// assert_eq!(tagged_item(&payload[..9], &rows, count, Group::CALLER, Tag::Scale).unwrap_err().number, gpmf::Refusal::PAST_END);
/// # Ok::<(), gpmf::Refusal>(())
/// ```
pub fn tagged_item(payload: &[u8], rows: &[u32], count: usize, group: Group, tag: Tag) -> Result<Option<(usize, Klv)>, Refusal> {
    placed(unsafe {
        sys::gpmf_tagged_item(payload.as_ptr(), payload.len(), rows.as_ptr(), rows.len(), count, group.kind, group.number(), tag.number(), tag.key())
    })
}

/// The stamp of a group, in microseconds of the camera's clock: its STMP, if that is one `J` number or a date (of which these are the milliseconds as they are), else
/// its TICK, if that is one `L` number, times 1000. Refused as [`tagged_item`]; with 6 or 7 too, at the place of STMP, for a date.
///
/// ```
/// let payload = b"STMPJ\x08\x00\x01\0\0\0\0\0\x0f\x48\x2e";
/// let mut rows = [0; 8];
/// let count = gpmf::parse_metadata(payload, false, &mut rows)?.rows;
/// assert_eq!(gpmf::stamp_us(payload, &rows, count, gpmf::Group::CALLER)?, Some(1001518));
/// assert_eq!(gpmf::stamp_us(payload, &rows, count, gpmf::Group::of(*b"MWET"))?, None);
/// # Ok::<(), gpmf::Refusal>(())
/// ```
pub fn stamp_us(payload: &[u8], rows: &[u32], count: usize, group: Group) -> Result<Option<u64>, Refusal> {
    let a = unsafe { sys::gpmf_stamp_us(payload.as_ptr(), payload.len(), rows.as_ptr(), rows.len(), count, group.kind, group.number()) };
    told(a.kind, a.number, a.place, a.value)
}

/// A quaternion.
///
/// ```
/// let gpmf::Quaternion { w, x, y, z } = gpmf::scaled(1, 2, 3, 4, 2.0);
/// assert_eq!([w, x, y, z], [0.5, -1.0, 1.5, 2.0]);
/// ```
#[derive(Clone, Copy, Debug, PartialEq)]
pub struct Quaternion {
    /// The real part.
    pub w: f64,
    /// Along the first axis.
    pub x: f64,
    /// Along the second.
    pub y: f64,
    /// Along the third.
    pub z: f64,
}

impl Quaternion {
    fn from_sys(q: sys::Quaternion) -> Self {
        Quaternion { w: q.w, x: q.x, y: q.y, z: q.z }
    }
}

/// The quaternion of a row of CORI or IORI, scaled by the group's SCAL if that is one `s` number, else by 32767; none where the group has no data, or these are no
/// quaternions. Refused as [`tagged_item`], of the data or of SCAL; with 6 or 13 too, at the place of the data.
///
/// ```
/// let payload = b"SCALs\x02\x00\x01\x00\x02\0\0CORIs\x08\x00\x01\x00\x01\x00\x02\x00\x03\x00\x04";
/// let mut rows = [0; 16];
/// let count = gpmf::parse_metadata(payload, false, &mut rows)?.rows;
/// let first = gpmf::scaled_quaternion(payload, &rows, count, gpmf::Group::CALLER, 0)?;
/// assert_eq!(first, Some(gpmf::scaled(1, 2, 3, 4, 2.0)));
/// # Ok::<(), gpmf::Refusal>(())
/// ```
pub fn scaled_quaternion(payload: &[u8], rows: &[u32], count: usize, group: Group, row: usize) -> Result<Option<Quaternion>, Refusal> {
    let a = unsafe { sys::gpmf_scaled_quaternion(payload.as_ptr(), payload.len(), rows.as_ptr(), rows.len(), count, group.kind, group.number(), row) };
    told(a.kind, a.number, a.place, Quaternion::from_sys(a.quaternion))
}

/// w, negated x, y and z over a scale.
///
/// ```
/// assert_eq!(gpmf::scaled(1, -32768, 0, 0, 2.0).x, -16384.0);
/// ```
pub fn scaled(w: i16, x: i16, y: i16, z: i16, scale: f64) -> Quaternion {
    Quaternion::from_sys(unsafe { sys::gpmf_scaled(w, x, y, z, scale) })
}

/// 0 less x in 16 bits: -32768 stays.
///
/// ```
/// assert_eq!((gpmf::negated(5), gpmf::negated(-32768)), (-5, -32768));
/// ```
pub fn negated(x: i16) -> i16 {
    unsafe { sys::gpmf_negated(x) }
}

/// The axes of a group by its MTRX, or where it has none by its ORIN and ORIO; none where it has not these, or their types are others. Refused with 1, with 5 as
/// [`lookup`](crate::lookup), with 2 or 12 at the place of one of them, and with 9 or 10 as the calls on axes.
///
/// ```
/// let payload = b"ORINc\x01\x00\x03YxZ\0ORIOc\x01\x00\x03XYZ\0";
/// let mut rows = [0; 16];
/// let count = gpmf::parse_metadata(payload, false, &mut rows)?.rows;
/// assert_eq!(gpmf::orientation_of_group(payload, &rows, count, gpmf::Group::CALLER)?, Some(*b"yXZ"));
/// assert_eq!(gpmf::orientation_of_group(payload, &rows, 1, gpmf::Group::CALLER)?, None);
/// # Ok::<(), gpmf::Refusal>(())
/// ```
pub fn orientation_of_group(payload: &[u8], rows: &[u32], count: usize, group: Group) -> Result<Option<Axes>, Refusal> {
    axes_or_none(unsafe { sys::gpmf_orientation_of_group(payload.as_ptr(), payload.len(), rows.as_ptr(), rows.len(), count, group.kind, group.number()) })
}

/// What the average duration of a reading is made of, for a packet.
///
/// ```
/// let packet = gpmf::PacketTime { readings: 4, stamp_us: Some(1001518), duration_ms: 1001.0, missing: false };
/// assert_eq!(gpmf::get_avg_sample_duration(&[packet])?, Some(1001.0 / 4.0));
/// # Ok::<(), gpmf::Refusal>(())
/// ```
#[derive(Clone, Copy, Debug, PartialEq)]
pub struct PacketTime {
    /// How many readings it has.
    pub readings: u32,
    /// When they began, in microseconds of the camera's clock.
    pub stamp_us: Option<u64>,
    /// How long it is, in milliseconds.
    pub duration_ms: f64,
    /// Whether time is missing since the last packet with a stamp.
    pub missing: bool,
}

/// Milliseconds for a reading, on average over packets; nothing where they have no readings. Refused with 11.
///
/// ```
/// let at = |stamp| gpmf::PacketTime { readings: 10, stamp_us: Some(stamp), duration_ms: 1000.0, missing: false };
/// assert_eq!(gpmf::get_avg_sample_duration(&[at(0), at(500_000), at(2_000_000)])?, Some(100.0));
/// assert_eq!(gpmf::get_avg_sample_duration(&[])?, None);
/// assert_eq!(gpmf::get_avg_sample_duration(&[at(1 << 42)]).unwrap_err().number, gpmf::Refusal::BAD_DURATIONS);
/// # Ok::<(), gpmf::Refusal>(())
/// ```
pub fn get_avg_sample_duration(packets: &[PacketTime]) -> Result<Option<f64>, Refusal> {
    let counts: Vec<u32> = packets.iter().map(|packet| packet.readings).collect();
    let has_stamp: Vec<u8> = packets.iter().map(|packet| packet.stamp_us.is_some().into()).collect();
    let stamps: Vec<u64> = packets.iter().map(|packet| packet.stamp_us.unwrap_or(0)).collect();
    let durations: Vec<f64> = packets.iter().map(|packet| packet.duration_ms).collect();
    let missing: Vec<u8> = packets.iter().map(|packet| packet.missing.into()).collect();
    let n = packets.len();
    let a =
        unsafe { sys::gpmf_get_avg_sample_duration(counts.as_ptr(), n, has_stamp.as_ptr(), n, stamps.as_ptr(), n, durations.as_ptr(), n, missing.as_ptr(), n) };
    told(a.kind, a.number, a.place, a.value)
}
