//! Items: their keys, headers, tags and groups.
use crate::refusal::{is, told, Refusal};
use crate::sys;

/// A key of four letters, such as `*b"MWET"`.
///
/// ```
/// let key: gpmf::Key = *b"MWET";
/// assert_eq!(gpmf::Tag::of(key), gpmf::Tag::Data);
/// ```
pub type Key = [u8; 4];

/// The header of an item.
///
/// ```
/// let (place, last) = gpmf::get_last_klv(b"GYROs\x06\x00\x00")?.unwrap();
/// assert_eq!(place, 0);
/// assert_eq!(last, gpmf::Klv { key: *b"GYRO", data_type: b's', size: 6, repeat: 0 });
/// # Ok::<(), gpmf::Refusal>(())
/// ```
#[derive(Clone, Copy, Debug, PartialEq, Eq, Hash)]
pub struct Klv {
    /// What the item is.
    pub key: Key,
    /// The letter of its type, 0 for a container.
    pub data_type: u8,
    /// The bytes of one sample.
    pub size: u8,
    /// How many samples there are.
    pub repeat: u16,
}

impl Klv {
    pub(crate) fn from_sys(klv: sys::Klv) -> Self {
        Klv { key: klv.key.to_be_bytes(), data_type: klv.data_type, size: klv.size, repeat: klv.repeat }
    }

    fn to_sys(self) -> sys::Klv {
        sys::Klv { key: u32::from_be_bytes(self.key), data_type: self.data_type, size: self.size, repeat: self.repeat }
    }

    /// The length of the payload: size times repeat.
    ///
    /// ```
    /// let header = gpmf::Klv { key: *b"MWET", data_type: b'B', size: 3, repeat: 3 };
    /// assert_eq!(header.data_len(), 9);
    /// ```
    pub fn data_len(self) -> usize {
        unsafe { sys::gpmf_data_len(self.to_sys()) }
    }

    /// The same with its padding to a multiple of four.
    ///
    /// ```
    /// let header = gpmf::Klv { key: *b"MWET", data_type: b'B', size: 3, repeat: 3 };
    /// assert_eq!(header.aligned_data_len(), 12);
    /// ```
    pub fn aligned_data_len(self) -> usize {
        unsafe { sys::gpmf_aligned_data_len(self.to_sys()) }
    }

    /// Whether the value is one text: type `F`, or `c` with repeat 1 or size 1.
    ///
    /// ```
    /// let name = gpmf::Klv { key: *b"STNM", data_type: b'c', size: 1, repeat: 14 };
    /// assert!(name.is_one_text());
    /// ```
    pub fn is_one_text(self) -> bool {
        unsafe { sys::gpmf_is_one_text(self.to_sys()) }
    }

    /// Whether the item is a TYPE whose value is one text.
    ///
    /// ```
    /// let name = gpmf::Klv { key: *b"STNM", data_type: b'c', size: 1, repeat: 14 };
    /// assert!(!name.is_type_text());
    /// ```
    pub fn is_type_text(self) -> bool {
        unsafe { sys::gpmf_is_type_text(self.to_sys()) }
    }

    /// Whether type, size and repeat are those of one number of a letter. The key is not looked at: `s` under CORI or IORI is quaternions all the same.
    ///
    /// ```
    /// let scale = gpmf::Klv { key: *b"SCAL", data_type: b's', size: 2, repeat: 1 };
    /// assert!(scale.is_one_number(b's') && !scale.is_one_number(b'l'));
    /// ```
    pub fn is_one_number(self, letter: u8) -> bool {
        unsafe { sys::gpmf_is_one_number(self.to_sys(), letter) }
    }
}

/// A place to read a header from.
///
/// ```
/// let bytes = b"ABCDB\x05\x00\x01abcde";
/// assert_eq!(gpmf::Cursor::new(0).parse_header(bytes)?.repeat, 1);
/// # Ok::<(), gpmf::Refusal>(())
/// ```
#[derive(Clone, Copy, Debug, PartialEq, Eq, Hash)]
pub struct Cursor {
    at: usize,
}

impl Cursor {
    /// A cursor at a place, wherever that is.
    ///
    /// ```
    /// assert_eq!(gpmf::Cursor::new(864).at(), 864);
    /// ```
    pub fn new(at: usize) -> Self {
        Cursor { at: unsafe { sys::gpmf_cursor_new(at) }.at }
    }

    /// The place.
    ///
    /// ```
    /// assert_eq!(gpmf::Cursor::new(usize::MAX).at(), usize::MAX);
    /// ```
    pub fn at(self) -> usize {
        self.at
    }

    /// The header here, of an item whose payload is all there. Refused with 12 where fewer than 8 bytes are left, with 2 where the payload runs past the end.
    ///
    /// ```
    /// let bytes = b"ABCDB\x05\x00\x01abcd";
    /// let refusal = gpmf::Cursor::new(0).parse_header(bytes).unwrap_err();
    /// assert_eq!(refusal.number, gpmf::Refusal::PAST_END);
    /// ```
    pub fn parse_header(self, bytes: &[u8]) -> Result<Klv, Refusal> {
        let a = unsafe { sys::gpmf_parse_header(sys::Cursor { at: self.at }, bytes.as_ptr(), bytes.len()) };
        is(a.kind, a.number, a.place, Klv::from_sys(a.klv))
    }
}

pub(crate) fn placed(a: sys::ItemAnswer) -> Result<Option<(usize, Klv)>, Refusal> {
    told(a.kind, a.number, a.place, (a.place, Klv::from_sys(a.klv)))
}

/// The last item of the level from a place to the end, if there is one: where it stands, and its header. Refused with 2 or 3, at the place where the search stops.
///
/// ```
/// let level = b"ABCDB\x01\x00\x04abcdEFGHB\x00\x00\x00";
/// let (place, last) = gpmf::last_item(level, 0)?.unwrap();
/// assert_eq!((place, &last.key), (12, b"EFGH"));
/// assert_eq!(gpmf::last_item(level, 20)?, None);
/// assert_eq!(gpmf::last_item(level, 13).unwrap_err().number, gpmf::Refusal::LEFT_OVER);
/// # Ok::<(), gpmf::Refusal>(())
/// ```
pub fn last_item(bytes: &[u8], at: usize) -> Result<Option<(usize, Klv)>, Refusal> {
    placed(unsafe { sys::gpmf_last_item(bytes.as_ptr(), bytes.len(), at) })
}

/// The last item of a payload. Refused with 1, 2 or 3.
///
/// ```
/// assert_eq!(gpmf::get_last_klv(b"")?, None);
/// assert_eq!(gpmf::get_last_klv(b"1234567").unwrap_err().number, gpmf::Refusal::LEFT_OVER);
/// # Ok::<(), gpmf::Refusal>(())
/// ```
pub fn get_last_klv(payload: &[u8]) -> Result<Option<(usize, Klv)>, Refusal> {
    placed(unsafe { sys::gpmf_get_last_klv(payload.as_ptr(), payload.len()) })
}

/// What an item tells of its group: the keys that mean the same share a tag.
///
/// ```
/// use gpmf::Tag;
/// assert_eq!(Tag::of(*b"SCAL"), Tag::Scale);
/// assert_eq!(Tag::of(*b"FACE"), Tag::Other(*b"FACE"));
/// ```
#[derive(Clone, Copy, Debug, PartialEq, Eq, Hash)]
pub enum Tag {
    /// The readings.
    Data,
    /// Their unit: SIUN, UNIT.
    Unit,
    /// The matrix of their axes: MTRX.
    Matrix,
    /// What they are divided by: SCAL.
    Scale,
    /// When they were taken, in microseconds: STMP.
    TimestampUs,
    /// The name of a stream or a device: STNM, DVNM.
    Name,
    /// A temperature.
    Tmpc,
    /// How many samples there were so far.
    Tsmp,
    /// The order of the axes that come in.
    Orin,
    /// The order in which they are wanted.
    Orio,
    /// None of these: known by the key alone. A lookup with it finds no item whose key has a tag; [`Tag::of`] is right for any key, and may find another key of the same tag, as
    /// UNIT for SIUN.
    ///
    /// ```
    /// use gpmf::{Group, Reading, Tag};
    /// let payload = std::fs::read("../../samples/packet.raw")?;
    /// let reading = Reading::of(&payload)?;
    /// let group = Group::of(*b"MWET");
    /// assert!(reading.item(group, Tag::Other(*b"MWET")).is_none());
    /// assert_eq!(reading.item(group, Tag::of(*b"MWET")).unwrap().row().key, *b"MWET");
    /// # Ok::<(), Box<dyn std::error::Error>>(())
    /// ```
    Other(Key),
}

/// The tags by number from 1.
const TAGS: [Tag; 10] = [Tag::Data, Tag::Unit, Tag::Matrix, Tag::Scale, Tag::TimestampUs, Tag::Name, Tag::Tmpc, Tag::Tsmp, Tag::Orin, Tag::Orio];

impl Tag {
    /// The tag of a key.
    ///
    /// ```
    /// assert_eq!(gpmf::Tag::of(*b"STMP"), gpmf::Tag::TimestampUs);
    /// ```
    pub fn of(key: Key) -> Tag {
        Tag::numbered(tag_id(key), key)
    }

    /// The tag of a number; with a number that is no tag's, that of the key alone.
    pub(crate) fn numbered(number: u32, key: Key) -> Tag {
        match number {
            1..=10 => TAGS[number as usize - 1],
            _ => Tag::Other(key),
        }
    }

    /// Its number, as rows have it: 1 to 10, and 0 for others.
    ///
    /// ```
    /// assert_eq!(gpmf::Tag::Data.number(), 1);
    /// assert_eq!(gpmf::Tag::Other(*b"FACE").number(), 0);
    /// ```
    pub fn number(self) -> u32 {
        TAGS.iter().position(|&tag| tag == self).map_or(0, |index| index as u32 + 1)
    }

    /// The key that a lookup compares.
    pub(crate) fn key(self) -> u32 {
        match self {
            Tag::Other(key) => u32::from_be_bytes(key),
            _ => 0,
        }
    }
}

/// The number of a key in the table of tags, 1 to 10; 0 for others.
///
/// ```
/// assert_eq!(gpmf::tag_id(*b"ORIO"), 10);
/// assert_eq!(gpmf::tag_id(*b"STRM"), 0);
/// ```
pub fn tag_id(key: Key) -> u32 {
    unsafe { sys::gpmf_tag_id(u32::from_be_bytes(key)) }
}

/// The group that a key names: its number in the table of groups, 0 for others, and the key.
///
/// ```
/// assert_eq!(gpmf::group_from_key(*b"MWET"), (10, *b"MWET"));
/// assert_eq!(gpmf::group_from_key(*b"FACE"), (0, *b"FACE"));
/// ```
pub fn group_from_key(key: Key) -> (u32, Key) {
    let group = unsafe { sys::gpmf_group_from_key(u32::from_be_bytes(key)) };
    (group.number, group.key.to_be_bytes())
}

/// The number that bytes stand for, the first weighing most; the first eight where there are more.
///
/// ```
/// assert_eq!(gpmf::big_endian(&[1, 2]), 258);
/// ```
pub fn big_endian(part: &[u8]) -> u64 {
    unsafe { sys::gpmf_big_endian(part.as_ptr(), part.len()) }
}

#[cfg(test)]
mod tests {
    use super::*;

    /// The names and numbers of the tags are those of gpmf.h, in another case.
    #[test]
    fn tags_are_those_of_the_header() {
        let header = std::fs::read_to_string("../../include/gpmf.h").unwrap();
        let defined: Vec<(String, u32)> = header
            .lines()
            .filter_map(|line| line.strip_prefix("#define GPMF_TAG_")?.split_once(" UINT32_C("))
            .map(|(name, rest)| (name.replace('_', "").to_lowercase(), rest.split(')').next().unwrap().parse().unwrap()))
            .collect();
        let named = |tag: Tag| format!("{tag:?}").split('(').next().unwrap().to_lowercase();
        let tags: Vec<(String, u32)> = std::iter::once(Tag::Other(*b"FACE")).chain(TAGS).map(|tag| (named(tag), tag.number())).collect();
        assert_eq!(defined, tags);
    }
}
