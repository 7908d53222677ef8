//! The reading of a payload into lent numbers, and the rows there: eight numbers each.
use crate::item::{Key, Tag};
use crate::refusal::{is, told, Refusal};
use crate::sys;

/// The most rows of a reading.
pub const MOST_ROWS: usize = 4096;

/// How many numbers a row has.
pub const ROW_WIDTH: usize = 8;

/// The group of an item: the caller's, or named by the key of the last item of its container.
///
/// ```
/// use gpmf::Group;
/// assert_ne!(Group::of(*b"MWET"), Group::CALLER);
/// ```
#[derive(Clone, Copy, Debug, PartialEq, Eq, Hash)]
pub struct Group {
    /// 0 the caller's, 1 by key.
    pub kind: u32,
    /// The key, or zeros.
    pub key: Key,
}

impl Group {
    /// The group of the outermost items, and of all items of a forced reading.
    pub const CALLER: Group = Group { kind: 0, key: [0; 4] };

    /// The group that a key names.
    ///
    /// ```
    /// assert_eq!(gpmf::Group::of(*b"MWET"), gpmf::Group { kind: 1, key: *b"MWET" });
    /// ```
    pub const fn of(key: Key) -> Group {
        Group { kind: 1, key }
    }

    pub(crate) fn number(self) -> u32 {
        u32::from_be_bytes(self.key)
    }
}

/// A row of a reading: an item that is no container, and where it stands.
///
/// ```
/// let reading = gpmf::Reading::of(b"ABCDB\x05\x00\x01abcde")?;
/// let row = reading.row(0).unwrap();
/// assert_eq!((row.place, &row.key, row.data_type, row.size, row.repeat), (0, b"ABCD", b'B', 5, 1));
/// assert_eq!((row.group, row.tag(), row.type_place, row.depth), (gpmf::Group::CALLER, gpmf::Tag::Other(*b"ABCD"), None, 0));
/// # Ok::<(), gpmf::Refusal>(())
/// ```
#[derive(Clone, Copy, Debug, PartialEq, Eq, Hash)]
pub struct Row {
    /// Where the item's header stands.
    pub place: u32,
    /// The group of the item.
    pub group: Group,
    /// The number of its tag, 0 for others: see [`Row::tag`].
    pub tag_number: u32,
    /// The item's key.
    pub key: Key,
    /// The letter of its type.
    pub data_type: u8,
    /// The bytes of one sample.
    pub size: u8,
    /// How many samples there are.
    pub repeat: u16,
    /// Where the TYPE in force for a `?` item stands. `Some(4294967295)` is stored as none: the numbers have that for a TYPE that is not there.
    pub type_place: Option<u32>,
    /// How many containers stand round the item.
    pub depth: u32,
}

impl Row {
    /// The tag of the item.
    ///
    /// ```
    /// let reading = gpmf::Reading::of(b"SCALs\x02\x00\x01\x00\x05")?;
    /// assert_eq!(reading.row(0).unwrap().tag(), gpmf::Tag::Scale);
    /// # Ok::<(), gpmf::Refusal>(())
    /// ```
    pub fn tag(&self) -> Tag {
        Tag::numbered(self.tag_number, self.key)
    }

    fn from_sys(row: sys::Row) -> Self {
        let [data_type, size, high, low] = row.shape.to_be_bytes();
        Row {
            place: row.place,
            group: Group { kind: row.group_kind, key: row.group_key.to_be_bytes() },
            tag_number: row.tag,
            key: row.key.to_be_bytes(),
            data_type,
            size,
            repeat: u16::from_be_bytes([high, low]),
            type_place: Some(row.type_place).filter(|&place| place != sys::NO_TYPE),
            depth: row.depth,
        }
    }

    fn to_sys(self) -> sys::Row {
        let [high, low] = self.repeat.to_be_bytes();
        sys::Row {
            place: self.place,
            group_kind: self.group.kind,
            group_key: self.group.number(),
            tag: self.tag_number,
            key: u32::from_be_bytes(self.key),
            shape: u32::from_be_bytes([self.data_type, self.size, high, low]),
            type_place: self.type_place.unwrap_or(sys::NO_TYPE),
            depth: self.depth,
        }
    }
}

/// How many rows a reading has, and how many headers were read for it: one for each item.
///
/// ```
/// let counts = gpmf::parse_metadata(b"GYROs\x06\x00\x00", false, &mut [])?;
/// assert_eq!(counts, gpmf::Counts { rows: 0, headers: 1 });
/// # Ok::<(), gpmf::Refusal>(())
/// ```
#[derive(Clone, Copy, Debug, PartialEq, Eq, Hash)]
pub struct Counts {
    /// The rows.
    pub rows: usize,
    /// The headers read: one for each item, containers, empty items and TYPE items too.
    pub headers: usize,
}

pub(crate) fn counts(a: sys::MetadataAnswer) -> Result<Counts, Refusal> {
    is(a.kind, a.number, a.place, Counts { rows: a.rows, headers: a.headers })
}

/// What a payload is read as; its rows go into the lent numbers, eight each, of which those behind the last row stay as they were. Refused with 1 to 5, and then all
/// of them do. With `forced`, every item has the caller's group. [`Reading::of`](crate::Reading::of) lends the numbers itself.
///
/// ```
/// let mut numbers = [7; 9];
/// let counts = gpmf::parse_metadata(b"ABCDB\x05\x00\x01abcde", false, &mut numbers)?;
/// assert_eq!((counts.rows, numbers[8]), (1, 7));
/// let refusal = gpmf::parse_metadata(b"ABCDB\x05\x00\x01abcde", false, &mut numbers[..7]).unwrap_err();
/// assert_eq!(refusal.number, gpmf::Refusal::NO_ROOM);
/// # Ok::<(), gpmf::Refusal>(())
/// ```
pub fn parse_metadata(payload: &[u8], forced: bool, rows: &mut [u32]) -> Result<Counts, Refusal> {
    counts(unsafe { sys::gpmf_parse_metadata(payload.as_ptr(), payload.len(), forced, rows.as_mut_ptr(), rows.len()) })
}

/// How many rows so many numbers have room for: an eighth, rounded down, and at most [`MOST_ROWS`].
///
/// ```
/// assert_eq!((gpmf::room(17), gpmf::room(usize::MAX)), (2, gpmf::MOST_ROWS));
/// ```
pub fn room(numbers: usize) -> usize {
    unsafe { sys::gpmf_room(numbers) }
}

/// The n-th row, from 0, where the numbers have room for such a row.
///
/// ```
/// let row = gpmf::row_at(&[864, 1, 0x4d574554, 1, 0x4d574554, 0x42030004, u32::MAX, 1], 0).unwrap();
/// assert_eq!((row.group, row.data_type, row.size, row.repeat), (gpmf::Group::of(*b"MWET"), b'B', 3, 4));
/// assert_eq!(gpmf::row_at(&[0; 15], 1), None);
/// ```
pub fn row_at(rows: &[u32], n: usize) -> Option<Row> {
    let a = unsafe { sys::gpmf_row_at(rows.as_ptr(), rows.len(), n) };
    (a.kind == sys::IS).then(|| Row::from_sys(a.row))
}

/// Stores a row as the n-th, and tells whether there is room for it.
///
/// ```
/// let row = gpmf::row_at(&[1, 2, 3, 4, 5, 6, 7, 8], 0).unwrap();
/// let mut numbers = [0; 16];
/// assert!(gpmf::put_row(&mut numbers, 1, row) && !gpmf::put_row(&mut numbers, 2, row));
/// assert_eq!(numbers, [0, 0, 0, 0, 0, 0, 0, 0, 1, 2, 3, 4, 5, 6, 7, 8]);
/// ```
pub fn put_row(out: &mut [u32], n: usize, row: Row) -> bool {
    unsafe { sys::gpmf_put_row(out.as_mut_ptr(), out.len(), n, row.to_sys()) }
}

/// The index of the last of the first `count` rows of a group and a tag; with [`Tag::Other`] of a group and a key, among rows whose own tag is 0. Refused with 5 where so many
/// rows have no room.
///
/// ```
/// use gpmf::{lookup, Group, Tag};
/// let mut rows = [0; 64];
/// let counts = gpmf::parse_metadata(b"ABCDB\x01\x00\x01a\0\0\0SCALB\x01\x00\x01b", false, &mut rows)?;
/// assert_eq!(lookup(&rows, counts.rows, Group::CALLER, Tag::Scale)?, Some(1));
/// assert_eq!(lookup(&rows, counts.rows, Group::CALLER, Tag::Other(*b"ABCD"))?, Some(0));
/// assert_eq!(lookup(&rows, counts.rows, Group::CALLER, Tag::Other(*b"SCAL"))?, None); // the tag of SCAL is Scale
/// assert_eq!(lookup(&rows, counts.rows, Group::CALLER, Tag::Data)?, None);
/// assert!(lookup(&rows, 9, Group::CALLER, Tag::Data).is_err());
/// # Ok::<(), gpmf::Refusal>(())
/// ```
pub fn lookup(rows: &[u32], count: usize, group: Group, tag: Tag) -> Result<Option<usize>, Refusal> {
    let a = unsafe { sys::gpmf_lookup(rows.as_ptr(), rows.len(), count, group.kind, group.number(), tag.number(), tag.key()) };
    told(a.kind, a.number, a.place, a.value as usize)
}
