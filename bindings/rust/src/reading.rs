//! A reading that holds its rows.
use crate::axes::Axes;
use crate::group::{orientation_of_group, scaled_quaternion, stamp_us, Quaternion};
use crate::item::Tag;
use crate::number::Element;
use crate::refusal::Refusal;
use crate::rows::{lookup, parse_metadata, row_at, Counts, Group, Row, MOST_ROWS, ROW_WIDTH};
use crate::value::{bytes_at, columns_at, element, elements_at, shape_at, text_at, Shape};
use std::fmt;

/// What a payload is read as: its rows, which lead to its values.
///
/// ```
/// use gpmf::{Element, Group, Reading, Tag};
/// let payload = std::fs::read("../../samples/packet.raw")?;
/// let reading = Reading::of(&payload)?;
/// let wet = reading.item(Group::of(*b"MWET"), Tag::Data).unwrap();
/// assert_eq!(wet.shape()?.rows, 4);
/// assert_eq!(wet.element(2, 0)?, Element::Unsigned(1));
/// # Ok::<(), Box<dyn std::error::Error>>(())
/// ```
#[derive(Clone)]
pub struct Reading<'a> {
    payload: &'a [u8],
    rows: Vec<u32>,
    counts: Counts,
}

/// Its counts: the bytes and the rows themselves may be a million.
impl fmt::Debug for Reading<'_> {
    fn fmt(&self, f: &mut fmt::Formatter<'_>) -> fmt::Result {
        f.debug_struct("Reading").field("bytes", &self.payload.len()).field("rows", &self.counts.rows).field("headers", &self.counts.headers).finish()
    }
}

impl<'a> Reading<'a> {
    /// Of a payload and the numbers that it was read into.
    pub(crate) fn new(payload: &'a [u8], rows: &[u32], counts: Counts) -> Self {
        Reading { payload, rows: rows[..counts.rows * ROW_WIDTH].to_vec(), counts }
    }

    /// Reads a payload, with room for as many rows as any reading has. Refused with 1 to 5.
    ///
    /// ```
    /// let reading = gpmf::Reading::of(b"ABCDB\x05\x00\x01abcde")?;
    /// assert_eq!((reading.len(), reading.headers()), (1, 1));
    /// # Ok::<(), gpmf::Refusal>(())
    /// ```
    pub fn of(payload: &'a [u8]) -> Result<Self, Refusal> {
        let mut rows = vec![0; MOST_ROWS * ROW_WIDTH];
        let counts = parse_metadata(payload, false, &mut rows)?;
        Ok(Self::new(payload, &rows, counts))
    }

    /// Reads what can be read: the payload, or, where that is refused, the bytes before the refusal's place; then the refusal is told too.
    ///
    /// ```
    /// let payload = std::fs::read("../../samples/packet_damaged.raw")?;
    /// let (front, refusal) = gpmf::Reading::front(&payload);
    /// assert_eq!(refusal.unwrap().place, 804);
    /// assert_eq!((front.payload().len(), front.len()), (804, 39));
    /// # Ok::<(), std::io::Error>(())
    /// ```
    pub fn front(payload: &'a [u8]) -> (Self, Option<Refusal>) {
        Self::or_front(payload, Self::of(payload))
    }

    /// A reading, or that of the bytes before the refusal's place, which are accepted.
    pub(crate) fn or_front(payload: &'a [u8], reading: Result<Self, Refusal>) -> (Self, Option<Refusal>) {
        match reading {
            Ok(reading) => (reading, None),
            Err(refusal) => (Self::of(&payload[..refusal.place]).expect("the bytes before a refusal's place are accepted"), Some(refusal)),
        }
    }

    /// The bytes that were read.
    ///
    /// ```
    /// assert_eq!(gpmf::Reading::of(b"1234567")?.payload(), b"1234567");
    /// # Ok::<(), gpmf::Refusal>(())
    /// ```
    pub fn payload(&self) -> &'a [u8] {
        self.payload
    }

    /// How many rows there are.
    ///
    /// ```
    /// assert_eq!(gpmf::Reading::of(b"")?.len(), 0);
    /// # Ok::<(), gpmf::Refusal>(())
    /// ```
    pub fn len(&self) -> usize {
        self.counts.rows
    }

    /// Whether there are none.
    ///
    /// ```
    /// assert!(gpmf::Reading::of(b"GYROs\x06\x00\x00")?.is_empty());
    /// # Ok::<(), gpmf::Refusal>(())
    /// ```
    pub fn is_empty(&self) -> bool {
        self.len() == 0
    }

    /// How many headers were read: one for each item, containers, empty items and TYPE items too.
    ///
    /// ```
    /// assert_eq!(gpmf::Reading::of(b"GYROs\x06\x00\x00")?.headers(), 1);
    /// # Ok::<(), gpmf::Refusal>(())
    /// ```
    pub fn headers(&self) -> usize {
        self.counts.headers
    }

    /// The numbers of the rows, eight each, as the calls that take `rows` want them.
    ///
    /// ```
    /// let reading = gpmf::Reading::of(b"ABCDB\x05\x00\x01abcde")?;
    /// assert_eq!(reading.numbers(), [0, 0, 0, 0, 0x41424344, 0x42050001, u32::MAX, 0]);
    /// # Ok::<(), gpmf::Refusal>(())
    /// ```
    pub fn numbers(&self) -> &[u32] {
        &self.rows
    }

    /// The n-th row, from 0.
    ///
    /// ```
    /// let payload = std::fs::read("../../samples/packet.raw")?;
    /// let reading = gpmf::Reading::of(&payload)?;
    /// assert_eq!(reading.row(42).unwrap().key, *b"MWET");
    /// assert_eq!(reading.row(58), None);
    /// # Ok::<(), Box<dyn std::error::Error>>(())
    /// ```
    pub fn row(&self, n: usize) -> Option<Row> {
        row_at(&self.rows, n)
    }

    /// The rows, in the order of the items.
    ///
    /// ```
    /// let payload = std::fs::read("../../samples/packet.raw")?;
    /// let reading = gpmf::Reading::of(&payload)?;
    /// let names = reading.rows().filter(|row| row.key == *b"STNM").count();
    /// assert_eq!(names, 9);
    /// # Ok::<(), Box<dyn std::error::Error>>(())
    /// ```
    pub fn rows(&self) -> impl Iterator<Item = Row> + '_ {
        (0..self.len()).filter_map(|n| self.row(n))
    }

    /// The item that a row leads to.
    ///
    /// ```
    /// let payload = std::fs::read("../../samples/packet.raw")?;
    /// let reading = gpmf::Reading::of(&payload)?;
    /// let faces = reading.rows().find(|row| row.key == *b"FACE").unwrap();
    /// assert_eq!(reading.item_of(faces).shape()?.kind, gpmf::Kind::Structures);
    /// # Ok::<(), Box<dyn std::error::Error>>(())
    /// ```
    pub fn item_of(&self, row: Row) -> Item<'a> {
        Item { payload: self.payload, row }
    }

    /// The item of a group and tag: of several the last. [`Tag::Other`] finds no key that has a tag, as MWET has: there take [`Tag::of`].
    ///
    /// ```
    /// use gpmf::{Group, Reading, Tag};
    /// let payload = std::fs::read("../../samples/packet.raw")?;
    /// let reading = Reading::of(&payload)?;
    /// assert_eq!(reading.item(Group::of(*b"AALP"), Tag::Scale).unwrap().row().place, 956);
    /// assert_eq!(reading.item(Group::of(*b"GPS5"), Tag::Other(*b"GPSU")).unwrap().row().place, 1084);
    /// assert!(reading.item(Group::of(*b"MWET"), Tag::Scale).is_none());
    /// # Ok::<(), Box<dyn std::error::Error>>(())
    /// ```
    pub fn item(&self, group: Group, tag: Tag) -> Option<Item<'a>> {
        let n = lookup(&self.rows, self.len(), group, tag).expect("the rows have room for themselves")?;
        self.row(n).map(|row| self.item_of(row))
    }

    /// The stamp of a group, in microseconds of the camera's clock.
    ///
    /// ```
    /// let payload = std::fs::read("../../samples/packet.raw")?;
    /// let reading = gpmf::Reading::of(&payload)?;
    /// assert_eq!(reading.stamp_us(gpmf::Group::of(*b"MWET"))?, Some(1001518));
    /// # Ok::<(), Box<dyn std::error::Error>>(())
    /// ```
    pub fn stamp_us(&self, group: Group) -> Result<Option<u64>, Refusal> {
        stamp_us(self.payload, &self.rows, self.len(), group)
    }

    /// The quaternion of a row of CORI or IORI, scaled.
    ///
    /// ```
    /// let payload = std::fs::read("../../samples/packet.raw")?;
    /// let reading = gpmf::Reading::of(&payload)?;
    /// let first = reading.quaternion(gpmf::Group::of(*b"CORI"), 0)?.unwrap();
    /// assert_eq!(first.w, -10196.0 / 32767.0);
    /// # Ok::<(), Box<dyn std::error::Error>>(())
    /// ```
    pub fn quaternion(&self, group: Group, row: usize) -> Result<Option<Quaternion>, Refusal> {
        scaled_quaternion(self.payload, &self.rows, self.len(), group, row)
    }

    /// The axes of a group.
    ///
    /// ```
    /// let payload = std::fs::read("../../samples/packet.raw")?;
    /// let reading = gpmf::Reading::of(&payload)?;
    /// assert_eq!(reading.axes(gpmf::Group::of(*b"ACCL"))?, Some(*b"ZyX"));
    /// # Ok::<(), Box<dyn std::error::Error>>(())
    /// ```
    pub fn axes(&self, group: Group) -> Result<Option<Axes>, Refusal> {
        orientation_of_group(self.payload, &self.rows, self.len(), group)
    }
}

/// An item of a reading, with its value.
///
/// ```
/// let payload = std::fs::read("../../samples/packet.raw")?;
/// let reading = gpmf::Reading::of(&payload)?;
/// let gain = reading.item(gpmf::Group::of(*b"AALP"), gpmf::Tag::Data).unwrap();
/// assert_eq!(gain.element(0, 0)?, gpmf::Element::Signed(-35));
/// # Ok::<(), Box<dyn std::error::Error>>(())
/// ```
#[derive(Clone, Copy)]
pub struct Item<'a> {
    payload: &'a [u8],
    row: Row,
}

/// Its row, which tells its place and its length, and not the bytes that were read.
impl fmt::Debug for Item<'_> {
    fn fmt(&self, f: &mut fmt::Formatter<'_>) -> fmt::Result {
        f.debug_struct("Item").field("row", &self.row).finish_non_exhaustive()
    }
}

impl<'a> Item<'a> {
    /// Its own payload, as a part of the bytes that were read.
    ///
    /// ```
    /// let reading = gpmf::Reading::of(b"ABCDB\x05\x00\x01abcde")?;
    /// assert_eq!(reading.item_of(reading.row(0).unwrap()).bytes()?, b"abcde");
    /// # Ok::<(), gpmf::Refusal>(())
    /// ```
    pub fn bytes(&self) -> Result<&'a [u8], Refusal> {
        bytes_at(self.payload, self.row.place as usize, self.type_place())
    }

    /// The text of a row of its value: of one text without the zeros behind it, of several up to the first zero. Refused with 13 too where the value is no text. Each call goes
    /// through all texts of several, as [`text_at`](crate::text_at).
    ///
    /// ```
    /// let reading = gpmf::Reading::of(b"UNITc\x03\x00\x02degm\0s")?;
    /// let units = reading.item_of(reading.row(0).unwrap());
    /// assert_eq!((units.text(0)?, units.text(1)?), (b"deg".as_slice(), b"m".as_slice()));
    /// # Ok::<(), gpmf::Refusal>(())
    /// ```
    pub fn text(&self, row: usize) -> Result<&'a [u8], Refusal> {
        text_at(self.payload, self.row.place as usize, self.type_place(), row)
    }

    /// Its row.
    ///
    /// ```
    /// let reading = gpmf::Reading::of(b"ABCDB\x05\x00\x01abcde")?;
    /// let row = reading.row(0).unwrap();
    /// assert_eq!(reading.item_of(row).row(), row);
    /// # Ok::<(), gpmf::Refusal>(())
    /// ```
    pub fn row(&self) -> Row {
        self.row
    }

    /// What its value is called, its rows, and the columns of its first row.
    ///
    /// ```
    /// let reading = gpmf::Reading::of(b"ABCDB\x05\x00\x01abcde")?;
    /// let shape = reading.item_of(reading.row(0).unwrap()).shape()?;
    /// assert_eq!(shape, gpmf::Shape { kind: gpmf::Kind::Nested, rows: 1, columns: 5 });
    /// # Ok::<(), gpmf::Refusal>(())
    /// ```
    pub fn shape(&self) -> Result<Shape, Refusal> {
        shape_at(self.payload, self.row.place as usize, self.type_place())
    }

    /// The columns of a row of its value. Each call costs as much as [`Item::element`].
    ///
    /// ```
    /// let reading = gpmf::Reading::of(b"UNITc\x03\x00\x02degm\0\0")?;
    /// assert_eq!(reading.item_of(reading.row(0).unwrap()).columns(1)?, 1);
    /// # Ok::<(), gpmf::Refusal>(())
    /// ```
    pub fn columns(&self, row: usize) -> Result<usize, Refusal> {
        columns_at(self.payload, self.row.place as usize, self.type_place(), row)
    }

    /// The element at a row and a column of its value. Refused with 2, 6, 7, 8, 12 or 13. Each call goes through the whole TYPE text of a structure, or through all texts of several:
    /// for all elements take [`Item::elements_at`].
    ///
    /// ```
    /// let reading = gpmf::Reading::of(b"ABCDB\x05\x00\x01abcde")?;
    /// let item = reading.item_of(reading.row(0).unwrap());
    /// assert_eq!(item.element(0, 4)?, gpmf::Element::Unsigned(b'e'.into()));
    /// assert_eq!(item.element(0, 5).unwrap_err().number, gpmf::Refusal::OUTSIDE);
    /// # Ok::<(), gpmf::Refusal>(())
    /// ```
    pub fn element(&self, row: usize, column: usize) -> Result<Element, Refusal> {
        element(self.payload, self.row.place as usize, self.type_place(), row, column)
    }

    /// All elements of its value, each as one number, and how many there are, as [`elements_at`](crate::elements_at). Of a structure this goes through the TYPE text
    /// twice in all, and `element` at each call.
    ///
    /// ```
    /// let reading = gpmf::Reading::of(b"TYPEc\x01\x00\x02bf\0\0ABCD?\x05\x00\x01\xff\x3f\xc0\0\0")?;
    /// let item = reading.item_of(reading.row(0).unwrap());
    /// let mut numbers = [0; 3];
    /// assert_eq!(item.elements_at(&mut numbers)?, 2);
    /// assert_eq!(numbers, [-1_i64 as u64, gpmf::single_bits(1.5).into(), 0]);
    /// assert_eq!(item.elements_at(&mut numbers[..1]).unwrap_err().number, gpmf::Refusal::NO_ROOM);
    /// # Ok::<(), gpmf::Refusal>(())
    /// ```
    pub fn elements_at(&self, numbers: &mut [u64]) -> Result<usize, Refusal> {
        elements_at(self.payload, self.row.place as usize, self.type_place(), numbers)
    }

    fn type_place(&self) -> Option<usize> {
        self.row.type_place.map(|place| place as usize)
    }
}
