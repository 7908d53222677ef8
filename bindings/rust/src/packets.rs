//! Packets of a raw file.
use crate::reading::Reading;
use crate::refusal::Refusal;
use crate::rows::{counts, Counts, MOST_ROWS, ROW_WIDTH};
use crate::sys;
use std::fmt;
use std::ops::Range;

/// The place of the first DEVC from a place on.
///
/// ```
/// assert_eq!(gpmf::find_devc(b"..DEVC", 0), Some(2));
/// assert_eq!(gpmf::find_devc(b"..DEVC", 3), None);
/// ```
pub fn find_devc(file: &[u8], from: usize) -> Option<usize> {
    let a = unsafe { sys::gpmf_find_devc(file.as_ptr(), file.len(), from) };
    (a.kind == sys::IS).then_some(a.value as usize)
}

/// A place in a raw file, to go on from packet by packet. [`packets`] is easier where the file is in memory.
///
/// ```
/// let file = std::fs::read("../../samples/take.raw")?;
/// let (first, rest) = gpmf::PacketCursor::new(0).next(&file).unwrap();
/// let (second, _) = rest.next(&file).unwrap();
/// assert_eq!((first, second), (8..1220, 1228..2448));
/// # Ok::<(), std::io::Error>(())
/// ```
#[derive(Clone, Copy, Debug, PartialEq, Eq, Hash)]
pub struct PacketCursor {
    at: usize,
}

/// What a window of a file that is read piece by piece tells of the next packet.
///
/// ```
/// use gpmf::{InWindow, PacketCursor};
/// assert_eq!(PacketCursor::new(0).next_in(b"DEVC", true), InWindow::More { from: 0 });
/// assert_eq!(PacketCursor::new(0).next_in(b"DEVC", false), InWindow::End);
/// ```
#[derive(Clone, Debug, PartialEq, Eq, Hash)]
pub enum InWindow<T> {
    /// The packet's bytes in the window, what was asked of them, and the cursor to go on with.
    Packet(Range<usize>, T, PacketCursor),
    /// Not known before more of the file is there: go on with a window that begins at this place of this one, and in that with `PacketCursor::new(0)`.
    More {
        /// Nothing before it is needed.
        from: usize,
    },
    /// Of a reading alone: a packet that starts here and is over the limit wherever it ends, its refusal, and the cursor to go on with.
    OverLimit(usize, Refusal, PacketCursor),
    /// There are no more.
    End,
}

fn range(packet: sys::Packet) -> Range<usize> {
    packet.start..packet.end
}

impl PacketCursor {
    /// A cursor at a place: 0 for all packets of a file.
    ///
    /// ```
    /// assert_eq!(gpmf::PacketCursor::new(0).at(), 0);
    /// ```
    pub fn new(at: usize) -> Self {
        Self::from_sys(unsafe { sys::gpmf_packets_new(at) })
    }

    /// The place.
    ///
    /// ```
    /// assert_eq!(gpmf::PacketCursor::new(1220).at(), 1220);
    /// ```
    pub fn at(self) -> usize {
        self.at
    }

    fn from_sys(packets: sys::Packets) -> Self {
        PacketCursor { at: packets.at }
    }

    fn to_sys(self) -> sys::Packets {
        sys::Packets { at: self.at }
    }

    /// The next packet of a file in memory, by its bytes, and the cursor to go on with.
    ///
    /// ```
    /// assert_eq!(gpmf::PacketCursor::new(0).next(b"no packet"), None);
    /// ```
    pub fn next(self, file: &[u8]) -> Option<(Range<usize>, PacketCursor)> {
        let a = unsafe { sys::gpmf_packets_next(self.to_sys(), file.as_ptr(), file.len()) };
        (a.kind == sys::IS).then(|| (range(a.packet), Self::from_sys(a.rest)))
    }

    /// The same in a window of a file that is read piece by piece; `more`: bytes of the file follow the window.
    ///
    /// ```
    /// use gpmf::{InWindow, PacketCursor};
    /// let file = std::fs::read("../../samples/take.raw")?;
    /// let cursor = PacketCursor::new(0);
    /// assert_eq!(cursor.next_in(&file[..1220], true), InWindow::More { from: 0 });
    /// assert!(matches!(cursor.next_in(&file[..1224], true), InWindow::Packet(range, (), _) if range == (8..1220)));
    /// # Ok::<(), std::io::Error>(())
    /// ```
    pub fn next_in(self, window: &[u8], more: bool) -> InWindow<()> {
        let a = unsafe { sys::gpmf_packets_next_in(self.to_sys(), window.as_ptr(), window.len(), more) };
        match a.kind {
            sys::IS => InWindow::Packet(range(a.packet), (), Self::from_sys(a.rest)),
            sys::MORE => InWindow::More { from: a.place },
            _ => InWindow::End,
        }
    }

    /// The next packet of a file, what its payload is read as ([`parse_metadata`](crate::parse_metadata)), and the cursor to go on with. Row places count from the
    /// packet's start.
    ///
    /// ```
    /// let file = std::fs::read("../../samples/take.raw")?;
    /// let mut rows = [0; 512];
    /// let (range, counts, _) = gpmf::PacketCursor::new(0).next_metadata(&file, false, &mut rows).unwrap();
    /// assert_eq!((range, counts?.rows), (8..1220, 57));
    /// # Ok::<(), Box<dyn std::error::Error>>(())
    /// ```
    pub fn next_metadata(self, file: &[u8], forced: bool, rows: &mut [u32]) -> Option<(Range<usize>, Result<Counts, Refusal>, PacketCursor)> {
        let a = unsafe { sys::gpmf_next_metadata(self.to_sys(), file.as_ptr(), file.len(), forced, rows.as_mut_ptr(), rows.len()) };
        (a.kind == sys::IS).then(|| (range(a.packet), counts(a.metadata), Self::from_sys(a.rest)))
    }

    /// The same in a window of a file.
    ///
    /// ```
    /// use gpmf::{InWindow, PacketCursor};
    /// let file = std::fs::read("../../samples/take.raw")?;
    /// let mut rows = [0; 512];
    /// match PacketCursor::new(0).next_metadata_in(&file[..2000], true, false, &mut rows) {
    ///     InWindow::Packet(range, counts, rest) => assert_eq!((range, counts?.headers, rest.at()), (8..1220, 68, 1220)),
    ///     other => panic!("{other:?}"),
    /// }
    /// # Ok::<(), Box<dyn std::error::Error>>(())
    /// ```
    pub fn next_metadata_in(self, window: &[u8], more: bool, forced: bool, rows: &mut [u32]) -> InWindow<Result<Counts, Refusal>> {
        let a = unsafe { sys::gpmf_next_metadata_in(self.to_sys(), window.as_ptr(), window.len(), more, forced, rows.as_mut_ptr(), rows.len()) };
        match a.kind {
            sys::IS => InWindow::Packet(range(a.packet), counts(a.metadata), Self::from_sys(a.rest)),
            sys::MORE => InWindow::More { from: a.place },
            sys::REFUSED => InWindow::OverLimit(a.packet.start, Refusal { number: a.number, place: a.place }, Self::from_sys(a.rest)),
            _ => InWindow::End,
        }
    }
}

/// A packet of a raw file.
///
/// ```
/// let file = std::fs::read("../../samples/damaged.raw")?;
/// let second = gpmf::packets(&file).nth(1).unwrap();
/// assert_eq!((second.range(), second.payload().len()), (1228..2430, 1202));
/// assert_eq!(second.reading().unwrap_err(), gpmf::Refusal { number: gpmf::Refusal::PAST_END, place: 984 });
/// # Ok::<(), std::io::Error>(())
/// ```
#[derive(Clone)]
pub struct Packet<'a> {
    range: Range<usize>,
    payload: &'a [u8],
    reading: Result<Reading<'a>, Refusal>, // what the payload is read as, and nothing else: `front` rests on that
}

/// Where it stands, and what it is read as, without its bytes.
impl fmt::Debug for Packet<'_> {
    fn fmt(&self, f: &mut fmt::Formatter<'_>) -> fmt::Result {
        f.debug_struct("Packet").field("range", &self.range).field("reading", &self.reading).finish()
    }
}

impl<'a> Packet<'a> {
    /// Where its payload stands in the file.
    ///
    /// ```
    /// let file = std::fs::read("../../samples/take.raw")?;
    /// assert_eq!(gpmf::packets(&file).next().unwrap().range(), 8..1220);
    /// # Ok::<(), std::io::Error>(())
    /// ```
    pub fn range(&self) -> Range<usize> {
        self.range.clone()
    }

    /// Its payload, as a part of the file.
    ///
    /// ```
    /// let file = std::fs::read("../../samples/take.raw")?;
    /// assert_eq!(gpmf::packets(&file).next().unwrap().payload(), &file[8..1220]);
    /// # Ok::<(), std::io::Error>(())
    /// ```
    pub fn payload(&self) -> &'a [u8] {
        self.payload
    }

    /// What that is read as. Refused with 1 to 5.
    ///
    /// ```
    /// let file = std::fs::read("../../samples/take.raw")?;
    /// assert_eq!(gpmf::packets(&file).next().unwrap().reading()?.len(), 57);
    /// # Ok::<(), Box<dyn std::error::Error>>(())
    /// ```
    pub fn reading(&self) -> Result<&Reading<'a>, Refusal> {
        self.reading.as_ref().map_err(|&refusal| refusal)
    }

    /// Its reading, or where that is refused the reading of what stands before the place, and the refusal.
    ///
    /// ```
    /// let file = std::fs::read("../../samples/damaged.raw")?;
    /// let second = gpmf::packets(&file).nth(1).unwrap();
    /// let (front, refusal) = second.front();
    /// assert_eq!((front.len(), refusal.unwrap().place), (49, 984));
    /// # Ok::<(), std::io::Error>(())
    /// ```
    pub fn front(self) -> (Reading<'a>, Option<Refusal>) {
        Reading::or_front(self.payload, self.reading)
    }
}

/// The packets of a file in memory, one after the other, each read.
///
/// ```
/// let file = std::fs::read("../../samples/damaged.raw")?;
/// let packets: gpmf::Packets = gpmf::packets(&file);
/// assert_eq!(packets.filter(|packet| packet.reading().is_ok()).count(), 2);
/// # Ok::<(), std::io::Error>(())
/// ```
#[derive(Clone)]
pub struct Packets<'a> {
    file: &'a [u8],
    cursor: PacketCursor,
    rows: Vec<u32>,
}

/// How long the file is, and the place from which the next packet is sought.
impl fmt::Debug for Packets<'_> {
    fn fmt(&self, f: &mut fmt::Formatter<'_>) -> fmt::Result {
        f.debug_struct("Packets").field("bytes", &self.file.len()).field("at", &self.cursor.at).finish()
    }
}

/// The packets of a raw file.
///
/// ```
/// let file = std::fs::read("../../samples/take.raw")?;
/// for packet in gpmf::packets(&file) {
///     println!("{} bytes, {} rows", packet.payload().len(), packet.reading()?.len());
/// }
/// # Ok::<(), Box<dyn std::error::Error>>(())
/// ```
pub fn packets(file: &[u8]) -> Packets<'_> {
    Packets { file, cursor: PacketCursor::new(0), rows: vec![0; MOST_ROWS * ROW_WIDTH] }
}

impl<'a> Iterator for Packets<'a> {
    type Item = Packet<'a>;

    fn next(&mut self) -> Option<Packet<'a>> {
        let (range, counts, rest) = self.cursor.next_metadata(self.file, false, &mut self.rows)?;
        self.cursor = rest;
        let payload = &self.file[range.clone()];
        let reading = counts.map(|counts| Reading::new(payload, &self.rows, counts));
        Some(Packet { range, payload, reading })
    }
}

impl std::iter::FusedIterator for Packets<'_> {}
