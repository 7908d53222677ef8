//! Refusals.
use crate::sys;
use std::fmt;

/// Why input was refused: a number from 1 to 13, and a place in bytes from the start of what was given.
///
/// ```
/// let refusal = gpmf::Reading::of(b"ABCDB\x06\x00\x01abcde").unwrap_err();
/// assert_eq!(refusal, gpmf::Refusal { number: gpmf::Refusal::PAST_END, place: 0 });
/// assert_eq!(refusal.to_string(), "refused with 2 at 0: an item's payload runs past the end of its level (for a value read: of the payload given)");
/// ```
#[derive(Clone, Copy, Debug, PartialEq, Eq, Hash)]
pub struct Refusal {
    /// Which of the refusals this is.
    pub number: u32,
    /// The byte that it concerns. For a reading it is the start of an outermost item, and what stands before it can be read ([`Reading::front`](crate::Reading::front)).
    pub place: usize,
}

/// The meanings, by number from 1.
const MEANINGS: [&str; 13] = [
    "the payload is over the limit of 1,048,576 bytes",
    "an item's payload runs past the end of its level (for a value read: of the payload given)",
    "the search for a container's or a payload's last item meets 1 to 7 bytes, too few for a header",
    "a container with a payload stands at depth 16; the outermost items have depth 0",
    "a row, written or claimed, or an element does not fit the room; for rows that is the lent numbers / 8, rounded down, and at most 4,096",
    "an item's payload has too few bytes for the shape of its value",
    "a text of the value, or its date, is not readable",
    "a TYPE text expands to more than 256 characters",
    "the strings of axes are not three ASCII characters each",
    "a matrix is not nine numbers, or has a row with none above 0.5 or below -0.5",
    "a duration list has more than 2,048 packets, a stamp of 2^42 or more, more than 65,535 readings in a packet, or a duration that is not finite",
    "at the place asked are fewer than 8 bytes, or an item of length 0; or, for a `?` item, no whole TYPE of one text with a payload stands at the place named",
    "the row or the column asked lies outside the value",
];

/// The numbers by name.
impl Refusal {
    /// 1: the payload is too long.
    pub const TOO_LONG: u32 = 1;
    /// 2: an item runs past the end.
    pub const PAST_END: u32 = 2;
    /// 3: bytes are left over where a last item is sought.
    pub const LEFT_OVER: u32 = 3;
    /// 4: containers are nested too deep.
    pub const TOO_DEEP: u32 = 4;
    /// 5: a row, or an element, has no room.
    pub const NO_ROOM: u32 = 5;
    /// 6: a value has too few bytes.
    pub const TOO_FEW: u32 = 6;
    /// 7: a text or a date is not readable.
    pub const UNREADABLE: u32 = 7;
    /// 8: a TYPE text is too long when written out.
    pub const LONG_TYPE: u32 = 8;
    /// 9: the axes are not three characters each.
    pub const BAD_AXES: u32 = 9;
    /// 10: a matrix names no axes.
    pub const BAD_MATRIX: u32 = 10;
    /// 11: a list of durations is over its limits, or has a duration that is not finite.
    pub const BAD_DURATIONS: u32 = 11;
    /// 12: there is no item at the place, or for a `?` item no TYPE of one text at the place named.
    pub const NO_ITEM: u32 = 12;
    /// 13: the row or the column lies outside the value.
    pub const OUTSIDE: u32 = 13;

    /// What the number means, in the words of the repository's README.
    ///
    /// ```
    /// let refusal = gpmf::parse_utcdate(b"yesterday").unwrap_err();
    /// assert_eq!(refusal.meaning(), "an item's payload has too few bytes for the shape of its value");
    /// ```
    pub fn meaning(&self) -> &'static str {
        match self.number {
            1..=13 => MEANINGS[self.number as usize - 1],
            _ => "not a refusal of this library",
        }
    }
}

impl fmt::Display for Refusal {
    fn fmt(&self, f: &mut fmt::Formatter<'_>) -> fmt::Result {
        write!(f, "refused with {} at {}: {}", self.number, self.place, self.meaning())
    }
}

impl std::error::Error for Refusal {}

/// An answer that is there or refused.
pub(crate) fn is<T>(kind: u32, number: u32, place: usize, value: T) -> Result<T, Refusal> {
    if kind == sys::IS {
        Ok(value)
    } else {
        Err(Refusal { number, place })
    }
}

/// An answer that may also be that there is none.
pub(crate) fn told<T>(kind: u32, number: u32, place: usize, value: T) -> Result<Option<T>, Refusal> {
    if kind == sys::NOTHING {
        Ok(None)
    } else {
        is(kind, number, place, value).map(Some)
    }
}

#[cfg(test)]
mod tests {
    use super::*;

    /// Each meaning is the line that the repository's README has for that number.
    #[test]
    fn meanings_are_those_of_the_readme() {
        let readme = std::fs::read_to_string("../../README.md").unwrap();
        for number in 1..=13 {
            let meaning = Refusal { number, place: 0 }.meaning();
            assert!(readme.contains(&format!("\n| {number} | {meaning} |\n")), "{number}: {meaning}");
        }
        assert!(!readme.contains("\n| 14 |"));
    }
}
