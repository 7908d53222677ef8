//! All values of all rows, element by element, beside the Rust's reads of the same values. The walk is not counted on either side.
use crate::heap::counted;
use crate::inputs::Take;
use crate::library::{self, NumberRecord, Row, ShapeAnswer};
use crate::table::{count, head_of_ratios, ratio};
use crate::timing::{Times, alternate, whole};
use crate::walk::{NUMBERS, map_of};
use published::plain::{Plain, ReadBack};
use published::tags_impl::{GroupedTagMap, TagValue, probe_read, probe_rows};
use std::hint::black_box;

const TEXT: u32 = 5;
const TEXTS: u32 = 6;

// ---- ours

/// A payload and its rows.
struct Walked<'a> {
    payload: &'a [u8],
    rows: Vec<u32>,
    count: usize,
}

fn walked<'a>(payload: &&'a [u8]) -> Walked<'a> {
    let mut rows = vec![0; NUMBERS];
    let count = library::parse_metadata(payload, false, &mut rows).rows;
    rows.truncate(count * 8);
    Walked { payload, rows, count }
}

/// The value of a row: the calls take the payload, the item's place and that of its TYPE.
struct Value<'a> {
    payload: &'a [u8],
    row: Row,
    shape: ShapeAnswer,
}

impl Walked<'_> {
    fn values(&self) -> impl Iterator<Item = Value<'_>> {
        (0..self.count).map(|n| {
            let row = library::row_at(&self.rows, n).row;
            Value { payload: self.payload, row, shape: library::shape_at(self.payload, row.place as usize, row.type_place as usize) }
        })
    }
}

impl Value<'_> {
    fn columns(&self, row: usize) -> usize {
        if self.shape.value_kind != TEXTS {
            return self.shape.columns;
        }
        library::columns_at(self.payload, self.row.place as usize, self.row.type_place as usize, row).value as usize
    }

    /// By `gpmf_element`, which looks at the item anew each time.
    fn by_place(&self, mut each: impl FnMut(&NumberRecord)) {
        for row in 0..self.shape.rows {
            for column in 0..self.columns(row) {
                each(&library::element(self.payload, self.row.place as usize, self.row.type_place as usize, row, column).element);
            }
        }
    }

    /// By `gpmf_bytes_at`, once, and `gpmf_element_at` on these bytes; a text's bytes are numbers of the letter B.
    fn by_bytes(&self, mut each: impl FnMut(&NumberRecord)) {
        let part = library::bytes_at(self.payload, self.row.place as usize, self.row.type_place as usize);
        let bytes = &self.payload[part.start..part.start + part.length];
        let letter = if self.shape.value_kind == TEXT { b'B' } else { self.row.klv().data_type };
        let (width, columns) = (library::width(letter), self.shape.columns);
        for row in 0..self.shape.rows {
            for column in 0..columns {
                each(&library::element_at(bytes, (row * columns + column) * width, letter));
            }
        }
    }
}

/// The numbers that are lent for a value's elements.
pub const ELEMENTS: usize = 65_536;

impl Walked<'_> {
    /// By `gpmf_elements_at`: each row's value at once, into the same lent numbers.
    fn at_once(&self, numbers: &mut [u64], mut each: impl FnMut(&[u64], &Row)) {
        for n in 0..self.count {
            let row = library::row_at(&self.rows, n).row;
            let count = library::elements_at(self.payload, row.place as usize, row.type_place as usize, numbers).value as usize;
            each(&numbers[..count], &row);
        }
    }
}

/// An element's form, by its type: of the letters and texts in the take.
fn formed(bits: u64, row: &Row) -> Plain {
    match row.klv().data_type {
        b'b' | b's' | b'l' | b'j' => Plain::Signed(bits as i64),
        b'f' | b'q' => Plain::Single(bits as u32),
        b'd' | b'Q' => Plain::Double(bits),
        _ => Plain::Unsigned(bits),
    }
}

// ---- the Rust's

fn values_of(map: &GroupedTagMap) -> impl Iterator<Item = &TagValue> {
    map.values().flat_map(|tags| tags.values()).map(|tag| &tag.value)
}
// ---- both read the same

/// How many elements there are, and a sum that each of them changes, in whatever order they come.
#[derive(Debug, Default, PartialEq)]
struct Sum {
    elements: usize,
    total: u64,
}

impl Sum {
    fn add(&mut self, element: Plain) {
        let (form, bits) = match element {
            Plain::Signed(x) => (1, x as u64),
            Plain::Unsigned(x) => (2, x),
            Plain::Single(x) => (3, x as u64),
            Plain::Double(x) => (4, x),
        };
        self.elements += 1;
        let mixed = (bits ^ form << 60).wrapping_mul(0x9e37_79b9_7f4a_7c15);
        self.total = self.total.wrapping_add(mixed ^ mixed >> 29);
    }
}

/// How many elements all values have: the same by all four ways to read them.
fn check(walked: &[Walked], maps: &[GroupedTagMap]) -> usize {
    let [mut by_place, mut by_bytes, mut at_once, mut theirs] = [Sum::default(), Sum::default(), Sum::default(), Sum::default()];
    let mut numbers = vec![0; ELEMENTS];
    for one in walked {
        one.at_once(&mut numbers, |all, row| all.iter().for_each(|&bits| at_once.add(formed(bits, row))));
    }
    for value in walked.iter().flat_map(Walked::values) {
        value.by_place(|element| by_place.add(element.plain()));
        value.by_bytes(|element| by_bytes.add(element.plain()));
    }
    for value in maps.iter().flat_map(values_of) {
        let ReadBack::Is(rows) = probe_rows(value).2 else { panic!("the Rust cannot read a value") };
        rows.concat().into_iter().for_each(|element| theirs.add(element));
    }
    assert_eq!((&by_place, &by_bytes, &at_once), (&theirs, &theirs, &theirs), "what is compared must be the same values");
    theirs.elements
}

/// Both sides' readings of the same payloads, and how many elements their values have.
pub struct Both<'a> {
    walked: Vec<Walked<'a>>,
    maps: Vec<GroupedTagMap>,
    pub elements: usize,
}

impl<'a> Both<'a> {
    pub fn of(payloads: &[&'a [u8]]) -> Both<'a> {
        let walked: Vec<Walked> = payloads.iter().map(walked).collect();
        let maps: Vec<GroupedTagMap> = payloads.iter().map(|payload| map_of(payload)).collect();
        let elements = check(&walked, &maps);
        Both { walked, maps, elements }
    }

    pub fn ours_by_place(&self) {
        self.walked.iter().flat_map(Walked::values).for_each(|value| value.by_place(keep));
    }
    pub fn ours_by_bytes(&self) {
        self.walked.iter().flat_map(Walked::values).for_each(|value| value.by_bytes(keep));
    }
    pub fn ours_at_once(&self, numbers: &mut [u64]) {
        self.walked.iter().for_each(|one| one.at_once(numbers, |all, _| _ = black_box(all)));
    }
    /// Each value by its own parse function, as the first `get` calls it.
    pub fn theirs(&self) {
        self.maps.iter().flat_map(values_of).for_each(probe_read);
    }

    /// Our three ways and the Rust's, for an element.
    pub fn times(&self) -> [Times; 4] {
        let mut numbers = vec![0; ELEMENTS];
        alternate(
            self.elements,
            [
                &mut whole(|| self.ours_by_place()),
                &mut whole(|| self.ours_by_bytes()),
                &mut whole(|| self.ours_at_once(&mut numbers)),
                &mut whole(|| self.theirs()),
            ],
        )
    }
}

fn keep(element: &NumberRecord) {
    black_box(element);
}

pub fn print(take: &Take) {
    let both = Both::of(&take.payloads());
    let [place, bytes, at_once, rust] = both.times();
    let heap = counted(|| both.theirs()).1.over(both.maps.len());
    let size = format!("{} elements of {} packets", count(both.elements), count(both.maps.len()));
    println!(
        "\n**All values**: {size}; the unit is an element. The walk is not counted on either side. `gpmf_elements_at` is lent 65,536 numbers, which are not cleared before a call; our other calls are lent nothing to write. {heap}"
    );
    head_of_ratios("The Rust");
    ratio("`gpmf_row_at` and `gpmf_shape_at` of each row, `gpmf_element` of each element", place, rust, &[3.]);
    ratio("`gpmf_row_at`, `gpmf_shape_at` and `gpmf_bytes_at` of each row, `gpmf_element_at` of each element", bytes, rust, &[3.]);
    ratio("`gpmf_row_at` and `gpmf_elements_at` of each row", at_once, rust, &[3.]);
}
