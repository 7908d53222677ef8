//! The proved library: include/gpmf.h in Rust, and each call on slices.
use published::plain::{Plain, double, single};

pub const REFUSED: u32 = 0;
pub const IS: u32 = 1;
pub const NOTHING: u32 = 2;
pub const MORE: u32 = 3;

pub const MOST_BYTES: usize = 1_048_576;
pub const MOST_ROWS: usize = 4096;
pub const NO_TYPE: u32 = u32::MAX;

/// What a value is called, in the order of the header's numbers.
pub const KINDS: [&str; 12] =
    ["single", "list", "vector", "timed vector", "nested", "text", "texts", "identifier", "date", "quaternions", "structures", "unknown"];

macro_rules! records {
    ($($name:ident { $($field:ident: $type:ty),* })*) => {
        $(#[repr(C)] #[derive(Clone, Copy, Debug, Default, PartialEq)] pub struct $name { $(pub $field: $type),* })*
    };
}
records! {
    Klv { key: u32, data_type: u8, size: u8, repeat: u16 }
    GroupId { number: u32, key: u32 }
    Row { place: u32, group_kind: u32, group_key: u32, tag: u32, key: u32, shape: u32, type_place: u32, depth: u32 }
    Cursor { at: usize }
    Exact { numerator: i64, denominator: u64 }
    NumberRecord { form: u32, single_value: f32, signed_value: i64, unsigned_value: u64, double_value: f64 }
    Axes { first: u8, second: u8, third: u8 }
    Matrix { entries: [f32; 9] }
    Quaternion { w: f64, x: f64, y: f64, z: f64 }
    Packet { start: usize, end: usize }
    Packets { at: usize }
    WholeAnswer { kind: u32, number: u32, place: usize, value: u64 }
    RealAnswer { kind: u32, number: u32, place: usize, value: f64 }
    ItemAnswer { kind: u32, number: u32, place: usize, klv: Klv }
    ElementAnswer { kind: u32, number: u32, place: usize, element: NumberRecord }
    PartAnswer { kind: u32, number: u32, place: usize, start: usize, length: usize }
    ShapeAnswer { kind: u32, number: u32, place: usize, value_kind: u32, rows: usize, columns: usize }
    RowAnswer { kind: u32, number: u32, place: usize, row: Row }
    MetadataAnswer { kind: u32, number: u32, place: usize, rows: usize, headers: usize }
    AxesAnswer { kind: u32, number: u32, place: usize, axes: Axes }
    OrientationsAnswer { kind: u32, number: u32, place: usize, orin: Axes, orio: Axes }
    QuaternionAnswer { kind: u32, number: u32, place: usize, quaternion: Quaternion }
    PacketAnswer { kind: u32, number: u32, place: usize, packet: Packet, rest: Packets }
    PacketMetadataAnswer { kind: u32, number: u32, place: usize, packet: Packet, metadata: MetadataAnswer, rest: Packets }
}

/// The kind of an answer, and the number and the place of a refusal.
pub type Told = (u32, u32, usize);

macro_rules! tell {
    ($($name:ident)*) => { $(impl $name { pub fn told(&self) -> Told { (self.kind, self.number, self.place) } })* };
}
tell! { WholeAnswer RealAnswer ItemAnswer ElementAnswer PartAnswer ShapeAnswer MetadataAnswer AxesAnswer OrientationsAnswer QuaternionAnswer }

impl Row {
    pub fn klv(&self) -> Klv {
        Klv { key: self.key, data_type: (self.shape >> 24) as u8, size: (self.shape >> 16) as u8, repeat: self.shape as u16 }
    }
}
impl NumberRecord {
    pub fn plain(&self) -> Plain {
        match self.form {
            0 => Plain::Signed(self.signed_value),
            1 => Plain::Unsigned(self.unsigned_value),
            2 => single(self.single_value),
            _ => double(self.double_value),
        }
    }
}

/// Declares a call of the header, and a function of the same name behind it in which a pointer and a length are one slice.
macro_rules! calls {
    (@type slice $t:ty) => { &[$t] };
    (@type lent $t:ty) => { &mut [$t] };
    (@type plain $t:ty) => { $t };
    ($($link:literal $name:ident($($how:ident $arg:ident: $t:ty),*) -> $answer:ty;)*) => {
        $(pub fn $name($($arg: calls!(@type $how $t)),*) -> $answer { calls!(@call $link $answer; []; []; $($how $arg: $t),*) })*
    };
    (@call $link:literal $answer:ty; [$($types:ty),*]; [$($given:expr),*]; ) => {{
        unsafe extern "C" { #[link_name = $link] fn linked($(_: $types),*) -> $answer; }
        unsafe { linked($($given),*) }
    }};
    (@call $link:literal $answer:ty; [$($types:ty),*]; [$($given:expr),*]; slice $arg:ident: $t:ty $(, $($rest:tt)*)?) => {
        calls!(@call $link $answer; [$($types,)* *const $t, usize]; [$($given,)* $arg.as_ptr(), $arg.len()]; $($($rest)*)?)
    };
    (@call $link:literal $answer:ty; [$($types:ty),*]; [$($given:expr),*]; lent $arg:ident: $t:ty $(, $($rest:tt)*)?) => {
        calls!(@call $link $answer; [$($types,)* *mut $t, usize]; [$($given,)* $arg.as_mut_ptr(), $arg.len()]; $($($rest)*)?)
    };
    (@call $link:literal $answer:ty; [$($types:ty),*]; [$($given:expr),*]; plain $arg:ident: $t:ty $(, $($rest:tt)*)?) => {
        calls!(@call $link $answer; [$($types,)* $t]; [$($given,)* $arg]; $($($rest)*)?)
    };
}
calls! {
    "gpmf_parse_metadata" parse_metadata(slice payload: u8, plain forced: bool, lent rows: u32) -> MetadataAnswer;
    "gpmf_room" room(plain numbers: usize) -> usize;
    "gpmf_row_at" row_at(slice rows: u32, plain n: usize) -> RowAnswer;
    "gpmf_put_row" put_row(lent out: u32, plain n: usize, plain row: Row) -> bool;
    "gpmf_lookup" lookup(slice rows: u32, plain count: usize, plain group_kind: u32, plain group_key: u32, plain tag: u32, plain key: u32) -> WholeAnswer;
    "gpmf_last_item" last_item(slice s: u8, plain at: usize) -> ItemAnswer;
    "gpmf_get_last_klv" get_last_klv(slice payload: u8) -> ItemAnswer;
    "gpmf_element" element(slice s: u8, plain at: usize, plain type_at: usize, plain row: usize, plain column: usize) -> ElementAnswer;
    "gpmf_shape_at" shape_at(slice s: u8, plain at: usize, plain type_at: usize) -> ShapeAnswer;
    "gpmf_columns_at" columns_at(slice s: u8, plain at: usize, plain type_at: usize, plain row: usize) -> WholeAnswer;
    "gpmf_klv_at" klv_at(slice s: u8, plain at: usize, plain type_at: usize) -> ItemAnswer;
    "gpmf_bytes_at" bytes_at(slice s: u8, plain at: usize, plain type_at: usize) -> PartAnswer;
    "gpmf_text_at" text_at(slice s: u8, plain at: usize, plain type_at: usize, plain row: usize) -> PartAnswer;
    "gpmf_elements_at" elements_at(slice s: u8, plain at: usize, plain type_at: usize, lent numbers: u64) -> WholeAnswer;
    "gpmf_cursor_new" cursor_new(plain at: usize) -> Cursor;
    "gpmf_parse_header" parse_header(plain cursor: Cursor, slice s: u8) -> ItemAnswer;
    "gpmf_data_len" data_len(plain klv: Klv) -> usize;
    "gpmf_aligned_data_len" aligned_data_len(plain klv: Klv) -> usize;
    "gpmf_is_one_text" is_one_text(plain klv: Klv) -> bool;
    "gpmf_is_type_text" is_type_text(plain klv: Klv) -> bool;
    "gpmf_tag_id" tag_id(plain key: u32) -> u32;
    "gpmf_group_from_key" group_from_key(plain key: u32) -> GroupId;
    "gpmf_big_endian" big_endian(slice part: u8) -> u64;
    "gpmf_q15_16" q15_16(plain high: i16, plain low: u16) -> f32;
    "gpmf_q31_32" q31_32(plain high: i32, plain low: u32) -> f64;
    "gpmf_q31_32_exact" q31_32_exact(plain high: i32, plain low: u32) -> Exact;
    "gpmf_width" width(plain letter: u8) -> usize;
    "gpmf_element_at" element_at(slice s: u8, plain at: usize, plain letter: u8) -> NumberRecord;
    "gpmf_exact_at" exact_at(slice s: u8, plain at: usize) -> Exact;
    "gpmf_single_bits" single_bits(plain x: f32) -> u32;
    "gpmf_double_bits" double_bits(plain x: f64) -> u64;
    "gpmf_latin1_len" latin1_len(slice text: u8) -> usize;
    "gpmf_utf8_len" utf8_len(slice text: u8) -> usize;
    "gpmf_is_utf8" is_utf8(slice text: u8) -> bool;
    "gpmf_are_utf8" are_utf8(slice texts: u8, plain size: usize) -> bool;
    "gpmf_parse_utcdate" parse_utcdate(slice text: u8) -> WholeAnswer;
    "gpmf_tagged_item" tagged_item(slice s: u8, slice rows: u32, plain count: usize, plain group_kind: u32,
        plain group_key: u32, plain tag: u32, plain key: u32) -> ItemAnswer;
    "gpmf_is_one_number" is_one_number(plain klv: Klv, plain letter: u8) -> bool;
    "gpmf_stamp_us" stamp_us(slice s: u8, slice rows: u32, plain count: usize, plain group_kind: u32, plain group_key: u32) -> WholeAnswer;
    "gpmf_scaled_quaternion" scaled_quaternion(slice s: u8, slice rows: u32, plain count: usize,
        plain group_kind: u32, plain group_key: u32, plain row: usize) -> QuaternionAnswer;
    "gpmf_scaled" scaled(plain w: i16, plain x: i16, plain y: i16, plain z: i16, plain scale: f64) -> Quaternion;
    "gpmf_negated" negated(plain x: i16) -> i16;
    "gpmf_orientation_of_group" orientation_of_group(slice payload: u8, slice rows: u32, plain count: usize,
        plain group_kind: u32, plain group_key: u32) -> AxesAnswer;
    "gpmf_get_avg_sample_duration" get_avg_sample_duration(slice counts: u32, slice has_stamp: u8, slice stamps: u64,
        slice durations: f64, slice missing: u8) -> RealAnswer;
    "gpmf_orientations_of" orientations_of(slice orin: u8, slice orio: u8) -> OrientationsAnswer;
    "gpmf_orientations_to_matrix" orientations_to_matrix(plain orin: Axes, plain orio: Axes) -> Matrix;
    "gpmf_matrix_to_orientation" matrix_to_orientation(plain matrix: Matrix) -> AxesAnswer;
    "gpmf_mtrx_to_orientation" mtrx_to_orientation(slice mtrx: f32) -> AxesAnswer;
    "gpmf_find_devc" find_devc(slice file: u8, plain from: usize) -> WholeAnswer;
    "gpmf_packets_new" packets_new(plain at: usize) -> Packets;
    "gpmf_packets_next" packets_next(plain packets: Packets, slice file: u8) -> PacketAnswer;
    "gpmf_packets_next_in" packets_next_in(plain packets: Packets, slice window: u8, plain more: bool) -> PacketAnswer;
    "gpmf_next_metadata" next_metadata(plain packets: Packets, slice file: u8, plain forced: bool, lent rows: u32) -> PacketMetadataAnswer;
    "gpmf_next_metadata_in" next_metadata_in(plain packets: Packets, slice window: u8, plain more: bool,
        plain forced: bool, lent rows: u32) -> PacketMetadataAnswer;
}

/// A TYPE text written out, and the answer.
pub fn resolve_custom_type(text: &[u8]) -> (WholeAnswer, [u8; 256]) {
    unsafe extern "C" {
        fn gpmf_resolve_custom_type(text: *const u8, text_len: usize, out: *mut u8) -> WholeAnswer;
    }
    let mut out = [UNTOUCHED as u8; 256];
    let answer = unsafe { gpmf_resolve_custom_type(text.as_ptr(), text.len(), out.as_mut_ptr()) };
    (answer, out)
}

/// A payload of zeros, over the limit by a byte.
pub static LONG: [u8; MOST_BYTES + 1] = [0; MOST_BYTES + 1];

/// What lent memory has before a call, to be told apart from what the call writes.
pub const UNTOUCHED: u32 = 0xa5c3_96e1;

/// A reading with lent numbers of their own: the answer, and what the numbers are after it.
pub fn read(payload: &[u8], forced: bool, numbers: usize) -> (MetadataAnswer, Vec<u32>) {
    let mut rows = vec![UNTOUCHED; numbers];
    let answer = parse_metadata(payload, forced, &mut rows);
    (answer, rows)
}

/// Whether lent numbers are as they were, but for so many rows at their front.
pub fn untouched_behind(rows: &[u32], count: usize) -> bool {
    rows[count * 8..].iter().all(|&n| n == UNTOUCHED)
}
