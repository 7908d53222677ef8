//! gpmf.h in Rust, name by name; every other module calls it through safe functions.
//!
//! A slice goes as a pointer and a length. A slice of Rust owes what the library asks of both: its memory may be read, and written where it is borrowed
//! mutably, and then overlaps nothing else. So every call here is sound on slices, whatever the numbers beside them are.

pub const REFUSED: u32 = 0;
pub const IS: u32 = 1;
pub const NOTHING: u32 = 2;
pub const MORE: u32 = 3;

pub const NO_TYPE: u32 = u32::MAX;
pub const FULL: usize = usize::MAX;

pub const SIGNED: u32 = 0;
pub const UNSIGNED: u32 = 1;
pub const SINGLE: u32 = 2;

/// Records of C, which are copied as they are.
macro_rules! records {
    ($($name:ident { $($field:ident: $type:ty),* $(,)? })*) => {
        $(#[repr(C)]
        #[derive(Clone, Copy)]
        pub struct $name {
            $(pub $field: $type),*
        })*
    };
}

records! {
    Klv { key: u32, data_type: u8, size: u8, repeat: u16 }
    GroupId { number: u32, key: u32 }
    Row { place: u32, group_kind: u32, group_key: u32, tag: u32, key: u32, shape: u32, type_place: u32, depth: u32 }
    Cursor { at: usize }
    Exact { numerator: i64, denominator: u64 }
    Number { form: u32, single_value: f32, signed_value: i64, unsigned_value: u64, double_value: f64 }
    Axes { first: u8, second: u8, third: u8 }
    Matrix { entries: [f32; 9] }
    Quaternion { w: f64, x: f64, y: f64, z: f64 }
    Packet { start: usize, end: usize }
    Packets { at: usize }
    Taken { end: usize, accepted: bool }
    WholeAnswer { kind: u32, number: u32, place: usize, value: u64 }
    RealAnswer { kind: u32, number: u32, place: usize, value: f64 }
    ItemAnswer { kind: u32, number: u32, place: usize, klv: Klv }
    ElementAnswer { kind: u32, number: u32, place: usize, element: Number }
    ShapeAnswer { kind: u32, number: u32, place: usize, value_kind: u32, rows: usize, columns: usize }
    RowAnswer { kind: u32, number: u32, place: usize, row: Row }
    MetadataAnswer { kind: u32, number: u32, place: usize, rows: usize, headers: usize }
    AxesAnswer { kind: u32, number: u32, place: usize, axes: Axes }
    OrientationsAnswer { kind: u32, number: u32, place: usize, orin: Axes, orio: Axes }
    QuaternionAnswer { kind: u32, number: u32, place: usize, quaternion: Quaternion }
    PartAnswer { kind: u32, number: u32, place: usize, start: usize, length: usize }
    PacketAnswer { kind: u32, number: u32, place: usize, packet: Packet, rest: Packets }
    PacketMetadataAnswer { kind: u32, number: u32, place: usize, packet: Packet, metadata: MetadataAnswer, rest: Packets }
}

extern "C" {
    // the reading of a payload, and its rows
    pub fn gpmf_parse_metadata(payload: *const u8, payload_len: usize, forced: bool, rows: *mut u32, rows_len: usize) -> MetadataAnswer;
    pub fn gpmf_room(numbers: usize) -> usize;
    pub fn gpmf_row_at(rows: *const u32, rows_len: usize, n: usize) -> RowAnswer;
    pub fn gpmf_put_row(out: *mut u32, out_len: usize, n: usize, row: Row) -> bool;
    pub fn gpmf_lookup(rows: *const u32, rows_len: usize, count: usize, group_kind: u32, group_key: u32, tag: u32, key: u32) -> WholeAnswer;
    pub fn gpmf_last_item(s: *const u8, s_len: usize, at: usize) -> ItemAnswer;
    pub fn gpmf_get_last_klv(payload: *const u8, payload_len: usize) -> ItemAnswer;

    // values
    pub fn gpmf_element(s: *const u8, s_len: usize, at: usize, type_at: usize, row: usize, column: usize) -> ElementAnswer;
    pub fn gpmf_shape_at(s: *const u8, s_len: usize, at: usize, type_at: usize) -> ShapeAnswer;
    pub fn gpmf_columns_at(s: *const u8, s_len: usize, at: usize, type_at: usize, row: usize) -> WholeAnswer;
    pub fn gpmf_elements_at(s: *const u8, s_len: usize, at: usize, type_at: usize, numbers: *mut u64, numbers_len: usize) -> WholeAnswer;
    pub fn gpmf_klv_at(s: *const u8, s_len: usize, at: usize, type_at: usize) -> ItemAnswer;
    pub fn gpmf_bytes_at(s: *const u8, s_len: usize, at: usize, type_at: usize) -> PartAnswer;
    pub fn gpmf_text_at(s: *const u8, s_len: usize, at: usize, type_at: usize, row: usize) -> PartAnswer;

    // items
    pub fn gpmf_cursor_new(at: usize) -> Cursor;
    pub fn gpmf_parse_header(cursor: Cursor, s: *const u8, s_len: usize) -> ItemAnswer;
    pub fn gpmf_data_len(klv: Klv) -> usize;
    pub fn gpmf_aligned_data_len(klv: Klv) -> usize;
    pub fn gpmf_is_one_text(klv: Klv) -> bool;
    pub fn gpmf_is_type_text(klv: Klv) -> bool;
    pub fn gpmf_tag_id(key: u32) -> u32;
    pub fn gpmf_group_from_key(key: u32) -> GroupId;
    pub fn gpmf_big_endian(part: *const u8, part_len: usize) -> u64;

    // numbers
    pub fn gpmf_q15_16(high: i16, low: u16) -> f32;
    pub fn gpmf_q31_32(high: i32, low: u32) -> f64;
    pub fn gpmf_q31_32_exact(high: i32, low: u32) -> Exact;
    pub fn gpmf_width(letter: u8) -> usize;
    pub fn gpmf_element_at(s: *const u8, s_len: usize, at: usize, letter: u8) -> Number;
    pub fn gpmf_exact_at(s: *const u8, s_len: usize, at: usize) -> Exact;
    pub fn gpmf_single_bits(x: f32) -> u32;
    pub fn gpmf_double_bits(x: f64) -> u64;

    // texts and dates
    pub fn gpmf_resolve_custom_type(text: *const u8, text_len: usize, out: *mut u8) -> WholeAnswer;
    pub fn gpmf_latin1_len(text: *const u8, text_len: usize) -> usize;
    pub fn gpmf_utf8_len(text: *const u8, text_len: usize) -> usize;
    pub fn gpmf_is_utf8(text: *const u8, text_len: usize) -> bool;
    pub fn gpmf_are_utf8(texts: *const u8, texts_len: usize, size: usize) -> bool;
    pub fn gpmf_parse_utcdate(text: *const u8, text_len: usize) -> WholeAnswer;

    // what the rows of a group lead to
    pub fn gpmf_tagged_item(
        s: *const u8,
        s_len: usize,
        rows: *const u32,
        rows_len: usize,
        count: usize,
        group_kind: u32,
        group_key: u32,
        tag: u32,
        key: u32,
    ) -> ItemAnswer;
    pub fn gpmf_is_one_number(klv: Klv, letter: u8) -> bool;
    pub fn gpmf_stamp_us(s: *const u8, s_len: usize, rows: *const u32, rows_len: usize, count: usize, group_kind: u32, group_key: u32) -> WholeAnswer;
    pub fn gpmf_scaled_quaternion(
        s: *const u8,
        s_len: usize,
        rows: *const u32,
        rows_len: usize,
        count: usize,
        group_kind: u32,
        group_key: u32,
        row: usize,
    ) -> QuaternionAnswer;
    pub fn gpmf_scaled(w: i16, x: i16, y: i16, z: i16, scale: f64) -> Quaternion;
    pub fn gpmf_negated(x: i16) -> i16;
    pub fn gpmf_orientation_of_group(
        payload: *const u8,
        payload_len: usize,
        rows: *const u32,
        rows_len: usize,
        count: usize,
        group_kind: u32,
        group_key: u32,
    ) -> AxesAnswer;
    pub fn gpmf_get_avg_sample_duration(
        counts: *const u32,
        counts_len: usize,
        has_stamp: *const u8,
        has_stamp_len: usize,
        stamps: *const u64,
        stamps_len: usize,
        durations: *const f64,
        durations_len: usize,
        missing: *const u8,
        missing_len: usize,
    ) -> RealAnswer;

    // axes
    pub fn gpmf_orientations_of(orin: *const u8, orin_len: usize, orio: *const u8, orio_len: usize) -> OrientationsAnswer;
    pub fn gpmf_orientations_to_matrix(orin: Axes, orio: Axes) -> Matrix;
    pub fn gpmf_matrix_to_orientation(matrix: Matrix) -> AxesAnswer;
    pub fn gpmf_mtrx_to_orientation(mtrx: *const f32, mtrx_len: usize) -> AxesAnswer;

    // packets of a raw file
    pub fn gpmf_find_devc(file: *const u8, file_len: usize, from: usize) -> WholeAnswer;
    pub fn gpmf_packets_new(at: usize) -> Packets;
    pub fn gpmf_packets_next(packets: Packets, file: *const u8, file_len: usize) -> PacketAnswer;
    pub fn gpmf_packets_next_in(packets: Packets, window: *const u8, window_len: usize, more: bool) -> PacketAnswer;
    pub fn gpmf_next_metadata(packets: Packets, file: *const u8, file_len: usize, forced: bool, rows: *mut u32, rows_len: usize) -> PacketMetadataAnswer;
    pub fn gpmf_next_metadata_in(
        packets: Packets,
        window: *const u8,
        window_len: usize,
        more: bool,
        forced: bool,
        rows: *mut u32,
        rows_len: usize,
    ) -> PacketMetadataAnswer;

    // printing
    pub fn gpmf_list(payload: *const u8, payload_len: usize, rows: *mut u32, rows_len: usize, out: *mut u8, out_len: usize, at: usize) -> usize;
    pub fn gpmf_put_answer(out: *mut u8, out_len: usize, at: usize, answer: MetadataAnswer) -> usize;
    pub fn gpmf_put_rows(out: *mut u8, out_len: usize, at: usize, rows: *const u32, rows_len: usize, count: usize) -> usize;
    pub fn gpmf_put_packet(
        payload: *const u8,
        payload_len: usize,
        number: u64,
        place: u64,
        whole: bool,
        rows: *mut u32,
        rows_len: usize,
        out: *mut u8,
        out_len: usize,
        at: usize,
    ) -> Taken;
    pub fn gpmf_put_long_packet(number: u64, place: u64, bytes: u64, whole: bool, out: *mut u8, out_len: usize, at: usize) -> usize;
    pub fn gpmf_put_totals(out: *mut u8, out_len: usize, at: usize, packets: u64, read: u64, refused: u64) -> usize;
    pub fn gpmf_put(out: *mut u8, out_len: usize, at: usize, b: u8) -> usize;
    pub fn gpmf_put_bytes(out: *mut u8, out_len: usize, at: usize, text: *const u8, text_len: usize) -> usize;
    pub fn gpmf_put_decimal(out: *mut u8, out_len: usize, at: usize, n: u64) -> usize;
    pub fn gpmf_put_hex(out: *mut u8, out_len: usize, at: usize, n: u64, count: usize) -> usize;
    pub fn gpmf_put_signed(out: *mut u8, out_len: usize, at: usize, n: i64) -> usize;

    // what is read out of a line
    pub fn gpmf_pieces(s: *const u8, s_len: usize, b: u8) -> usize;
    pub fn gpmf_decimal_number(s: *const u8, s_len: usize) -> WholeAnswer;
    pub fn gpmf_hex_number(s: *const u8, s_len: usize) -> WholeAnswer;
    pub fn gpmf_unhex(s: *const u8, s_len: usize, out: *mut u8, out_len: usize) -> WholeAnswer;
}

/// The library is for 64 bits: a pointer and a size have eight bytes.
const _: () = assert!(std::mem::size_of::<usize>() == 8);

#[cfg(test)]
mod tests {
    use super::*;
    use std::mem::{offset_of, size_of};

    /// The size of each record and where its fields stand, as the C test has them.
    #[test]
    fn records_are_laid_out_as_in_c() {
        macro_rules! laid_out {
            ($($name:ident $size:literal: $($field:ident $at:literal)*;)*) => {
                $(assert_eq!(size_of::<$name>(), $size, stringify!($name));
                $(assert_eq!(offset_of!($name, $field), $at, concat!(stringify!($name), ".", stringify!($field)));)*)*
            };
        }
        laid_out! {
            Klv 8: key 0 data_type 4 size 5 repeat 6;
            GroupId 8: number 0 key 4;
            Row 32: place 0 group_kind 4 group_key 8 tag 12 key 16 shape 20 type_place 24 depth 28;
            Cursor 8: at 0;
            Exact 16: numerator 0 denominator 8;
            Number 32: form 0 single_value 4 signed_value 8 unsigned_value 16 double_value 24;
            Axes 3: first 0 second 1 third 2;
            Matrix 36: entries 0;
            Quaternion 32: w 0 x 8 y 16 z 24;
            Packet 16: start 0 end 8;
            Packets 8: at 0;
            Taken 16: end 0 accepted 8;
            WholeAnswer 24: kind 0 number 4 place 8 value 16;
            RealAnswer 24: kind 0 number 4 place 8 value 16;
            ItemAnswer 24: kind 0 number 4 place 8 klv 16;
            ElementAnswer 48: kind 0 number 4 place 8 element 16;
            ShapeAnswer 40: kind 0 number 4 place 8 value_kind 16 rows 24 columns 32;
            RowAnswer 48: kind 0 number 4 place 8 row 16;
            MetadataAnswer 32: kind 0 number 4 place 8 rows 16 headers 24;
            AxesAnswer 24: kind 0 number 4 place 8 axes 16;
            OrientationsAnswer 24: kind 0 number 4 place 8 orin 16 orio 19;
            QuaternionAnswer 48: kind 0 number 4 place 8 quaternion 16;
            PartAnswer 32: kind 0 number 4 place 8 start 16 length 24;
            PacketAnswer 40: kind 0 number 4 place 8 packet 16 rest 32;
            PacketMetadataAnswer 72: kind 0 number 4 place 8 packet 16 metadata 32 rest 64;
        }
    }
}
