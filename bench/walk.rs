//! The walk of each packet: `gpmf_parse_metadata` beside `GoPro::parse_metadata`.
use crate::heap::counted;
use crate::inputs::Take;
use crate::library::{self, IS, MOST_ROWS, REFUSED};
use crate::table::{count, head_of_ratios, ratio};
use crate::timing::{alternate, whole};
use published::gopro::GoPro;
use published::tags_impl::{GroupId, GroupedTagMap};
use std::hint::black_box;
use std::time::{Duration, Instant};

/// The lent numbers: as many as the programs lend.
pub const NUMBERS: usize = 16_384;

/// As many as a payload's rows can take.
pub const MOST_NUMBERS: usize = MOST_ROWS * 8;

/// All rows go into the same numbers, which nobody clears between.
pub fn ours(payloads: &[&[u8]], rows: &mut [u32]) -> usize {
    payloads.iter().map(|payload| library::parse_metadata(black_box(payload), false, black_box(rows)).rows).sum()
}

/// The Rust's map; none where it refuses the payload.
fn read(payload: &[u8]) -> Option<GroupedTagMap> {
    GoPro::parse_metadata(payload, GroupId::Default, false, &Default::default()).ok()
}

pub fn map_of(payload: &[u8]) -> GroupedTagMap {
    read(payload).expect("a payload that is accepted")
}

/// Each map is dropped when it has been made.
pub fn theirs(payloads: &[&[u8]]) {
    payloads.iter().for_each(|payload| drop(black_box(read(black_box(payload)))));
}

/// The same; the time of the drops is returned.
fn drops(payloads: &[&[u8]]) -> Duration {
    let dropped = |payload: &&[u8]| {
        let map = black_box(map_of(black_box(payload)));
        let began = Instant::now();
        drop(map);
        began.elapsed()
    };
    payloads.iter().map(dropped).sum()
}

/// Both refuse a payload, since an item runs past its end.
pub fn check_refused(payload: &[u8]) {
    let answer = library::parse_metadata(payload, false, &mut vec![0; MOST_NUMBERS]);
    assert_eq!((answer.kind, answer.number, read(payload).is_some()), (REFUSED, 2, false), "what is compared must be the same refusal");
}

/// Both accept each payload, and have as many rows as entries.
pub fn check(payloads: &[&[u8]]) -> usize {
    let mut rows = vec![0; MOST_NUMBERS];
    let rows_of = |payload: &&[u8]| {
        let answer = library::parse_metadata(payload, false, &mut rows);
        let entries: usize = map_of(payload).values().map(|tags| tags.len()).sum();
        assert_eq!((answer.kind, answer.rows), (IS, entries), "what is compared must be the same reading");
        entries
    };
    payloads.iter().map(rows_of).sum()
}

pub fn print(take: &Take) {
    let payloads = take.payloads();
    let entries = check(&payloads);
    let mut rows = vec![0; NUMBERS];
    let [our, their, undropped] =
        alternate(payloads.len(), [&mut whole(|| ours(&payloads, &mut rows)), &mut whole(|| theirs(&payloads)), &mut || drops(&payloads)]);
    let size = format!("{} packets, {} bytes, {} rows", count(payloads.len()), count(take.file.len()), count(entries));
    let heap = counted(|| theirs(&payloads)).1.over(payloads.len());
    println!(
        "\n**The walk of each packet** of a take of {size}; the unit is a packet. The {} lent numbers are not cleared before a call. {heap}",
        count(NUMBERS)
    );
    head_of_ratios("The Rust");
    ratio("`gpmf_parse_metadata`; the Rust's map is made and dropped", our, their, &[40.]);
    ratio("the same; the drop of the Rust's map is not counted", our, undropped, &[]);
}
