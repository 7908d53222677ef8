//! What the published Rust answers, in plain form.
use published::gopro::{GoPro, klv::KLV};
use published::groups::group_number;
use published::tags_impl::{GroupId, GroupedTagMap, TagDescription, probe_tag_number};
use published::util::{begin_list, end_list};
use std::panic::{AssertUnwindSafe, catch_unwind};

/// A walk: its map, all that it put in, in order, at how many places it read a header, and how often it read one.
pub struct Walked {
    pub map: Option<GroupedTagMap>,
    pub items: Vec<TagDescription>,
    pub headers: usize,
    pub reads: usize,
}

pub fn walk(payload: &[u8], forced: bool) -> Walked {
    begin_list();
    let (map, headers) = byteorder::headers_of(|| GoPro::parse_metadata(payload, GroupId::Default, forced, &Default::default()).ok());
    Walked { map, items: end_list(), headers: headers.places, reads: headers.reads }
}

/// A group as a row has it: its kind, and its key.
pub fn group(id: &GroupId) -> (u32, u32) {
    if *id == GroupId::Default {
        return (0, 0);
    }
    (1, key_number(&group_number(id).1))
}
pub fn key_number(key: &[u8]) -> u32 {
    u32::from_be_bytes(key.try_into().expect("four bytes"))
}

pub fn tag_id(key: u32) -> u32 {
    probe_tag_number(&KLV { key: key.to_be_bytes(), ..Default::default() }.tag_id())
}
pub fn group_from_key(key: u32) -> (u32, u32) {
    let (number, kept) = group_number(&KLV::group_from_key(&key.to_be_bytes()));
    (number, key_number(&kept))
}

/// An answer, or none where the Rust panics.
pub fn caught<T>(ask: impl FnOnce() -> T) -> Option<T> {
    catch_unwind(AssertUnwindSafe(ask)).ok()
}
