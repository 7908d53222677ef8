//! What the rows of a reading lead to: lookup, and a group's stamp, quaternions and axes.
use crate::draw::Draw;
use crate::library::{self, IS, NOTHING, REFUSED, Told};
use crate::published_side::{Walked, caught, group};
use crate::tally::{Call, Listed, Outcome, Tally, Theirs, ours, same};
use published::gopro::klv::probe;
use published::plain::{Plain, ReadBack, double};
use published::tags_impl::{GroupId, GroupedTagMap, TagDescription, TagId, TagMap, TagValue, probe_rows, probe_tag_number};
use std::collections::BTreeMap;

// ---- lookup

/// Each entry of the Rust's map is what lookup finds, and there are no others.
pub fn lookups(bytes: &[u8], walked: &Walked, rows: &[u32], draw: &mut Draw, tally: &mut Tally) -> Outcome {
    let map = walked.map.as_ref().expect("an accepted reading");
    let mut last = BTreeMap::new();
    for (n, item) in walked.items.iter().enumerate() {
        last.insert((&item.group, &item.id), n);
    }
    same("entries of the Rust's map", &map.values().map(BTreeMap::len).sum::<usize>(), &last.len())?;
    for (group, tags) in map {
        for (id, entry) in tags {
            lookup(bytes, rows, walked.items.len(), entry, last[&(group, id)], tally)?;
        }
    }
    stranger(&last, rows, walked.items.len(), draw, tally)
}

fn lookup(bytes: &[u8], rows: &[u32], count: usize, entry: &TagDescription, expected: usize, tally: &mut Tally) -> Outcome {
    let ((kind, group_key), tag, key) = (group(&entry.group), probe_tag_number(&entry.id), entry.native_id.expect("an item of the walk"));
    let answer = library::lookup(rows, count, kind, group_key, tag, key);
    tally.call(Call::Lookup, Theirs::Answer, ours(answer.kind));
    same("lookup", &(IS, expected as u64), &(answer.kind, answer.value))?;
    let item = library::tagged_item(bytes, rows, count, kind, group_key, tag, key);
    tally.call(Call::TaggedItem, Theirs::Answer, ours(item.kind));
    let row = library::row_at(rows, expected).row;
    same("tagged_item", &(IS, row.place as usize, row.klv()), &(item.kind, item.place, item.klv))?;
    let raw = probe_rows(&entry.value).1;
    same("the bytes of tagged_item", &Some(raw), &bytes.get(item.place..item.place + raw.len()))
}

/// A group, a tag and a key that the map may or may not have.
fn stranger(last: &BTreeMap<(&GroupId, &TagId), usize>, rows: &[u32], count: usize, draw: &mut Draw, tally: &mut Tally) -> Outcome {
    let key = u32::from_be_bytes(*draw.pick(&[b"GYRO", b"ABCD", b"TICK", b"SCAL", b"\0\0\0\0"]));
    let id = published::gopro::klv::KLV { key: key.to_be_bytes(), ..Default::default() }.tag_id();
    let name = draw.pick(&[b"GYRO", b"ABCD", b"MWET"]);
    let theirs = last.get(&(&published::gopro::klv::KLV::group_from_key(name), &id)).map(|n| *n as u64);
    let answer = library::lookup(rows, count, 1, u32::from_be_bytes(*name), probe_tag_number(&id), key);
    tally.call(Call::Lookup, if theirs.is_some() { Theirs::Answer } else { Theirs::Nothing }, ours(answer.kind));
    same("lookup of any group", &(if theirs.is_some() { IS } else { NOTHING }, theirs.unwrap_or(0)), &(answer.kind, answer.value))
}

// ---- a group

/// A payload, its rows, and one of its groups with the Rust's entries.
struct Asked<'a> {
    bytes: &'a [u8],
    rows: &'a [u32],
    count: usize,
    id: &'a GroupId,
    tags: &'a TagMap,
}

pub fn payload(bytes: &[u8], map: &GroupedTagMap, rows: &[u32], count: usize, tally: &mut Tally) -> Outcome {
    for (id, tags) in map {
        let asked = Asked { bytes, rows, count, id, tags };
        asked.refusals()?;
        asked.stamp(tally)?;
        match id {
            GroupId::CameraOrientation | GroupId::ImageOrientation => asked.quaternions(tally)?,
            GroupId::Gyroscope | GroupId::Accelerometer | GroupId::Magnetometer => asked.axes(tally)?,
            _ => (),
        }
    }
    Ok(())
}

impl Asked<'_> {
    /// The place of the item that the Rust's entry of a tag comes from, as `lookup` found it.
    fn place_of(&self, id: TagId) -> Option<usize> {
        let (kind, key) = group(self.id);
        let name = self.tags.get(&id)?.native_id?;
        Some(library::tagged_item(self.bytes, self.rows, self.count, kind, key, probe_tag_number(&id), name).place)
    }

    /// What the calls on a group answer of any payload and count: its data, stamp, first quaternion and axes.
    fn told(&self, bytes: &[u8], count: usize) -> [Told; 4] {
        let (kind, key) = group(self.id);
        [
            library::tagged_item(bytes, self.rows, count, kind, key, 1, 0).told(),
            library::stamp_us(bytes, self.rows, count, kind, key).told(),
            library::scaled_quaternion(bytes, self.rows, count, kind, key, 0).told(),
            library::orientation_of_group(bytes, self.rows, count, kind, key).told(),
        ]
    }

    /// Refusals of which the Rust knows nothing: a count over the room (5), a payload over the limit (1), rows of another payload (12 and 2).
    fn refusals(&self) -> Outcome {
        let (kind, key) = group(self.id);
        for count in [library::room(self.rows.len()) + 1, usize::MAX] {
            same("lookup, a count over the room", &(REFUSED, 5, 0), &library::lookup(self.rows, count, kind, key, 1, 0).told())?;
            same("a count over the room", &[(REFUSED, 5, 0); 4], &self.told(self.bytes, count))?;
        }
        same("a payload over the limit", &[(REFUSED, 1, 0); 4], &self.told(&library::LONG, self.count))?;
        let data = self.place_of(TagId::Data);
        let stamp = self.place_of(TagId::TimestampUs).or_else(|| self.place_of(TagId::Unknown(u32::from_be_bytes(*b"TICK"))));
        let orin = self.place_of(TagId::OrientationIn).filter(|_| self.tags.contains_key(&TagId::OrientationOut));
        for (n, first) in [data, stamp, data, self.place_of(TagId::Matrix).or(orin)].into_iter().enumerate() {
            self.elsewhere(n, first)?;
        }
        Ok(())
    }

    /// One of these calls on other payloads: the item that it reads first is not there or is zeros (12), or only its header is there (2).
    fn elsewhere(&self, call: usize, first: Option<usize>) -> Outcome {
        let Some(place) = first else { return same("a group that has no such item", &(NOTHING, 0, 0), &self.told(self.bytes, self.count)[call]) };
        let others = [(&self.bytes[..place], 12), (&self.bytes[..place + 8], 2), (&library::LONG[..self.bytes.len()], 12)];
        for (bytes, number) in others {
            same("rows of another payload", &(REFUSED, number, place), &self.told(bytes, self.count)[call])?;
        }
        Ok(())
    }

    fn stamp(&self, tally: &mut Tally) -> Outcome {
        let theirs = caught(|| probe::stamp(self.tags));
        let (kind, key) = group(self.id);
        let answer = library::stamp_us(self.bytes, self.rows, self.count, kind, key);
        let side = match theirs {
            None => Theirs::Panic,
            Some(None) => Theirs::Nothing,
            Some(Some(_)) => Theirs::Answer,
        };
        tally.call(Call::StampUs, side, ours(answer.kind));
        if let Some(refusal) = self.unreadable_stamp() {
            tally.listed(Listed::StampDate);
            return same("stamp_us, the refusal of a date", &refusal, &answer.told());
        }
        match (theirs, answer.kind) {
            (Some(Some(us)), IS) => {
                if us < 0 {
                    tally.listed(Listed::NegativeStamp);
                }
                same("stamp_us", &(us as u64), &answer.value)
            }
            (Some(None), NOTHING) => Ok(()),
            _ => Err(format!("stamp_us: the Rust has {theirs:?}, the library {answer:?}")),
        }
    }

    /// What the stamp is refused with where STMP is a date that the Rust cannot read: 6 where it has fewer than 16 bytes, else 7.
    fn unreadable_stamp(&self) -> Option<Told> {
        let (_, item, read) = probe_rows(&self.tags.get(&TagId::TimestampUs)?.value);
        let is_unreadable = item[4] == b'U' && !matches!(read, ReadBack::Is(_));
        is_unreadable.then_some((REFUSED, if item.len() < 24 { 6 } else { 7 }, self.place_of(TagId::TimestampUs)?))
    }

    fn quaternions(&self, tally: &mut Tally) -> Outcome {
        let theirs = probe::quaternions(self.tags);
        let (kind, key) = group(self.id);
        let ask = |row| library::scaled_quaternion(self.bytes, self.rows, self.count, kind, key, row);
        let Some(list) = theirs else {
            tally.call(Call::ScaledQuaternion, Theirs::Nothing, ours(ask(0).kind));
            return same("scaled_quaternion", &NOTHING, &ask(0).kind);
        };
        for (n, q) in list.iter().enumerate() {
            let answer = ask(n);
            tally.call(Call::ScaledQuaternion, Theirs::Answer, ours(answer.kind));
            let ours = answer.quaternion;
            same("scaled_quaternion", &(IS, four(q.w, q.x, q.y, q.z)), &(answer.kind, four(ours.w, ours.x, ours.y, ours.z)))?;
        }
        // behind the list there is none; where the list is empty its bytes were too few
        let behind = ask(list.len());
        tally.call(Call::ScaledQuaternion, Theirs::Outside, ours(behind.kind));
        if list.is_empty() {
            tally.listed(Listed::ShortQuaternions);
        }
        let number = if list.is_empty() { 6 } else { 13 };
        same("scaled_quaternion behind the last", &self.place_of(TagId::Data).map(|place| (REFUSED, number, place)), &Some(behind.told()))
    }

    fn axes(&self, tally: &mut Tally) -> Outcome {
        let theirs = caught(|| probe::oriented_group(self.id, self.tags));
        let (kind, key) = group(self.id);
        let answer = library::orientation_of_group(self.bytes, self.rows, self.count, kind, key);
        let side = match &theirs {
            None => Theirs::Panic,
            Some(None) => Theirs::Nothing,
            Some(Some(_)) => Theirs::Answer,
        };
        tally.call(Call::OrientationOfGroup, side, ours(answer.kind));
        same("whether axes are refused with 9", &self.has_other_axes(), &(answer.kind == REFUSED && answer.number == 9))?;
        match (&theirs, answer.kind) {
            (Some(Some(axes)), IS) => same("orientation_of_group", axes, &letters(answer.axes)),
            (Some(None), NOTHING) => Ok(()),
            (None, REFUSED) if (answer.number, answer.place) == (10, 0) => {
                tally.listed(Listed::MatrixPanic);
                Ok(())
            }
            (_, REFUSED) if (answer.number, answer.place) == (9, 0) => {
                tally.listed(Listed::Axes);
                Ok(())
            }
            _ => Err(format!("orientation_of_group: the Rust has {theirs:?}, the library {answer:?}")),
        }
    }

    /// Whether ORIN or ORIO is a text of another length than three, or not ASCII.
    fn has_other_axes(&self) -> bool {
        // both are one text, and there is no MTRX to be taken in their place
        let text = |id| match &self.tags.get(&id)?.value {
            TagValue::String(text) => Some(text.get().clone()),
            _ => None,
        };
        let are_three = |text: String| text.len() == 3 && text.is_ascii();
        match (text(TagId::OrientationIn), text(TagId::OrientationOut)) {
            (Some(orin), Some(orio)) => !self.tags.contains_key(&TagId::Matrix) && !(are_three(orin) && are_three(orio)),
            _ => false,
        }
    }
}

fn four(w: f64, x: f64, y: f64, z: f64) -> [Plain; 4] {
    [double(w), double(x), double(y), double(z)]
}

pub fn letters(axes: library::Axes) -> String {
    [axes.first, axes.second, axes.third].map(|c| c as char).iter().collect()
}
