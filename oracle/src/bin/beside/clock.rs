//! The average duration over the packets of a raw file: the Rust's over its maps, the library's over what its rows lead to.
use crate::library::{self, IS, NOTHING};
use crate::published_side::{self, caught};
use crate::tally::{Call, Outcome, Tally, Theirs, ours, same};
use published::SampleInfo;
use published::gopro::klv::{KLV, probe};
use published::plain::double;

/// What five lists say of the packets of a group.
#[derive(Default)]
struct Lists {
    counts: Vec<u32>,
    stamped: Vec<u8>,
    stamps: Vec<u64>,
    durations: Vec<f64>,
    missing: Vec<u8>,
}

/// The readings of a group in a packet, as the Rust counts them: vectors of `s` and of f32, and quaternions; none where the library refuses their value.
fn readings(payload: &[u8], rows: &[u32], count: usize, key: u32) -> u32 {
    let data = library::tagged_item(payload, rows, count, 1, key, 1, 0);
    if data.kind != IS {
        return 0;
    }
    let shape = library::shape_at(payload, data.place, library::NO_TYPE as usize);
    let is_counted = shape.value_kind == 9 || shape.value_kind == 2 && b"sfq".contains(&data.klv.data_type);
    if shape.kind == IS && is_counted { shape.rows as u32 } else { 0 }
}

impl Lists {
    /// A packet that has the group; false where its stamp is refused, or over what a list takes, or the packet is.
    fn add(&mut self, payload: &[u8], key: u32, duration: f64, missing: bool) -> bool {
        let (answer, rows) = library::read(payload, false, 512 * 8);
        let stamp = library::stamp_us(payload, &rows, answer.rows, 1, key);
        if answer.kind != IS || !(stamp.kind == NOTHING || stamp.kind == IS && stamp.value < 1 << 42) {
            return false;
        }
        self.counts.push(readings(payload, &rows, answer.rows, key));
        self.stamped.push((stamp.kind == IS) as u8);
        self.stamps.push(stamp.value);
        self.durations.push(duration);
        self.missing.push(missing as u8);
        true
    }
    fn average(&self) -> library::RealAnswer {
        library::get_avg_sample_duration(&self.counts, &self.stamped, &self.stamps, &self.durations, &self.missing)
    }
}

/// The packets that the Rust accepts, a second each, one in three of them later than it should be.
fn samples(file: &[u8], cuts: &[(usize, usize)]) -> Vec<(SampleInfo, (usize, usize))> {
    let mut at = 0.0;
    cuts.iter()
        .enumerate()
        .filter_map(|(n, cut)| {
            let tag_map = Some(published_side::walk(&file[cut.0..cut.1], false).map?);
            at += if n % 3 == 2 { 2002.0 } else { 1001.0 };
            Some((SampleInfo { timestamp_ms: at, duration_ms: 1001.0, tag_map, ..Default::default() }, *cut))
        })
        .collect()
}

pub fn averages(file: &[u8], cuts: &[(usize, usize)], tally: &mut Tally) -> Outcome {
    let samples = samples(file, cuts);
    for key in [b"GYRO", b"ACCL", b"CORI"] {
        group(file, key, &samples, tally)?;
    }
    Ok(())
}

fn group(file: &[u8], key: &[u8; 4], samples: &[(SampleInfo, (usize, usize))], tally: &mut Tally) -> Outcome {
    let id = KLV::group_from_key(key);
    let (mut lists, mut last) = (Lists::default(), None);
    for (sample, (from, to)) in samples {
        let Some(tags) = sample.tag_map.as_ref().and_then(|map| map.get(&id)) else { continue };
        let missing = last.is_some_and(|last| probe::missing(last, sample) != 0.0);
        // a stamp that is refused or over a limit: groups.rs has such, in payloads of their own
        if !lists.add(&file[*from..*to], u32::from_be_bytes(*key), sample.duration_ms, missing) {
            return Ok(());
        }
        if matches!(caught(|| probe::stamp(tags)), Some(Some(_))) {
            last = Some(sample);
        }
    }
    let theirs = probe::avg(&samples.iter().map(|(sample, _)| sample.clone()).collect(), &id);
    let answer = lists.average();
    tally.call(Call::Average, if theirs.is_some() { Theirs::Answer } else { Theirs::Nothing }, ours(answer.kind));
    same("the average over a file's packets", &theirs.map(double), &(answer.kind == IS).then_some(double(answer.value)))
}
