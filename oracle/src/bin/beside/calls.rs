//! Calls on less than a payload: TYPE texts, dates, UTF-8, axes, matrices, quaternions, duration lists.
use crate::compare;
use crate::groups::letters;
use crate::items::{item, one};
use crate::library::{self, Axes, IS, Matrix, NOTHING, REFUSED, UNTOUCHED};
use crate::model;
use crate::published_side::caught;
use crate::tally::{Call, Listed, Ours, Outcome, Tally, Theirs, holds, ours, same};
use published::SampleInfo;
use published::gopro::{
    GoPro,
    klv::{KLV, probe},
};
use published::plain::{double, single};
use published::tags_impl::{GroupId, Quaternion};

fn latin1(text: &[u8]) -> String {
    text.iter().map(|&c| c as char).collect()
}

// ---- texts

pub fn type_text(text: &[u8], tally: &mut Tally) -> Outcome {
    let (answer, out) = library::resolve_custom_type(text);
    let characters = model::expanded_length(text);
    if characters > model::MOST_CHARACTERS {
        tally.outside += 1;
        tally.call(Call::ResolveCustomType, Theirs::Outside, ours(answer.kind));
        return refused_type(&answer, &out);
    }
    let theirs: Vec<char> = probe::expand(&latin1(text)).chars().collect();
    tally.call(Call::ResolveCustomType, Theirs::Answer, ours(answer.kind));
    if theirs.len() > 256 {
        tally.listed(Listed::LongType);
        return refused_type(&answer, &out);
    }
    same("resolve_custom_type, how many", &(IS, theirs.len() as u64), &(answer.kind, answer.value))?;
    same("resolve_custom_type", &theirs, &out[..theirs.len()].iter().map(|&b| b as char).collect())?;
    holds(untouched(&out[theirs.len()..]), || "bytes behind the letters were written".into())
}

/// A TYPE text over the limit, of which nothing is written.
fn refused_type(answer: &library::WholeAnswer, out: &[u8]) -> Outcome {
    same("resolve_custom_type, the refusal", &(REFUSED, 8, 0), &answer.told())?;
    holds(untouched(out), || "a refused TYPE text wrote".into())
}

fn untouched(bytes: &[u8]) -> bool {
    bytes.iter().all(|&b| b == UNTOUCHED as u8)
}

pub fn date(text: &[u8], tally: &mut Tally) -> Outcome {
    let theirs = caught(|| probe::date(text).ok());
    let answer = library::parse_utcdate(text);
    let side = match theirs {
        None => Theirs::Panic,
        Some(None) => Theirs::Error,
        Some(Some(_)) => Theirs::Answer,
    };
    tally.call(Call::ParseUtcdate, side, ours(answer.kind));
    if side == Theirs::Panic {
        tally.listed(Listed::DatePanic);
    }
    match theirs.flatten() {
        Some(ms) => same("parse_utcdate", &(IS, ms), &(answer.kind, answer.value)),
        None => same("parse_utcdate, the refusal", &(REFUSED, if text.len() < 16 { 6 } else { 7 }, 0), &answer.told()),
    }
}

/// Texts by the functions of std that the published Rust calls: String::from_utf8 up to the first zero, trailing zeros trimmed.
pub fn utf8(text: &[u8], size: usize, tally: &mut Tally) -> Outcome {
    tally.call(Call::Utf8, Theirs::Answer, Ours::Is);
    let is_utf8 = |text: &[u8]| String::from_utf8(text.to_vec()).is_ok();
    let kept = |text: &[u8]| text.iter().position(|&c| c == 0).unwrap_or(text.len());
    same("is_utf8", &is_utf8(text), &library::is_utf8(text))?;
    same("utf8_len", &kept(text), &library::utf8_len(text))?;
    same("latin1_len", &latin1(text).trim_end_matches('\0').chars().count(), &library::latin1_len(text))?;
    if size == 0 {
        return Ok(());
    } // the Rust's chunks would panic; no item has such texts
    same("are_utf8", &text.chunks(size).all(|t| is_utf8(&t[..kept(t)])), &library::are_utf8(text, size))
}

pub fn key(key: u32, tally: &mut Tally) -> Outcome {
    compare::keys(key, tally)
}

// ---- axes

pub fn axes(orin: &[u8], orio: &[u8], tally: &mut Tally) -> Outcome {
    let theirs = KLV::orientations_to_matrix(&latin1(orin), &latin1(orio));
    let answer = library::orientations_of(orin, orio);
    tally.call(Call::Matrix, if theirs.is_some() { Theirs::Answer } else { Theirs::Nothing }, ours(answer.kind));
    let three = |text: &[u8]| text.len() == 3 && text.is_ascii();
    if !(three(orin) && three(orio)) {
        tally.listed(Listed::Axes);
        return same("orientations_of, the refusal", &(REFUSED, 9, 0), &answer.told());
    }
    let axes = |t: &[u8]| Axes { first: t[0], second: t[1], third: t[2] };
    same("orientations_of", &(IS, axes(orin), axes(orio)), &(answer.kind, answer.orin, answer.orio))?;
    let matrix = library::orientations_to_matrix(answer.orin, answer.orio).entries;
    same("orientations_to_matrix", &theirs.map(bits), &Some(bits(matrix.to_vec())))?;
    back(&matrix, tally)
}

fn bits(numbers: Vec<f32>) -> Vec<published::plain::Plain> {
    numbers.into_iter().map(single).collect()
}

pub fn back(numbers: &[f32], tally: &mut Tally) -> Outcome {
    let theirs = caught(|| probe::back(numbers));
    let answer = library::mtrx_to_orientation(numbers);
    tally.call(Call::Back, if theirs.is_some() { Theirs::Answer } else { Theirs::Panic }, ours(answer.kind));
    if let Ok(entries) = numbers.try_into() {
        same("matrix_to_orientation", &answer, &library::matrix_to_orientation(Matrix { entries }))?;
    }
    match theirs {
        Some(axes) => same("mtrx_to_orientation", &(IS, axes), &(answer.kind, letters(answer.axes))),
        None => {
            tally.listed(Listed::MatrixPanic);
            same("mtrx_to_orientation, the refusal", &(REFUSED, 10, 0), &answer.told())
        }
    }
}

// ---- quaternions

pub fn quaternion(numbers: [i16; 4], scale: f64, tally: &mut Tally) -> Outcome {
    let [w, x, y, z] = numbers;
    let theirs = GoPro::scaled(&Quaternion { w, x, y, z }, scale);
    let ours = library::scaled(w, x, y, z, scale);
    tally.call(Call::ScaledQuaternion, Theirs::Answer, Ours::Is);
    same("negated", &x.wrapping_neg(), &library::negated(x))?;
    same("scaled", &[theirs.w, theirs.x, theirs.y, theirs.z].map(double), &[ours.w, ours.x, ours.y, ours.z].map(double))
}

// ---- durations

/// A packet of a duration list: its readings, its stamp in µs, its duration and its place on the track in ms.
#[derive(Clone, Copy, Debug)]
pub struct Timed {
    pub count: u32,
    pub stamp: Option<u64>,
    pub duration: f64,
    pub at: f64,
}

/// A packet of so many readings of GYRO, with a STMP where there is a stamp, in the caller's group.
pub fn sample(packet: &Timed) -> SampleInfo {
    let stamp = packet.stamp.map_or(Vec::new(), |us| one(b"STMP", b'J', &us.to_be_bytes()));
    let readings = item(b"GYRO", b's', 6, packet.count as usize, &vec![0; 6 * packet.count as usize]);
    let tag_map = GoPro::parse_metadata(&[stamp, readings].concat(), GroupId::Default, false, &Default::default()).ok();
    SampleInfo { timestamp_ms: packet.at, duration_ms: packet.duration, tag_map, ..Default::default() }
}

pub fn average(packets: &[Timed], tally: &mut Tally) -> Outcome {
    let readable = packets.iter().all(|p| p.count <= 65_535);
    let samples: Vec<SampleInfo> = if readable { packets.iter().map(sample).collect() } else { Vec::new() };
    let mut last: Option<usize> = None;
    let mut missing = vec![0u8; packets.len()];
    for (n, packet) in packets.iter().enumerate().filter(|_| readable) {
        if let Some(l) = last {
            missing[n] = (probe::missing(&samples[l], &samples[n]) != 0.0) as u8;
        }
        if packet.stamp.is_some() {
            last = Some(n);
        }
    }
    let answer = asked(packets, &missing);
    let theirs = readable.then(|| probe::avg(&samples, &GroupId::Default));
    let side = match theirs {
        None => Theirs::Outside,
        Some(None) => Theirs::Nothing,
        Some(Some(_)) => Theirs::Answer,
    };
    tally.call(Call::Average, side, ours(answer.kind));
    if let Some(entry) = over_limits(packets) {
        tally.listed(entry);
        return same("get_avg_sample_duration, the refusal", &(REFUSED, 11, 0), &answer.told());
    }
    match (theirs, answer.kind) {
        (Some(Some(ms)), IS) => same("get_avg_sample_duration", &double(ms), &double(answer.value)),
        (Some(None), NOTHING) => Ok(()),
        _ => Err(format!("get_avg_sample_duration: the Rust has {theirs:?}, the library {answer:?}")),
    }
}

fn asked(packets: &[Timed], missing: &[u8]) -> library::RealAnswer {
    let counts: Vec<u32> = packets.iter().map(|p| p.count).collect();
    let stamped: Vec<u8> = packets.iter().map(|p| p.stamp.is_some() as u8).collect();
    let stamps: Vec<u64> = packets.iter().map(|p| p.stamp.unwrap_or(77)).collect();
    let durations: Vec<f64> = packets.iter().map(|p| p.duration).collect();
    library::get_avg_sample_duration(&counts, &stamped, &stamps, &durations, missing)
}

/// The limit that a list is over, the first of several.
fn over_limits(packets: &[Timed]) -> Option<Listed> {
    let any = |over: fn(&Timed) -> bool| packets.iter().any(over);
    let limits = [
        (packets.len() > 2048, Listed::Packets),
        (any(|p| p.count > 65_535), Listed::Readings),
        (any(|p| p.stamp.is_some_and(|us| us >= 1 << 42)), Listed::Stamp),
        (any(|p| !p.duration.is_finite()), Listed::Finite),
    ];
    limits.into_iter().find(|(is_over, _)| *is_over).map(|(_, entry)| entry)
}
