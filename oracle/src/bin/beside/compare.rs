//! A payload beside the Rust: the reading with both forcings, its rows, its last item, its headers.
use crate::draw::Draw;
use crate::library::{self, IS, MOST_BYTES, MOST_ROWS, MetadataAnswer, NOTHING, REFUSED};
use crate::model::{self, Refusal};
use crate::published_side::{self, Walked, group, key_number};
use crate::tally::{Call, Listed, Ours, Outcome, Tally, Theirs, holds, ours, same};
use crate::{groups, values};
use published::gopro::{GoPro, klv::KLV};
use published::tags_impl::{TagDescription, TagValue, probe_tag_number};

/// All that is asked of a payload.
pub fn payload(bytes: &[u8], tally: &mut Tally) -> Outcome {
    let mut draw = Draw::of(bytes);
    if !model::is_within_memory(bytes) {
        tally.outside += 1;
        return alone(bytes, tally);
    }
    for forced in [false, true] {
        reading(bytes, forced, &mut draw, tally).map_err(|what| format!("forced {forced}: {what}"))?;
    }
    last_item(bytes, &mut draw, tally)?;
    headers(bytes, &mut draw, tally)
}

/// A payload that the Rust is not asked of: its TYPE would fill the memory.
fn alone(bytes: &[u8], tally: &mut Tally) -> Outcome {
    for forced in [false, true] {
        let numbers = 64 * 8;
        let (answer, rows) = library::read(bytes, forced, numbers);
        tally.call(Call::Alone, Theirs::Outside, ours(answer.kind));
        by_document(bytes, forced, answer, &rows, tally)?;
    }
    Ok(())
}

// ---- the reading

fn reading(bytes: &[u8], forced: bool, draw: &mut Draw, tally: &mut Tally) -> Outcome {
    let walked = published_side::walk(bytes, forced);
    let needed = walked.items.len();
    let numbers = (needed.min(MOST_ROWS) + draw.below(3)) * 8 + draw.below(8);
    let (answer, rows) = library::read(bytes, forced, numbers);
    let theirs = if walked.map.is_some() { Theirs::Answer } else { Theirs::Error };
    tally.call(Call::ParseMetadata, theirs, ours(answer.kind));
    by_document(bytes, forced, answer, &rows, tally)?;
    if needed > 0 && draw.chance(25) {
        small_room(bytes, forced, needed.min(MOST_ROWS) - 1, draw, tally)?;
    }
    match (theirs, answer.kind) {
        (Theirs::Answer, IS) => accepted(bytes, forced, &walked, answer, &rows, draw, tally),
        (Theirs::Error, REFUSED) => Ok(()),
        (Theirs::Answer, REFUSED) => by_limit(bytes, needed, answer, tally),
        _ => Err(format!("parse_metadata: the Rust has an {}, the library {answer:?}", theirs.text())),
    }
}

/// The library's answer is document 01's: rows, headers, or the refusal's number and place; what was lent beyond is as it was.
pub fn by_document(bytes: &[u8], forced: bool, answer: MetadataAnswer, rows: &[u32], tally: &mut Tally) -> Outcome {
    let room = (rows.len() / 8).min(MOST_ROWS);
    same("room", &room, &library::room(rows.len()))?;
    match model::walk(bytes, forced, room) {
        Err(Refusal { number, place }) => {
            same("parse_metadata, the refusal", &MetadataAnswer { kind: REFUSED, number, place, rows: 0, headers: 0 }, &answer)?;
            holds(library::untouched_behind(rows, 0), || "a refusal wrote rows".into())?;
            front(bytes, forced, place, rows.len(), tally)
        }
        Ok((expected, headers)) => {
            same("parse_metadata, the counts", &MetadataAnswer { kind: IS, number: 0, place: 0, rows: expected.len(), headers }, &answer)?;
            holds(library::untouched_behind(rows, answer.rows), || "numbers behind the rows were written".into())?;
            for (n, expected) in expected.iter().enumerate() {
                let row = library::row_at(rows, n).row;
                same("a row's place, TYPE and depth", expected, &model::Row { place: row.place, type_place: row.type_place, depth: row.depth })?;
            }
            Ok(())
        }
    }
}

/// Demand 1: the bytes before the place, read alone with the same room, are accepted.
fn front(bytes: &[u8], forced: bool, place: usize, numbers: usize, tally: &mut Tally) -> Outcome {
    let (answer, rows) = library::read(&bytes[..place], forced, numbers);
    tally.call(Call::Front, Theirs::Outside, ours(answer.kind));
    holds(answer.kind == IS, || format!("the bytes before place {place} are not accepted: {answer:?}"))?;
    holds(library::untouched_behind(&rows, answer.rows), || "numbers behind the rows of a front were written".into())
}

/// A room of one row too few, or of any fewer.
fn small_room(bytes: &[u8], forced: bool, most: usize, draw: &mut Draw, tally: &mut Tally) -> Outcome {
    tally.small_rooms += 1;
    let room = if draw.chance(50) { most } else { draw.below(most + 1) };
    let (answer, rows) = library::read(bytes, forced, room * 8 + draw.below(8));
    by_document(bytes, forced, answer, &rows, tally)
}

/// The Rust accepts and the library refuses: one of its limits, and the input must be over that.
fn by_limit(bytes: &[u8], needed: usize, answer: MetadataAnswer, tally: &mut Tally) -> Outcome {
    let entry = match answer.number {
        1 if bytes.len() > MOST_BYTES => Listed::Bytes,
        4 if deepest(bytes) > model::DEEPEST => Listed::Depth,
        5 if needed > MOST_ROWS => Listed::Rows,
        _ => return Err(format!("parse_metadata: the Rust accepts, the library refuses: {answer:?}")),
    };
    tally.listed(entry);
    Ok(())
}

/// How deep the deepest level of a payload lies, of levels that fit one another.
fn deepest(level: &[u8]) -> u32 {
    let (mut at, mut most) = (0, 0);
    while at + 8 <= level.len() {
        let end = at + 8 + model::length(level, at);
        if level[at + 4] == 0 && end > at + 8 && end <= level.len() {
            most = most.max(1 + deepest(&level[at + 8..end]));
        }
        at = model::behind(level, at);
    }
    most
}

fn accepted(bytes: &[u8], forced: bool, walked: &Walked, answer: MetadataAnswer, rows: &[u32], draw: &mut Draw, tally: &mut Tally) -> Outcome {
    same("how many rows", &walked.items.len(), &answer.rows)?;
    same("how many headers", &walked.headers, &answer.headers)?;
    let reads = model::reads(bytes, forced, walked.headers);
    holds(walked.reads == reads, || format!("how often the Rust reads a header: expected {reads}, it has {}", walked.reads))?;
    if reads != walked.headers {
        tally.listed(Listed::ReadTwice);
    }
    for (n, item) in walked.items.iter().enumerate() {
        row(bytes, rows, n, item, draw, tally).map_err(|what| format!("row {n}: {what}"))?;
    }
    groups::lookups(bytes, walked, rows, draw, tally)?;
    if forced {
        return Ok(());
    }
    groups::payload(bytes, walked.map.as_ref().expect("an accepted reading"), rows, answer.rows, tally)
}

fn row(bytes: &[u8], rows: &[u32], n: usize, item: &TagDescription, draw: &mut Draw, tally: &mut Tally) -> Outcome {
    let found = library::row_at(rows, n);
    tally.call(Call::RowAt, Theirs::Answer, ours(found.kind));
    let row = found.row;
    let mut laid = [0; 8];
    holds(library::put_row(&mut laid, 0, row) && laid == rows[n * 8..n * 8 + 8], || "put_row lays another row than row_at read".into())?;
    let expected = (group(&item.group), probe_tag_number(&item.id), item.native_id);
    same("group, tag and key", &expected, &((row.group_kind, row.group_key), row.tag, Some(row.key)))?;
    keys(row.key, tally)?;
    values::value(bytes, row, &item.value, draw, tally)
}

/// The tables of tags and groups.
pub fn keys(key: u32, tally: &mut Tally) -> Outcome {
    tally.call(Call::TagId, Theirs::Answer, Ours::Is);
    tally.call(Call::GroupFromKey, Theirs::Answer, Ours::Is);
    same("tag_id", &published_side::tag_id(key), &library::tag_id(key))?;
    let group = library::group_from_key(key);
    same("group_from_key", &published_side::group_from_key(key), &(group.number, group.key))
}

// ---- the last item

fn last_item(bytes: &[u8], draw: &mut Draw, tally: &mut Tally) -> Outcome {
    chain(bytes, 0, library::get_last_klv(bytes), Call::GetLastKlv, tally)?;
    let from = draw.below(bytes.len() + 1);
    chain(bytes, from, library::last_item(bytes, from), Call::LastItem, tally)
}

/// The chain from a place on: the Rust is asked of the bytes from there.
fn chain(bytes: &[u8], from: usize, answer: library::ItemAnswer, call: Call, tally: &mut Tally) -> Outcome {
    let theirs = GoPro::get_last_klv(&bytes[from..]).ok();
    let place = theirs.map(|slice| slice.as_ptr() as usize - bytes.as_ptr() as usize);
    let side = match theirs {
        None => Theirs::Error,
        Some([]) => Theirs::Nothing,
        Some(_) => Theirs::Answer,
    };
    tally.call(call, side, ours(answer.kind));
    if call == Call::GetLastKlv && bytes.len() > MOST_BYTES {
        return same("the last item of a payload over the limit", &(REFUSED, 1, 0), &answer.told()); // listed with its reading
    }
    match (side, answer.kind) {
        (Theirs::Answer, IS) => {
            same("the last item's place", &place, &Some(answer.place))?;
            same("the last item's header", &header_at(bytes, answer.place), &answer.klv)?;
        }
        (Theirs::Nothing, NOTHING) => (),
        (Theirs::Error, REFUSED) => {
            same("the last item's refusal", &model::last(bytes, from), &Err(Refusal { number: answer.number, place: answer.place }))?;
            tally.listed(Listed::TwoFindings);
        }
        _ => return Err(format!("{}: the Rust has {}, the library {answer:?}", call.text(), side.text())),
    }
    Ok(())
}

/// The eight bytes at a place as a header.
pub fn header_at(bytes: &[u8], at: usize) -> library::Klv {
    let h = &bytes[at..at + 8];
    library::Klv { key: key_number(&h[..4]), data_type: h[4], size: h[5], repeat: u16::from_be_bytes([h[6], h[7]]) }
}

// ---- headers

/// The header at each place of a short payload and behind its end; of a longer one at some places.
fn headers(bytes: &[u8], draw: &mut Draw, tally: &mut Tally) -> Outcome {
    if bytes.len() <= 24 {
        for place in 0..bytes.len() + 3 {
            header(bytes, place, tally)?;
        }
        return header(bytes, draw.next() as usize >> draw.below(64), tally);
    }
    for _ in 0..3 {
        header(bytes, draw.below(bytes.len() + 8), tally)?;
    }
    Ok(())
}

fn header(bytes: &[u8], place: usize, tally: &mut Tally) -> Outcome {
    let mut cursor = std::io::Cursor::new(bytes);
    cursor.set_position(place as u64);
    let theirs = KLV::parse_header(&mut cursor).ok();
    let answer = library::parse_header(library::cursor_new(place), bytes);
    let side = if theirs.is_some() { Theirs::Answer } else { Theirs::Error };
    tally.call(Call::ParseHeader, side, ours(answer.kind));
    let Some(klv) = theirs else {
        tally.listed(Listed::TwoFindings);
        let number = if place >= bytes.len() || bytes.len() - place < 8 { 12 } else { 2 };
        return same("parse_header, the refusal", &(REFUSED, number, place), &answer.told());
    };
    let expected = (IS, key_number(&klv.key), klv.data_type, klv.size, klv.repeat, klv.data_len(), klv.aligned_data_len());
    let found = answer.klv;
    let is_text = matches!(klv.parse_data(&bytes[place..place + 8 + klv.data_len()]), TagValue::String(_));
    same("is_one_text and is_type_text", &(is_text, is_text && klv.key == *b"TYPE"), &(library::is_one_text(found), library::is_type_text(found)))?;
    same(
        "parse_header",
        &expected,
        &(answer.kind, found.key, found.data_type, found.size as usize, found.repeat as usize, library::data_len(found), library::aligned_data_len(found)),
    )
}
