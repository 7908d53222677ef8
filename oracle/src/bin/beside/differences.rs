//! The smallest input of each entry of docs/DIFFERENCES.md: the Rust answers this and the library that, as the entry says.
use crate::calls::{self, Timed};
use crate::input::Input;
use crate::items::{container, header, nested, one};
use crate::library::{self, IS, NOTHING, REFUSED};
use crate::published_side::{self, caught};
use crate::tally::{Listed, Outcome, Tally, same};
use published::gopro::{
    GoPro,
    klv::{KLV, probe},
};
use published::plain::{Plain, ReadBack, double, single};
use published::tags_impl::{GroupId, TagId, TagValue, probe_rows};

/// Bytes in hex, parted for the eye.
fn bytes(text: &str) -> Vec<u8> {
    let digits: Vec<u8> = text.bytes().filter(|c| *c != b' ').map(|c| (c as char).to_digit(16).expect("a digit") as u8).collect();
    digits.chunks(2).map(|pair| pair[0] * 16 + pair[1]).collect()
}

// ---- what a side answers

/// The value of a payload's last row, by the Rust.
fn their_value(payload: &[u8]) -> ReadBack {
    let item = published_side::walk(payload, false).items.pop().expect("a row");
    let (variant, _, rows) = probe_rows(&item.value);
    match rows {
        ReadBack::Is(rows) if variant == "Vec_Scalar" => ReadBack::Is(vec![rows.concat()]),
        other => other,
    }
}

/// The same by the library: its rows, or its refusal's number.
fn our_value(payload: &[u8]) -> Result<Vec<Vec<Plain>>, u32> {
    let (answer, rows) = library::read(payload, false, 800);
    let row = library::row_at(&rows, answer.rows - 1).row;
    let (place, type_place) = (row.place as usize, row.type_place as usize);
    let shape = library::shape_at(payload, place, type_place);
    if shape.kind == REFUSED {
        return Err(shape.number);
    }
    Ok((0..shape.rows)
        .map(|r| {
            let columns = library::columns_at(payload, place, type_place, r).value as usize;
            (0..columns).map(|c| library::element(payload, place, type_place, r, c).element.plain()).collect()
        })
        .collect())
}

/// Both read the same value of a payload's last row.
fn both_read(payload: &str, expected: Vec<Vec<Plain>>) -> Outcome {
    let payload = bytes(payload);
    let ReadBack::Is(theirs) = their_value(&payload) else { return Err("the Rust does not read it".into()) };
    same("the Rust's value", &expected, &theirs)?;
    same("the value", &Ok(expected), &our_value(&payload))?;
    listed_among(&[], &Input::Payload(payload))
}

/// The Rust fails or panics at a value, and the library refuses it with a number.
fn refused_value(payload: &str, panics: bool, number: u32) -> Outcome {
    let payload = bytes(payload);
    same(
        "whether the Rust panics",
        &panics,
        &match their_value(&payload) {
            ReadBack::Panicked => true,
            ReadBack::Failed => false,
            ReadBack::Is(_) => return Err("the Rust reads it".into()),
        },
    )?;
    same("the value's refusal", &Err(number), &our_value(&payload))
}

/// The Rust accepts a payload with so many rows and reads of headers, and the library refuses it with a number at a place.
fn over_limit(payload: &[u8], rows: usize, reads: usize, number: u32, place: usize) -> Outcome {
    let walked = published_side::walk(payload, false);
    same("the Rust's rows and reads of headers", &(true, rows, reads), &(walked.map.is_some(), walked.items.len(), walked.reads))?;
    let (answer, _) = library::read(payload, false, 5000 * 8);
    same("the refusal", &(REFUSED, number, place), &answer.told())
}

/// A duration list: what the Rust answers, and a refusal with 11 that falls under an entry.
fn refused_list(packets: &[Timed], theirs: Option<f64>, entry: Listed) -> Outcome {
    let samples = packets.iter().map(calls::sample).collect();
    same("the Rust's average", &theirs.map(double), &probe::avg(&samples, &GroupId::Default).map(double))?;
    listed_alone(entry, &Input::Average(packets.to_vec()))
}

/// A comparison counts an input under these entries, and under no other but 9, which every header that is not there falls
/// under, and 30, which every container with items in it falls under.
fn listed_among(entries: &[Listed], input: &Input) -> Outcome {
    let mut tally = Tally::new();
    input.ask(&mut tally)?;
    let passed_over = |entry: &Listed| matches!(entry, Listed::TwoFindings | Listed::ReadTwice) && !entries.contains(entry);
    let met: Vec<Listed> = Listed::ALL.iter().copied().filter(|l| tally.listed[*l as usize] > 0 && !passed_over(l)).collect();
    same("the entries that an input falls under", &entries.to_vec(), &met)
}
fn listed_alone(entry: Listed, input: &Input) -> Outcome {
    listed_among(&[entry], input)
}

fn text(letters: &[u8]) -> Vec<Vec<Plain>> {
    vec![letters.iter().map(|b| Plain::Unsigned(*b as u64)).collect()]
}
fn unsigned(rows: &[&[u64]]) -> Vec<Vec<Plain>> {
    rows.iter().map(|row| row.iter().map(|n| Plain::Unsigned(*n)).collect()).collect()
}

// ---- the entries

fn divisor_of_q() -> Outcome {
    let item = "41424344 51 08 0001 00000000 ffffffff";
    both_read(item, vec![vec![double(1.0)]])?;
    same("exact_at", &library::Exact { numerator: 4_294_967_295, denominator: 4_294_967_295 }, &library::exact_at(&bytes(item), 8))
}

fn size_against_widths() -> Outcome {
    both_read("54595045 63 01 0001 42 000000 41424344 3f 02 0002 01020304", unsigned(&[&[1], &[2]]))?;
    both_read("41424344 53 03 0002 0001ff0002ff 0000", unsigned(&[&[1], &[65280]]))?;
    both_read(
        "434f5249 73 0a 0002 0001000200030004000500060007000800090000",
        [[1, 2, 3, 4], [5, 6, 7, 8]].iter().map(|row| row.iter().map(|n| Plain::Signed(*n)).collect()).collect(),
    )
}

fn streams_without_a_tag() -> Outcome {
    for (key, number, tag) in [(b"MAGN", 4, 0), (b"FACE", 0, 0), (b"GYRO", 1, 1)] {
        let payload = container(b"STRM", &[&header(key, b'B', 1, 1)[..], &[0]].concat());
        let walked = published_side::walk(&payload, false);
        let entry = &walked.items[0];
        same("the Rust's group", &KLV::group_from_key(key), &entry.group)?;
        same("the number of the Rust's group", &number, &published_side::group_from_key(u32::from_be_bytes(*key)).0)?;
        same("the Rust's tag", &tag, &u32::from(entry.id == TagId::Data))?;
        let row = library::row_at(&library::read(&payload, false, 8).1, 0).row;
        same("group and tag", &(u32::from_be_bytes(*key), tag, number), &(row.group_key, row.tag, library::group_from_key(row.group_key).number))?;
    }
    Ok(())
}

fn impossible_dates() -> Outcome {
    both_read("41424344 55 10 0001 3233303232393132303030302e303030", unsigned(&[&[0]]))?;
    both_read("41424344 55 10 0001 3234303232393132303030302e303030", unsigned(&[&[1_709_208_000_000]]))
}

fn negation() -> Outcome {
    for (x, expected) in [("8000", 0xbff0_0020_0040_0080u64), ("8001", 1.0f64.to_bits())] {
        let payload = bytes(&format!("5354524d 00 01 0010 434f5249 73 08 0001 0000 {x} 0000 0000"));
        let map = published_side::walk(&payload, false).map.expect("an accepted reading");
        same("the Rust's x", &expected, &probe::quaternions(&map[&GroupId::CameraOrientation]).expect("quaternions")[0].x.to_bits())?;
        let (answer, rows) = library::read(&payload, false, 8);
        same("x", &expected, &library::scaled_quaternion(&payload, &rows, answer.rows, 1, u32::from_be_bytes(*b"CORI"), 0).quaternion.x.to_bits())?;
    }
    Ok(())
}

fn limits_of_payloads() -> Outcome {
    let (long, deep, wide) = (vec![0; 1_048_577], nested(17, &header(b"GYRO", b's', 6, 0)), bytes("41424344 42 01 0001 01 000000").repeat(4097));
    over_limit(&long, 0, 131_072, 1, 0)?;
    over_limit(&deep, 0, 35, 4, 0)?;
    over_limit(&wide, 4097, 4097, 5, 4096 * 12)?;
    listed_alone(Listed::Bytes, &Input::Payload(long))?;
    listed_alone(Listed::Depth, &Input::Payload(deep))?;
    listed_alone(Listed::Rows, &Input::Payload(wide))
}

fn limit_of_types() -> Outcome {
    same("how many letters the Rust has", &257, &probe::expand("f[257]").len())?;
    same("resolve_custom_type", &(REFUSED, 8), &{
        let (answer, _) = library::resolve_custom_type(b"f[257]");
        (answer.kind, answer.number)
    })?;
    listed_alone(Listed::LongType, &Input::TypeText(b"f[257]".to_vec()))
}

fn limits_of_lists() -> Outcome {
    let one = Timed { count: 1, stamp: None, duration: 1000.0, at: 0.0 };
    refused_list(&vec![one; 2049], Some(1000.0), Listed::Packets)?;
    refused_list(&[Timed { stamp: Some(1 << 42), ..one }], Some(1000.0), Listed::Stamp)?;
    refused_list(&[Timed { duration: f64::INFINITY, ..one }], Some(f64::INFINITY), Listed::Finite)?;
    listed_alone(Listed::Readings, &Input::Average(vec![Timed { count: 65_536, ..one }]))
}

fn panics() -> Outcome {
    for (date, number) in [("41424344 55 01 0001 32", 6), ("41424344 55 10 0001 32c3a930323239313230303030303030", 7)] {
        refused_value(date, true, number)?;
        listed_alone(Listed::DatePanic, &Input::Payload(bytes(date)))?;
    }
    for numbers in [vec![0.0; 9], vec![1.0]] {
        same("the Rust's axes", &None, &caught(|| probe::back(&numbers)))?;
        same("mtrx_to_orientation", &(REFUSED, 10), &{
            let answer = library::mtrx_to_orientation(&numbers);
            (answer.kind, answer.number)
        })?;
        listed_alone(Listed::MatrixPanic, &Input::Matrix(numbers))?;
    }
    Ok(())
}

/// A stream of a GYRO reading behind other items.
fn gyro_stream(items: Vec<u8>) -> Vec<u8> {
    container(b"STRM", &[items, one(b"GYRO", b'B', &[0])].concat())
}

/// A group's stamp by both: the Rust's, none where it panics; the library's value, or its refusal's number.
fn stamps(payload: &[u8]) -> (Option<Option<i64>>, Result<u64, u32>) {
    let map = published_side::walk(payload, false).map.expect("an accepted reading");
    let theirs = caught(|| probe::stamp(&map[&GroupId::Gyroscope]));
    let (answer, rows) = library::read(payload, false, 80);
    let ours = library::stamp_us(payload, &rows, answer.rows, 1, u32::from_be_bytes(*b"GYRO"));
    (theirs, if ours.kind == IS { Ok(ours.value) } else { Err(ours.number) })
}

fn stamps_of_dates() -> Outcome {
    for (date, theirs, number) in [(&b"x40229120000.000"[..], Some(Some(0)), 7), (b"24", None, 6)] {
        let payload = gyro_stream(one(b"STMP", b'U', date));
        same("the stamps", &(theirs, Err(number)), &stamps(&payload))?;
        // the value of a date of 2 bytes is itself an entry, 7
        let entries: &[Listed] = if number == 6 { &[Listed::DatePanic, Listed::StampDate] } else { &[Listed::StampDate] };
        listed_among(entries, &Input::Payload(payload))?;
    }
    Ok(())
}

fn two_findings() -> Outcome {
    for (payload, header, chain) in [("414243", 12, 3), ("41424344 42 01 0002", 2, 2)] {
        let payload = bytes(payload);
        same("the Rust's errors", &(true, true), &(KLV::parse_header(&mut std::io::Cursor::new(&payload)).is_err(), GoPro::get_last_klv(&payload).is_err()))?;
        same("the refusals", &(header, chain), &(library::parse_header(library::cursor_new(0), &payload).number, library::get_last_klv(&payload).number))?;
    }
    Ok(())
}

fn padding_and_left_over() -> Outcome {
    both_read("41424344 42 01 0001 07", unsigned(&[&[7]]))?;
    let walked = published_side::walk(&[0], false);
    same("the Rust's reading of one byte", &(true, 0, 0), &(walked.map.is_some(), walked.items.len(), walked.headers))?;
    let (answer, _) = library::read(&[0], false, 8);
    same("the reading of one byte", &(IS, 0, 0), &(answer.kind, answer.rows, answer.headers))?;
    same(
        "the chain",
        &(true, (REFUSED, 3)),
        &(GoPro::get_last_klv(&[0]).is_err(), {
            let answer = library::get_last_klv(&[0]);
            (answer.kind, answer.number)
        }),
    )
}

fn texts_not_ascii() -> Outcome {
    both_read("41424344 63 01 0001 b2 000000", text(&[0xb2]))?;
    refused_value("41424344 63 02 0002 b200b200", false, 7)
}

/// A TYPE text is written out the same by both.
fn written_out(letters: &[u8], expected: &[u8]) -> Outcome {
    let theirs: Vec<u8> = probe::expand(&letters.iter().map(|&c| c as char).collect::<String>()).chars().map(|c| c as u8).collect();
    same("what the Rust writes out", &expected.to_vec(), &theirs)?;
    let (answer, out) = library::resolve_custom_type(letters);
    same("resolve_custom_type", &expected, &&out[..answer.value as usize])
}

fn count_of_zero() -> Outcome {
    written_out(b"f[0]", b"f")
}

fn texts_in_structures() -> Outcome {
    both_read("54595045 63 01 0002 4666 0000 41424344 3f 08 0001 534e4f57 3f000000", vec![vec![Plain::Single(0x534e_4f57)]])
}

fn several_in_one() -> Outcome {
    both_read("41424344 46 04 0002 4142434445464748", text(b"ABCDEFGH"))?;
    both_read(&format!("41424344 47 10 0002 {}", "00000001".repeat(8)), unsigned(&[&[1, 1, 1, 1]]))
}

fn signs_in_dates() -> Outcome {
    for (date, ms) in [(b"-91231235959.999", 694_223_999_999), (b"240229120000x000", 1_709_208_000_000)] {
        same("the Rust's date", &Some(ms), &probe::date(date).ok())?;
        same("parse_utcdate", &(IS, ms), &{
            let answer = library::parse_utcdate(date);
            (answer.kind, answer.value)
        })?;
    }
    Ok(())
}

fn bits_of_nan() -> Outcome {
    let payload = bytes("41424344 66 04 0001 7fc00001");
    let item = published_side::walk(&payload, false).items.pop().expect("a row");
    let TagValue::f32(kept) = &item.value else { return Err("the Rust has another type".into()) };
    same("the bits that the Rust keeps", &0x7fc0_0001, &kept.get().to_bits())?;
    let ours = library::element(&payload, 0, library::NO_TYPE as usize, 0, 0).element.single_value;
    same("one NaN", &(true, false), &(ours.is_nan(), ours.to_bits() == 0x7fc0_0001))?;
    listed_alone(Listed::Nan, &Input::Payload(payload))
}

fn brackets() -> Outcome {
    written_out(b"f[3[4]", &[b'f'; 34])?;
    written_out(b"Lff[2", b"Lff")?;
    written_out(b"\xe9[2]", b"\xe9\xa9")
}

fn other_axes() -> Outcome {
    same("the Rust's matrix", &Some(vec![1.0]), &KLV::orientations_to_matrix("X", "X"))?;
    same("orientations_of", &(REFUSED, 9), &{
        let answer = library::orientations_of(b"X", b"X");
        (answer.kind, answer.number)
    })?;
    listed_alone(Listed::Axes, &Input::Axes(b"X".to_vec(), b"X".to_vec()))?;
    let payload = gyro_stream([one(b"ORIN", b'c', b"\xe9YZ"), one(b"ORIO", b'c', b"\xe9YZ")].concat());
    let map = published_side::walk(&payload, false).map.expect("an accepted reading");
    same("the Rust's axes", &Some("XYZ".to_string()), &probe::oriented_group(&GroupId::Gyroscope, &map[&GroupId::Gyroscope]))?;
    let (answer, rows) = library::read(&payload, false, 80);
    same("orientation_of_group", &(REFUSED, 9), &{
        let axes = library::orientation_of_group(&payload, &rows, answer.rows, 1, u32::from_be_bytes(*b"GYRO"));
        (axes.kind, axes.number)
    })?;
    listed_alone(Listed::Axes, &Input::Payload(payload))
}

fn devc_inside() -> Outcome {
    let file = bytes("44455643 00 01 000c 41414141 63 01 0004 44455643");
    same("the Rust's packets", &Some(0), &probe::cut_file(&file).ok().map(|maps| maps.len()))?;
    let answer = library::next_metadata(library::packets_new(0), &file, false, &mut [0; 8]);
    same(
        "the packet",
        &((8, 16), (REFUSED, 2, 0)),
        &((answer.packet.start, answer.packet.end), (answer.metadata.kind, answer.metadata.number, answer.metadata.place)),
    )?;
    same("the next", &NOTHING, &library::next_metadata(answer.rest, &file, false, &mut [0; 8]).kind)?;
    listed_alone(Listed::Told, &Input::File(file))
}

/// What the Rust's `get` gives of values whose read fails: a default.
fn defaults() -> Outcome {
    let [identifier, structure, date, texts] = [
        "41424344 47 01 0001 00",
        "54595045 63 01 0001 4c000000 41424344 3f 01 0001 07",
        "41424344 55 10 0001 7834303232393132303030302e303030",
        "41424344 63 02 0002 b200b200",
    ];
    for (payload, number) in [(identifier, 6), (structure, 6), (date, 7), (texts, 7)] {
        refused_value(payload, false, number)?;
        listed_among(&[], &Input::Payload(bytes(payload)))?;
    }
    let value = |payload| published_side::walk(&bytes(payload), false).items.pop().expect("a row").value;
    let (TagValue::Uuid(four), TagValue::Vec_Scalar(row), TagValue::u64(ms), TagValue::Vec_String(list)) =
        (value(identifier), value(structure), value(date), value(texts))
    else {
        return Err("the Rust has other types".into());
    };
    same("what the Rust's get gives", &((0, 0, 0, 0), 0, 0, 0), &(*four.get(), row.get().len(), *ms.get(), list.get().len()))
}

fn unread_values_and_stamps() -> Outcome {
    defaults()?;
    let payload = container(b"STRM", &bytes("434f5249 73 02 0003 000100020003"));
    let map = published_side::walk(&payload, false).map.expect("an accepted reading");
    same("how many quaternions the Rust has", &Some(0), &probe::quaternions(&map[&GroupId::CameraOrientation]).map(|list| list.len()))?;
    let (answer, rows) = library::read(&payload, false, 8);
    same("scaled_quaternion", &(REFUSED, 6), &{
        let q = library::scaled_quaternion(&payload, &rows, answer.rows, 1, u32::from_be_bytes(*b"CORI"), 0);
        (q.kind, q.number)
    })?;
    listed_alone(Listed::ShortQuaternions, &Input::Payload(payload))?;
    let payload = gyro_stream(bytes("53544d50 4a 08 0001 8000000000000000"));
    same("the stamps", &(Some(Some(i64::MIN)), Ok(1 << 63)), &stamps(&payload))?;
    listed_alone(Listed::NegativeStamp, &Input::Payload(payload))
}

fn rounded_q() -> Outcome {
    both_read("41424344 71 04 0001 40000040", vec![vec![single(16384.0)]])
}

fn divisor_of_quaternions() -> Outcome {
    for (scale, expected) in [("6c 04 0001 00000002", 2.0 / 32767.0), ("73 02 0001 0002 0000", 1.0f64)] {
        let payload = container(b"STRM", &bytes(&format!("5343414c {scale} 434f5249 73 08 0001 0002 0000 0000 0000")));
        let map = published_side::walk(&payload, false).map.expect("an accepted reading");
        same("the Rust's w", &expected.to_bits(), &probe::quaternions(&map[&GroupId::CameraOrientation]).expect("quaternions")[0].w.to_bits())?;
        let (answer, rows) = library::read(&payload, false, 16);
        same("w", &expected.to_bits(), &library::scaled_quaternion(&payload, &rows, answer.rows, 1, u32::from_be_bytes(*b"CORI"), 0).quaternion.w.to_bits())?;
    }
    Ok(())
}

fn type_of_several_texts() -> Outcome {
    let (texts, letters, structure) = ("54595045 63 02 0002 42424242", "54595045 63 04 0001 42424242", "41424344 3f 04 0001 01020304");
    for (types, rows, expected) in [(texts, 2, vec![]), (letters, 1, unsigned(&[&[1, 2, 3, 4]]))] {
        let payload = format!("{types} {structure}");
        same("how many entries the Rust has", &rows, &published_side::walk(&bytes(&payload), false).items.len())?;
        same("how many rows there are", &rows, &library::read(&bytes(&payload), false, 16).0.rows)?;
        both_read(&payload, expected)?;
    }
    Ok(())
}

fn empty_type() -> Outcome {
    let (letter, empty, structure) = ("54595045 63 01 0001 42 000000", "54595045 63 01 0000", "41424344 3f 01 0001 07");
    both_read(&format!("{letter} {empty} {structure}"), unsigned(&[&[7]]))?;
    both_read(&format!("{empty} {structure}"), vec![])
}

fn two_streams_of_a_group() -> Outcome {
    let stream = |reading| format!("5354524d 00 01 0009 4759524f 42 01 0001 {reading} 000000");
    let payload = bytes(&[stream("01"), stream("02")].concat());
    let map = published_side::walk(&payload, false).map.expect("an accepted reading");
    same("the Rust's groups and their entries", &vec![1], &map.values().map(|tags| tags.len()).collect::<Vec<_>>())?;
    let ReadBack::Is(theirs) = probe_rows(&map[&GroupId::Gyroscope][&TagId::Data].value).2 else { return Err("the Rust does not read it".into()) };
    same("the Rust's readings", &unsigned(&[&[2]]), &theirs)?;
    let (answer, rows) = library::read(&payload, false, 16);
    let key = u32::from_be_bytes(*b"GYRO");
    same(
        "the rows and the last of them",
        &(2, (IS, 1)),
        &(answer.rows, {
            let found = library::lookup(&rows, answer.rows, 1, key, 1, key);
            (found.kind, found.value)
        }),
    )?;
    for (n, reading) in [1, 2].into_iter().enumerate() {
        let place = library::row_at(&rows, n).row.place as usize;
        same("a reading", &Plain::Unsigned(reading), &library::element(&payload, place, library::NO_TYPE as usize, 0, 0).element.plain())?;
    }
    listed_among(&[], &Input::Payload(payload))
}

fn keys_not_ascii() -> Outcome {
    let payload = bytes("ff414243 42 01 0001 07");
    let walked = published_side::walk(&payload, false);
    same("the Rust's entries", &1, &walked.items.len())?;
    same("the Rust's tag", &true, &matches!(walked.items[0].id, TagId::Unknown(0xff414243)))?;
    let (answer, rows) = library::read(&payload, false, 8);
    same("rows, tag and key", &(1, 0, 0xff414243), &(answer.rows, library::row_at(&rows, 0).row.tag, library::row_at(&rows, 0).row.key))?;
    both_read("ff414243 42 01 0001 07", unsigned(&[&[7]]))?;
    listed_among(&[], &Input::Payload(payload))
}

fn other_letters_for_axes() -> Outcome {
    let payload = gyro_stream([one(b"ORIN", b'c', b"ABC"), one(b"ORIO", b'c', b"ABC")].concat());
    let map = published_side::walk(&payload, false).map.expect("an accepted reading");
    same("the Rust's axes", &Some("XYZ".to_string()), &probe::oriented_group(&GroupId::Gyroscope, &map[&GroupId::Gyroscope]))?;
    let (answer, rows) = library::read(&payload, false, 80);
    same("orientation_of_group", &(IS, [b'X', b'Y', b'Z']), &{
        let told = library::orientation_of_group(&payload, &rows, answer.rows, 1, u32::from_be_bytes(*b"GYRO"));
        (told.kind, [told.axes.first, told.axes.second, told.axes.third])
    })?;
    listed_among(&[], &Input::Payload(payload))
}

fn axes_by_the_model() -> Outcome {
    for (model, expected) in [("HERO6", Some("ZyX")), ("HERO7 Silver", Some("YXz")), ("HERO8", None)] {
        let file = container(b"DEVC", &[one(b"MINF", b'c', model.as_bytes()), gyro_stream(vec![])].concat());
        same("the Rust's axes", &Some(vec![expected.map(str::to_string)]), &probe::axes_of_file(&file, &GroupId::Gyroscope))?;
        let (answer, rows) = library::read(&file[8..], false, 80);
        same("rows", &2, &answer.rows)?;
        same("orientation_of_group", &NOTHING, &library::orientation_of_group(&file[8..], &rows, answer.rows, 1, u32::from_be_bytes(*b"GYRO")).kind)?;
    }
    same(
        "the Rust's axes of the smallest file",
        &Some(vec![Some("ZyX".to_string())]),
        &probe::axes_of_file(
            &bytes("44455643 00 01 0021 4d494e46 63 01 0005 4845524f36 000000 5354524d 00 01 0009 4759524f 42 01 0001 00"),
            &GroupId::Gyroscope,
        ),
    )
}

fn files_that_are_cut() -> Outcome {
    let files = [("00 44455643 00 01 0001 07", ((9, 10), (IS, 0))), ("44455643 00 01 0010 41424344 42 01 0001 07000000", ((8, 20), (IS, 1)))];
    for (file, expected) in files {
        let file = bytes(file);
        same("the Rust's packets", &None, &probe::axes_of_file(&file, &GroupId::Gyroscope))?;
        let answer = library::next_metadata(library::packets_new(0), &file, false, &mut [0; 8]);
        let packet = (answer.packet.start, answer.packet.end);
        same("the packet", &expected, &(packet, (answer.metadata.kind, answer.metadata.rows)))?;
    }
    Ok(())
}

fn headers_read_twice() -> Outcome {
    let payload = bytes("5354524d 00 01 0014 5343414c 73 02 0001 00010000 4759524f 73 06 0000");
    for (forced, reads) in [(false, 5), (true, 3)] {
        let walked = published_side::walk(&payload, forced);
        same("the Rust's rows, reads of headers and places of these", &(1, reads, 3), &(walked.items.len(), walked.reads, walked.headers))?;
        let (answer, _) = library::read(&payload, forced, 8);
        same("rows and headers", &(IS, 1, 3), &(answer.kind, answer.rows, answer.headers))?;
    }
    listed_alone(Listed::ReadTwice, &Input::Payload(payload))
}

const ENTRIES: [(&str, fn() -> Outcome); 32] = [
    ("1, the divisor of Q", divisor_of_q),
    ("2, size against the widths of letters", size_against_widths),
    ("3, MAGN has a group and no tag, FACE has neither", streams_without_a_tag),
    ("4, impossible dates", impossible_dates),
    ("5, a negation that a debug build stops at", negation),
    ("6, limits of a payload", limits_of_payloads),
    ("6, the limit of a type", limit_of_types),
    ("6, limits of a duration list", limits_of_lists),
    ("7, where the Rust panics", panics),
    ("8, a stamp whose date is not readable", stamps_of_dates),
    ("9, one error for two findings", two_findings),
    ("10, padding that is not there, and bytes left over", padding_and_left_over),
    ("11, texts that are not ASCII", texts_not_ascii),
    ("12, x[0] in a TYPE", count_of_zero),
    ("13, texts, identifiers and dates inside a structure", texts_in_structures),
    ("14, several keys, identifiers or dates in one item", several_in_one),
    ("15, signs in a date", signs_in_dates),
    ("16, the bits of a NaN", bits_of_nan),
    ("17, brackets in a TYPE", brackets),
    ("18, axes that are not three ASCII characters", other_axes),
    ("19, DEVC inside a packet", devc_inside),
    ("20, values that cannot be read, and stamps of 2^63 or more", unread_values_and_stamps),
    ("21, q in f32", rounded_q),
    ("22, what a quaternion is divided by", divisor_of_quaternions),
    ("23, a TYPE of several texts", type_of_several_texts),
    ("24, an empty TYPE behind another", empty_type),
    ("25, two streams of one group in a packet", two_streams_of_a_group),
    ("26, keys that are not ASCII", keys_not_ascii),
    ("27, axes that are not X, Y and Z", other_letters_for_axes),
    ("28, axes by the model of the camera", axes_by_the_model),
    ("29, which files are cut", files_that_are_cut),
    ("30, headers that the Rust reads twice", headers_read_twice),
];

/// Every entry is as it says; each that is not is told.
pub fn all_shown() -> bool {
    let outcome = |test: &fn() -> Outcome| caught(test).unwrap_or_else(|| Err("its test panics: an answer is of another kind".into()));
    let failed: Vec<String> = ENTRIES.iter().filter_map(|(name, test)| outcome(test).err().map(|why| format!("entry {name}: {why}"))).collect();
    for line in &failed {
        println!("{line}");
    }
    println!("{} of {} tests of docs/DIFFERENCES.md are as its entries say", ENTRIES.len() - failed.len(), ENTRIES.len());
    failed.is_empty()
}
