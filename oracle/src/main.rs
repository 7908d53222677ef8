//! The Rust oracle: the published GPMF code behind a line protocol. See README.md.
//! One function a question: its words in, its answer out, `None` where they are no such question.

use published::gopro::{GoPro, klv::{KLV, probe}};
use published::groups::group_number;
use published::plain::{Plain, ReadBack};
use published::tags_impl::*;
use published::util::{begin_list, end_list};
use published::{InputOptions, SampleInfo};
use std::io::{BufRead, Cursor, Write};

fn answer(line: &str) -> Option<String> {
    let words: Vec<&str> = line.split(' ').collect();
    let asked = &words[1..];
    match words[0] {
        "header" => header(asked),
        "tag" => tag(asked),
        "group" => group(asked),
        "walk" => walk(asked),
        "rows" => rows(asked),
        "kinds" => kinds(asked),
        "values" => values(asked),
        "last" => last(asked),
        "expand" => expand(asked),
        "date" => date(asked),
        "matrix" => matrix(asked),
        "back" => back(asked),
        "oriented" => oriented(asked),
        "quat" => quat(asked),
        "stamp" => stamp(asked),
        "avg" => avg(asked),
        "average" => average(asked),
        "cut" => cut(asked),
        "cuts" => cuts(asked),
        "packets" => packets(asked),
        "sett" => sett(asked),
        "udta" => udta(asked),
        _ => None,
    }
}

fn main() {
    std::panic::set_hook(Box::new(|_| ()));
    let worker = std::thread::Builder::new().stack_size(1 << 28).spawn(|| {
        let mut out = std::io::BufWriter::new(std::io::stdout().lock());
        for line in std::io::stdin().lock().split(b'\n') {
            let line = String::from_utf8_lossy(&line.expect("a line")).into_owned();
            if line.is_empty() { out.flush().unwrap(); continue; } // an empty line asks for what is ready
            let answer = match std::panic::catch_unwind(|| answer(&line)) {
                Ok(Some(answer)) => answer,
                Ok(None) => "unknown".into(),
                Err(_) => "panic".into(),
            };
            writeln!(out, "{answer}").unwrap();
        }
        out.flush().unwrap();
    });
    worker.unwrap().join().unwrap();
}

// ---------- words ----------

/// Bytes in small hex, `-` for none.
fn bytes(word: &str) -> Option<Vec<u8>> {
    if word == "-" { return Some(Vec::new()); }
    if word.is_empty() || word.len() % 2 != 0 { return None; }
    let digit = |c: u8| match c { b'0'..=b'9' => Some(c - b'0'), b'a'..=b'f' => Some(c - b'a' + 10), _ => None };
    word.as_bytes().chunks(2).map(|c| Some(digit(c[0])? * 16 + digit(c[1])?)).collect()
}
/// A decimal number of digits alone, below 2^64.
fn number(word: &str) -> Option<u64> {
    if !word.bytes().all(|c| c.is_ascii_digit()) { return None; }
    word.parse().ok()
}
/// A key: eight hex digits.
fn key(word: &str) -> Option<[u8; 4]> { bytes(word)?.try_into().ok() }
/// A big-endian number of 64 bits: sixteen hex digits.
fn bits(word: &str) -> Option<u64> { Some(u64::from_be_bytes(bytes(word)?.try_into().ok()?)) }

fn hex(b: &[u8]) -> String {
    if b.is_empty() { return "-".into(); }
    b.iter().map(|x| format!("{x:02x}")).collect()
}
fn latin1(b: &[u8]) -> String { b.iter().map(|&c| c as char).collect() }

// ---------- headers and keys ----------

/// header PLACE HEX
fn header(asked: &[&str]) -> Option<String> {
    let [place, payload] = asked else { return None };
    let payload = bytes(payload)?;
    let mut cursor = Cursor::new(&payload[..]);
    cursor.set_position(number(place)?);
    Some(match KLV::parse_header(&mut cursor) {
        Ok(k) => format!("ok {} {} {} {} {} {}", hex(&k.key), k.data_type, k.size, k.repeat, k.data_len(), k.aligned_data_len()),
        Err(_) => "err".into(),
    })
}

/// tag KEY
fn tag(asked: &[&str]) -> Option<String> {
    let [name] = asked else { return None };
    let klv = KLV { key: key(name)?, ..Default::default() };
    Some(probe_tag_number(&klv.tag_id()).to_string())
}

/// group KEY
fn group(asked: &[&str]) -> Option<String> {
    let [name] = asked else { return None };
    let (number, kept) = group_number(&KLV::group_from_key(&key(name)?));
    Some(format!("{number} {}", hex(&kept)))
}

// ---------- the walk ----------

fn show_group(group: &GroupId) -> String {
    if *group == GroupId::Default { "-".into() } else { hex(&group_number(group).1) }
}
/// An entry for each group and tag, in the order of group key, tag number and key.
fn show_map(map: &GroupedTagMap) -> String {
    let mut entries = Vec::new();
    for (g, tags) in map {
        let group = show_group(g);
        for (id, d) in tags {
            let Some(native) = d.native_id else { continue }; // put in by process_map or process_samples
            assert!(&d.group == g && &d.id == id);
            let (variant, raw, value) = probe_value(&d.value);
            let tag = probe_tag_number(id);
            entries.push(((group.clone(), tag, native), format!(" {group},{tag},{native:08x},{variant},{},{value}", hex(raw))));
        }
    }
    entries.sort();
    entries.into_iter().map(|(_, shown)| shown).collect()
}
fn parsed(payload: &[u8], forced: bool) -> std::io::Result<GroupedTagMap> {
    GoPro::parse_metadata(payload, GroupId::Default, forced, &InputOptions::default())
}

/// What a walk gives: the map, at how many places it read a header, and all that was put in, in its order.
struct Walked { map: GroupedTagMap, headers: usize, items: Vec<TagDescription> }
/// FORCED HEX: the walk of these, where they are such words; none where the Rust refuses it.
fn walked(asked: &[&str]) -> Option<Option<Walked>> {
    let (forced, payload) = match asked { ["0", p] => (false, bytes(p)?), ["1", p] => (true, bytes(p)?), _ => return None };
    begin_list();
    let (map, headers) = byteorder::headers_of(|| parsed(&payload, forced));
    let items = end_list();
    Some(map.ok().map(|map| Walked { map, headers: headers.places, items }))
}
fn ok_or_err(answer: Option<String>) -> Option<String> { Some(answer.unwrap_or("err".into())) }

/// walk FORCED HEX
fn walk(asked: &[&str]) -> Option<String> {
    ok_or_err(walked(asked)?.map(|w| format!("ok h={}{}", w.headers, show_map(&w.map))))
}

/// rows FORCED HEX: each item that is put in, and whether it is the one that the map has of its group and tag (of several that are alike, the last)
fn rows(asked: &[&str]) -> Option<String> {
    ok_or_err(walked(asked)?.map(|w| {
        let alike = |a: &TagDescription, b: &TagDescription| a.group == b.group && a.id == b.id && a.native_id == b.native_id && probe_value(&a.value) == probe_value(&b.value);
        let shown = w.items.iter().enumerate().map(|(at, item)| {
            let has = w.map.get(&item.group).and_then(|tags| tags.get(&item.id)).is_some_and(|kept| alike(kept, item));
            let kept = has && !w.items[at + 1..].iter().any(|later| alike(later, item));
            let native = item.native_id.expect("a key");
            format!(" {},{},{native:08x},{},{}", show_group(&item.group), probe_tag_number(&item.id), hex(probe_value(&item.value).1), kept as u8)
        });
        format!("ok h={}{}", w.headers, shown.collect::<String>())
    }))
}

/// kinds FORCED HEX: the name of the kind of each item's value
fn kinds(asked: &[&str]) -> Option<String> {
    ok_or_err(walked(asked)?.map(|w| format!("ok{}", w.items.iter().map(|item| format!(" {}", probe_value(&item.value).0)).collect::<String>())))
}

/// values FORCED HEX: the rows of each item's value; the one row of a structure is a list in the Rust
fn values(asked: &[&str]) -> Option<String> {
    ok_or_err(walked(asked)?.map(|w| {
        let shown = w.items.iter().map(|item| match probe_rows(&item.value) {
            ("Vec_Scalar", _, ReadBack::Is(rows)) => show_rows(&[rows.concat()]),
            (_, _, ReadBack::Is(rows)) => show_rows(&rows),
            _ => " err".into(),
        });
        format!("ok{}", shown.collect::<String>())
    }))
}
fn show_rows(rows: &[Vec<Plain>]) -> String {
    let row = |cells: &Vec<Plain>| format!("/{}", cells.iter().map(show_plain).collect::<String>());
    format!(" {}{}", rows.len(), rows.iter().map(row).collect::<String>())
}
fn show_plain(number: &Plain) -> String {
    match number {
        Plain::Signed(n) => format!("i{n}"),
        Plain::Unsigned(n) => format!("u{n}"),
        Plain::Single(bits) => format!("f{bits:08x}"),
        Plain::Double(bits) => format!("d{bits:016x}"),
    }
}

/// last HEX
fn last(asked: &[&str]) -> Option<String> {
    let [payload] = asked else { return None };
    let payload = bytes(payload)?;
    Some(match GoPro::get_last_klv(&payload) {
        Ok(s) => format!("ok {} {}", s.as_ptr() as usize - payload.as_ptr() as usize, s.len()),
        Err(_) => "err".into(),
    })
}

// ---------- values, axes, times ----------

/// expand HEX (a Latin-1 text)
fn expand(asked: &[&str]) -> Option<String> {
    let [text] = asked else { return None };
    let expanded = probe::expand(&latin1(&bytes(text)?));
    Some(if expanded.chars().count() > 256 { "long".into() } else { format!("ok {}", expanded.show()) })
}

/// date HEX (a text)
fn date(asked: &[&str]) -> Option<String> {
    let [text] = asked else { return None };
    Some(probe::date(&bytes(text)?).map_or("err".into(), |ms| format!("ok {ms}")))
}

/// matrix ORIN ORIO
fn matrix(asked: &[&str]) -> Option<String> {
    let [orin, orio] = asked else { return None };
    Some(match KLV::orientations_to_matrix(&latin1(&bytes(orin)?), &latin1(&bytes(orio)?)) {
        Some(m) => format!("ok {}", m.show()),
        None => "none".into(),
    })
}

/// back HEX, four bytes for each f32
fn back(asked: &[&str]) -> Option<String> {
    let [numbers] = asked else { return None };
    let m: Option<Vec<f32>> = bytes(numbers)?.chunks(4).map(|c| Some(f32::from_be_bytes(c.try_into().ok()?))).collect();
    Some(format!("ok {}", probe::back(&m?)))
}

/// oriented HEX: the axes that `process_map` puts in for gyroscope, accelerometer and magnetometer
fn oriented(asked: &[&str]) -> Option<String> {
    let [payload] = asked else { return None };
    Some(match parsed(&bytes(payload)?, false) {
        Ok(map) => format!("ok{}", probe::oriented(map)),
        Err(_) => "err".into(),
    })
}

/// quat HEX
fn quat(asked: &[&str]) -> Option<String> {
    let [payload] = asked else { return None };
    Some(match parsed(&bytes(payload)?, false) {
        Ok(map) => format!("ok{}", probe::quats(map)),
        Err(_) => "err".into(),
    })
}

/// stamp GROUPKEY HEX
fn stamp(asked: &[&str]) -> Option<String> {
    let [group, payload] = asked else { return None };
    let group = KLV::group_from_key(&key(group)?);
    Some(match parsed(&bytes(payload)?, false) {
        Ok(map) => map.get(&group).and_then(probe::stamp).map_or("none".into(), |us| format!("ok {us}")),
        Err(_) => "err".into(),
    })
}

/// A packet of GYRO readings, so many of them, with a stamp where there is one; none where a header cannot write its length.
fn gyro_packet(count: u16, stamp: Option<u64>) -> Option<Vec<u8>> {
    let mut stream = Vec::new();
    if let Some(us) = stamp { stream.extend([b"STMPJ\x08\0\x01".as_slice(), &us.to_be_bytes()].concat()); }
    stream.extend([b"GYROs\x06".as_slice(), &count.to_be_bytes()].concat());
    stream.resize((stream.len() + count as usize * 6).next_multiple_of(4), 0);
    Some([b"STRM\0\x04".as_slice(), &u16::try_from(stream.len() / 4).ok()?.to_be_bytes(), &stream].concat())
}
/// average COUNT:STAMP:DURATION:MISSING ... (the stamp in µs or `-`, the duration in ms as f64 bits in hex, 1 where time is missing since
/// the last stamped packet): the packets are made up, and put on the track where the Rust finds as much time missing as is said
fn average(asked: &[&str]) -> Option<String> {
    let mut samples: Vec<SampleInfo> = Vec::new();
    let mut end_of_stamped = 0.0;
    let mut stamped_duration = 0.0;
    for packet in asked {
        let f: Vec<&str> = packet.split(':').collect();
        let [count, stamp, duration, missing] = f[..] else { return None };
        let us = if stamp == "-" { None } else { Some(number(stamp)?) };
        let duration_ms = f64::from_bits(bits(duration)?);
        let timestamp_ms = match missing { "0" => end_of_stamped, "1" => end_of_stamped + stamped_duration, _ => return None };
        let payload = gyro_packet(u16::try_from(number(count)?).ok()?, us)?;
        samples.push(SampleInfo { timestamp_ms, duration_ms, tag_map: parsed(&payload, false).ok(), ..Default::default() });
        if us.is_some() { end_of_stamped = timestamp_ms + duration_ms; stamped_duration = duration_ms; }
    }
    Some(probe::avg(&samples, &GroupId::Gyroscope).map_or("none".into(), |v| format!("ok {}", v.show())))
}

/// avg GROUPKEY TIMESTAMP_MS:DURATION_MS:HEX ... (the two as f64 bits in hex)
fn avg(asked: &[&str]) -> Option<String> {
    let group = KLV::group_from_key(&key(asked.first()?)?);
    let mut samples = Vec::new();
    for packet in &asked[1..] {
        let f: Vec<&str> = packet.split(':').collect();
        let [timestamp, duration, payload] = f[..] else { return None };
        samples.push(SampleInfo {
            timestamp_ms: f64::from_bits(bits(timestamp)?),
            duration_ms: f64::from_bits(bits(duration)?),
            tag_map: parsed(&bytes(payload)?, false).ok(),
            ..Default::default()
        });
    }
    let stamp = |s: &SampleInfo| s.tag_map.as_ref().and_then(|m| m.get(&group)).and_then(probe::stamp).map_or("-".into(), |v| v.to_string());
    let stamps: Vec<String> = samples.iter().map(stamp).collect();
    let missing: Vec<String> = samples.windows(2).map(|p| probe::missing(&p[0], &p[1]).to_string()).collect();
    let average = probe::avg(&samples, &group).map_or("none".into(), |v| v.show());
    Some(format!("ok {average} stamps={} missing={}", stamps.join(";"), missing.join(";")))
}

// ---------- files ----------

/// cut HEX: the accepted packets' maps, by `parse`
fn cut(asked: &[&str]) -> Option<String> {
    let [file] = asked else { return None };
    Some(match probe::cut_file(&bytes(file)?) {
        Ok(maps) => format!("ok {}{}", maps.len(), maps.iter().map(|m| format!(" |{}", show_map(m))).collect::<String>()),
        Err(_) => "err".into(),
    })
}

/// cuts HEX: start and end of each packet
fn cuts(asked: &[&str]) -> Option<String> {
    let [file] = asked else { return None };
    Some(format!("ok{}", probe::cuts(&bytes(file)?).iter().map(|(a, b)| format!(" {a}-{b}")).collect::<String>()))
}

/// packets HEX: of each packet at how many places a header was read, or `err`
fn packets(asked: &[&str]) -> Option<String> {
    let [file] = asked else { return None };
    let file = bytes(file)?;
    let headers = |(a, b): &(usize, usize)| {
        let (map, headers) = byteorder::headers_of(|| parsed(&file[*a..*b], false));
        map.map_or(" err".into(), |_| format!(" {}", headers.places))
    };
    Some(format!("ok{}", probe::cuts(&file).iter().map(headers).collect::<String>()))
}

/// sett HEX
fn sett(asked: &[&str]) -> Option<String> {
    let [file] = asked else { return None };
    Some(match probe::sett(&bytes(file)?) {
        Ok((e, v)) => format!("ok {} {}", e.unwrap_or("-".into()), v.unwrap_or("-".into())),
        Err(e) => format!("err {:?}", e.kind()),
    })
}

/// udta HEX
fn udta(asked: &[&str]) -> Option<String> {
    let [file] = asked else { return None };
    Some(match probe::udta_box(&bytes(file)?) {
        Some((at, len)) => format!("ok {at} {len}"),
        None => "none".into(),
    })
}
