//! A raw file beside the Rust: its cuts, each packet's reading, and the same through windows of several sizes.
use crate::compare;
use crate::draw::Draw;
use crate::library::{self, IS, MORE, MOST_BYTES, MetadataAnswer, Packets, REFUSED, UNTOUCHED};
use crate::published_side;
use crate::tally::{Call, Listed, Outcome, Tally, Theirs, holds, ours, same};
use memchr::memmem;
use published::gopro::klv::probe;

/// A packet's start and end, what it is read as, and its rows.
#[derive(Clone, Debug, PartialEq)]
struct Reading {
    start: usize,
    end: usize,
    answer: MetadataAnswer,
    rows: Vec<u32>,
}

pub fn file(bytes: &[u8], tally: &mut Tally) -> Outcome {
    let mut draw = Draw::of(bytes);
    let cuts = probe::cuts(bytes);
    searches(bytes, &mut draw, tally)?;
    packets(bytes, 0, &cuts, tally)?;
    let from = draw.below(bytes.len() + 2);
    packets(bytes, from, &cuts.iter().copied().filter(|(start, _)| start - 8 >= from).collect(), tally)?;
    let forced = draw.chance(30);
    let numbers = draw.pick(&[8 * 64, 8 * 8 + 3, 8, 0]);
    let whole = readings(bytes, forced, numbers)?;
    same("next_metadata's packets", &cuts, &whole.iter().map(|r| (r.start, r.end)).collect())?;
    for reading in &whole {
        packet(bytes, reading, forced, numbers, tally)?;
    }
    if crate::model::is_within_memory(bytes) {
        crate::clock::averages(bytes, &cuts, tally)?;
    }
    // of a long file no small windows: each step searches from the packet's start
    let small = if bytes.len() < 20_000 { draw.below(40) + 1 } else { bytes.len() / 9 };
    for size in [small, small * 10 + draw.below(100), bytes.len() + 1] {
        windows(bytes, size, &cuts, &whole, forced, numbers, tally)?;
    }
    Ok(())
}

/// The first DEVC from a place on.
fn searches(bytes: &[u8], draw: &mut Draw, tally: &mut Tally) -> Outcome {
    for from in [0, 1, draw.below(bytes.len() + 1), bytes.len(), bytes.len() + 1, usize::MAX] {
        let theirs = bytes.get(from..).and_then(|rest| memmem::find(rest, b"DEVC")).map(|at| at + from);
        let answer = library::find_devc(bytes, from);
        tally.call(Call::FindDevc, if theirs.is_some() { Theirs::Answer } else { Theirs::Nothing }, ours(answer.kind));
        same("find_devc", &theirs, &(answer.kind == IS).then_some(answer.value as usize))?;
    }
    Ok(())
}

/// The packets from a place on, one by one, beside the Rust's.
fn packets(bytes: &[u8], from: usize, cuts: &Vec<(usize, usize)>, tally: &mut Tally) -> Outcome {
    let (mut found, mut cursor) = (Vec::new(), library::packets_new(from));
    loop {
        let answer = library::packets_next(cursor, bytes);
        tally.call(Call::PacketsNext, if found.len() < cuts.len() { Theirs::Answer } else { Theirs::Nothing }, ours(answer.kind));
        if answer.kind != IS {
            return same("packets_next", cuts, &found);
        }
        found.push((answer.packet.start, answer.packet.end));
        cursor = answer.rest;
    }
}

fn readings(bytes: &[u8], forced: bool, numbers: usize) -> Result<Vec<Reading>, String> {
    let (mut found, mut cursor) = (Vec::new(), library::packets_new(0));
    loop {
        let mut rows = vec![UNTOUCHED; numbers];
        let answer = library::next_metadata(cursor, bytes, forced, &mut rows);
        if answer.kind != IS {
            holds(library::untouched_behind(&rows, 0), || "next_metadata wrote behind the last packet".into())?;
            return Ok(found);
        }
        found.push(Reading { start: answer.packet.start, end: answer.packet.end, answer: answer.metadata, rows });
        cursor = answer.rest;
    }
}

/// A packet is read as its own bytes are, and as document 01 says; the Rust passes over one that it cannot read.
fn packet(bytes: &[u8], reading: &Reading, forced: bool, numbers: usize, tally: &mut Tally) -> Outcome {
    let payload = &bytes[reading.start..reading.end];
    same("next_metadata", &library::read(payload, forced, numbers), &(reading.answer, reading.rows.clone()))?;
    compare::by_document(payload, forced, reading.answer, &reading.rows, tally)?;
    if !crate::model::is_within_memory(payload) {
        tally.outside += 1;
        tally.call(Call::NextMetadata, Theirs::Outside, ours(reading.answer.kind));
        return Ok(());
    }
    let is_read = published_side::walk(payload, forced).map.is_some();
    tally.call(Call::NextMetadata, if is_read { Theirs::Answer } else { Theirs::Error }, ours(reading.answer.kind));
    match (is_read, reading.answer.kind) {
        (false, REFUSED) => {
            tally.listed(Listed::Told);
            Ok(())
        }
        (true, IS) => Ok(()),
        // a limit or a small room, as document 01 says
        (true, REFUSED) if matches!(reading.answer.number, 1 | 4 | 5) => Ok(()),
        _ => Err(format!("next_metadata: the Rust reads it: {is_read}, the library {reading:?}")),
    }
}

// ---- windows

/// A file that is read piece by piece, so many bytes more each time.
struct Window<'a> {
    bytes: &'a [u8],
    base: usize,
    end: usize,
    size: usize,
}

impl<'a> Window<'a> {
    fn new(bytes: &'a [u8], size: usize) -> Window<'a> {
        Window { bytes, base: 0, end: size.min(bytes.len()), size }
    }
    fn held(&self) -> &'a [u8] {
        &self.bytes[self.base..self.end]
    }
    fn more(&self) -> bool {
        self.end < self.bytes.len()
    }
    fn step(&mut self, place: usize) {
        self.base += place;
        self.end = (self.end + self.size).min(self.bytes.len());
    }
}

/// The Rust has no windows, and is not asked: what they give must be what the whole file gave.
fn windows(bytes: &[u8], size: usize, cuts: &[(usize, usize)], whole: &[Reading], forced: bool, numbers: usize, tally: &mut Tally) -> Outcome {
    same("packets_next_in", &cuts.to_vec(), &packets_in(Window::new(bytes, size), tally))?;
    let found = readings_in(Window::new(bytes, size), forced, numbers, tally)?;
    holds(found.len() == whole.len(), || format!("next_metadata_in finds {} packets of {}", found.len(), whole.len()))?;
    for (one, all) in found.iter().zip(whole) {
        // of a packet over the limit the end may not be known, and is 0
        let end = if one.end == 0 && all.end - all.start > MOST_BYTES { 0 } else { all.end };
        same("next_metadata_in", &Reading { end, ..all.clone() }, one)?;
    }
    Ok(())
}

fn packets_in(mut window: Window, tally: &mut Tally) -> Vec<(usize, usize)> {
    let (mut found, mut cursor) = (Vec::new(), library::packets_new(0));
    loop {
        let answer = library::packets_next_in(cursor, window.held(), window.more());
        tally.call(Call::PacketsNextIn, Theirs::Outside, ours(answer.kind));
        match answer.kind {
            IS => found.push((window.base + answer.packet.start, window.base + answer.packet.end)),
            MORE => window.step(answer.place),
            _ => return found,
        }
        cursor = if answer.kind == MORE { Packets { at: 0 } } else { answer.rest };
    }
}

fn readings_in(mut window: Window, forced: bool, numbers: usize, tally: &mut Tally) -> Result<Vec<Reading>, String> {
    let (mut found, mut cursor) = (Vec::new(), library::packets_new(0));
    loop {
        let mut rows = vec![UNTOUCHED; numbers];
        let answer = library::next_metadata_in(cursor, window.held(), window.more(), forced, &mut rows);
        let (start, end) = (window.base + answer.packet.start, window.base + answer.packet.end);
        tally.call(Call::NextMetadataIn, Theirs::Outside, ours(answer.kind));
        if answer.kind != IS {
            holds(library::untouched_behind(&rows, 0), || "next_metadata_in wrote without an accepted packet".into())?;
        }
        match answer.kind {
            IS => found.push(Reading { start, end, answer: answer.metadata, rows }),
            REFUSED => found.push(Reading {
                start,
                end: 0,
                answer: MetadataAnswer { kind: REFUSED, number: answer.number, place: answer.place, rows: 0, headers: 0 },
                rows,
            }),
            MORE => window.step(answer.place),
            _ => return Ok(found),
        }
        cursor = if answer.kind == MORE { Packets { at: 0 } } else { answer.rest };
    }
}
