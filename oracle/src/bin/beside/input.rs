//! An input of any kind: how it is asked, shown, and made smaller while a difference stays.
use crate::calls::{self, Timed};
use crate::items::{container, item};
use crate::tally::{Outcome, Tally};
use crate::{compare, files, model};

#[derive(Clone, Debug)]
pub enum Input {
    Payload(Vec<u8>),
    File(Vec<u8>),
    TypeText(Vec<u8>),
    Date(Vec<u8>),
    Utf8(Vec<u8>, usize),
    Key(u32),
    Axes(Vec<u8>, Vec<u8>),
    Matrix(Vec<f32>),
    Quaternion([i16; 4], f64),
    Average(Vec<Timed>),
}

impl Input {
    /// Both sides are asked, and their answers compared.
    pub fn ask(&self, tally: &mut Tally) -> Outcome {
        match self {
            Input::Payload(bytes) => compare::payload(bytes, tally),
            Input::File(bytes) => files::file(bytes, tally),
            Input::TypeText(text) => calls::type_text(text, tally),
            Input::Date(text) => calls::date(text, tally),
            Input::Utf8(text, size) => calls::utf8(text, *size, tally),
            Input::Key(key) => calls::key(*key, tally),
            Input::Axes(orin, orio) => calls::axes(orin, orio, tally),
            Input::Matrix(numbers) => calls::back(numbers, tally),
            Input::Quaternion(numbers, scale) => calls::quaternion(*numbers, *scale, tally),
            Input::Average(packets) => calls::average(packets, tally),
        }
    }

    /// The difference that an input shows, if any; a panic of the Rust where none is expected is one.
    pub fn difference(&self, tally: &mut Tally) -> Option<String> {
        match crate::published_side::caught(|| self.ask(tally)) {
            Some(outcome) => outcome.err(),
            None => Some("the Rust, or this program, panics where no entry says so".into()),
        }
    }

    pub fn shown(&self) -> String {
        match self {
            Input::Payload(bytes) => format!("payload {}", hex(bytes)),
            Input::File(bytes) => format!("raw file {}", hex(bytes)),
            Input::TypeText(text) => format!("TYPE text {}", hex(text)),
            Input::Date(text) => format!("date {}", hex(text)),
            Input::Utf8(text, size) => format!("texts of {size} bytes each {}", hex(text)),
            Input::Key(key) => format!("key {key:08x}"),
            Input::Axes(orin, orio) => format!("ORIN {} ORIO {}", hex(orin), hex(orio)),
            Input::Matrix(numbers) => format!("matrix, f32 bits {:08x?}", numbers.iter().map(|x| x.to_bits()).collect::<Vec<_>>()),
            Input::Quaternion(numbers, scale) => format!("quaternion {numbers:?} by {scale}"),
            Input::Average(packets) => format!("packets {packets:?}"),
        }
    }

    /// This input with other bytes, where it is made of bytes.
    fn of_bytes(&self) -> Option<(&[u8], fn(Vec<u8>) -> Input)> {
        match self {
            Input::Payload(bytes) => Some((bytes, Input::Payload)),
            Input::File(bytes) => Some((bytes, Input::File)),
            Input::TypeText(bytes) => Some((bytes, Input::TypeText)),
            Input::Date(bytes) => Some((bytes, Input::Date)),
            _ => None,
        }
    }

    /// Inputs that are a little smaller: a stretch less, a byte of 0 or one lower.
    fn smaller(&self) -> Vec<Input> {
        if let Input::Average(packets) = self {
            return (0..packets.len()).map(|n| Input::Average([&packets[..n], &packets[n + 1..]].concat())).collect();
        }
        let Some((bytes, made)) = self.of_bytes() else { return Vec::new() };
        let mut all: Vec<Input> = if matches!(self, Input::Payload(_)) { smaller_levels(bytes).into_iter().map(made).collect() } else { Vec::new() };
        all.extend(stretches(bytes.len()).into_iter().map(|(from, to)| made([&bytes[..from], &bytes[to..]].concat())));
        if bytes.len() <= 4096 {
            for (at, &byte) in bytes.iter().enumerate().filter(|(_, byte)| **byte > 0) {
                for lower in [0, byte / 2, byte - 1] {
                    let mut other = bytes.to_vec();
                    other[at] = lower;
                    all.push(made(other));
                }
            }
        }
        all
    }

    /// The smallest form that can be reached with a difference at every step.
    pub fn shrunk(self) -> Input {
        let (mut input, began) = (self, std::time::Instant::now());
        while began.elapsed().as_secs() < 20 {
            let Some(next) = input.smaller().into_iter().find(|smaller| smaller.difference(&mut Tally::new()).is_some()) else { break };
            input = next;
        }
        input
    }
}

/// A level with one item less, at any depth, or one in place of its container, or with a value of one byte; containers are written anew round what is left.
fn smaller_levels(level: &[u8]) -> Vec<Vec<u8>> {
    let (mut all, mut at) = (Vec::new(), 0);
    while at + 8 <= level.len() {
        let (from, to) = (at + 8, at + 8 + model::length(level, at));
        if to > level.len() {
            break;
        }
        let behind = level.len().min(to.next_multiple_of(4).max(from));
        let with = |part: &[u8]| [&level[..at], part, &level[behind..]].concat();
        all.push(with(&[]));
        let (key, inside) = (&level[at..at + 4], &level[from..to]);
        if level[at + 4] == 0 {
            all.push(with(inside));
            all.extend(smaller_levels(inside).iter().map(|inside| with(&container(key, inside))));
        } else if inside.len() > 1 {
            all.push(with(&item(key, level[at + 4], 1, 1, &inside[..1])));
        }
        at = behind;
    }
    all
}

/// Stretches that may be left out of so many bytes, the longest first.
fn stretches(length: usize) -> Vec<(usize, usize)> {
    let mut all = Vec::new();
    let mut size = length;
    while size > 0 {
        let step = if length <= 512 { 1 } else { size };
        all.extend((0..length).step_by(step).filter(|from| from + size <= length).map(|from| (from, from + size)));
        size = if size <= 16 { size - 1 } else { size / 2 };
    }
    all
}

pub fn hex(bytes: &[u8]) -> String {
    if bytes.len() > 4096 {
        return format!("{}.. ({} bytes)", hex(&bytes[..256]), bytes.len());
    }
    bytes.iter().map(|b| format!("{b:02x}")).collect()
}
