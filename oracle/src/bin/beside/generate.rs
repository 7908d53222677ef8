//! Which inputs are asked: each follows from the seed and its number alone, so the same are asked by any number of threads.
use crate::calls::Timed;
use crate::draw::Draw;
use crate::input::Input;
use crate::items::{self, container, header, item, one, text};
use crate::limits;
use crate::takes::{self, GENERATIONS};
use published::gopro::klv::probe;

named! {
    /// What kind of input it is.
    Kind {
        Sample = "samples of the GPMF description",
        Limit = "limits of each cap: payloads",
        Given = "packets of the raw files given",
        Parts = "all payloads of up to five of twelve parts",
        TwoBytes = "all payloads of up to 16 bytes 00 and 01",
        FourBytes = "all payloads of up to 10 bytes 00, 01, 02 and 63",
        Tree = "trees of items",
        Deep = "trees inside 0 to 18 containers",
        Wide = "payloads of up to 60,000 bytes",
        Stream = "streams with stamps, scales and axes",
        Take = "packets of each camera generation",
        DamagedTree = "trees, damaged",
        DamagedTake = "packets of each generation, damaged",
        DamagedGiven = "packets of the files given, damaged",
        Noise = "bytes of no order",
        RawFile = "raw files, whole and damaged",
        TypeText = "TYPE texts",
        Date = "dates",
        Text = "UTF-8 texts",
        Key = "keys",
        Axes = "ORIN and ORIO",
        Matrix = "matrices",
        Quaternion = "quaternions",
        Durations = "duration lists",
        LimitOther = "limits of each cap: files, texts, lists",
    }
}

/// The fixed inputs, and what the random ones are drawn from.
pub struct Generator {
    seed: u64,
    fixed: Vec<(Kind, Input)>,
    given: Vec<Vec<u8>>,
}

impl Generator {
    /// Takes the raw files given.
    pub fn new(seed: u64, files: &[Vec<u8>]) -> Generator {
        let given: Vec<Vec<u8>> =
            files.iter().flat_map(|file| probe::cuts(file).into_iter().map(|(from, to)| file[from..to].to_vec()).collect::<Vec<_>>()).collect();
        let mut fixed: Vec<(Kind, Input)> = samples().into_iter().map(|payload| (Kind::Sample, Input::Payload(payload))).collect();
        fixed.extend(given.iter().map(|payload| (Kind::Given, Input::Payload(payload.clone()))));
        fixed.extend(files.iter().map(|file| (Kind::RawFile, Input::File(file.clone()))));
        for (n, generation) in GENERATIONS.iter().enumerate() {
            let mut draw = Draw::new(seed, n as u64);
            fixed.push((Kind::RawFile, Input::File(takes::file(&mut draw, *generation, 4))));
            fixed.extend((0..8).map(|second| (Kind::Take, Input::Payload(takes::payload(&mut draw, *generation, second)))));
        }
        fixed.extend(limits::all().into_iter().map(|input| (if matches!(input, Input::Payload(_)) { Kind::Limit } else { Kind::LimitOther }, input)));
        fixed.extend(listed_keys().into_iter().map(|key| (Kind::Key, Input::Key(key))));
        Generator { seed, fixed, given }
    }

    /// Inputs that are asked once, whatever the seed.
    pub fn fixed(&self) -> &[(Kind, Input)] {
        &self.fixed
    }

    /// The payload of a number: a quarter are the exhaustive lists, as long as they last.
    pub fn payload(&self, number: u64) -> (Kind, Input) {
        if number % 4 == 0
            && let Some((kind, payload)) = exhaustive(number / 4)
        {
            return (kind, Input::Payload(payload));
        }
        let mut draw = Draw::new(self.seed, number);
        let (kind, payload) = self.random(&mut draw);
        (kind, Input::Payload(payload))
    }

    fn random(&self, draw: &mut Draw) -> (Kind, Vec<u8>) {
        let depth = draw.below(6);
        match draw.below(1000) {
            0..320 => (Kind::Tree, items::random_level(draw, depth)),
            320..400 => (Kind::Deep, items::deep(draw)),
            400..500 => (Kind::Stream, streams(draw)),
            500..750 => {
                let tree = if draw.chance(70) { items::random_level(draw, depth) } else { streams(draw) };
                (Kind::DamagedTree, items::damaged(draw, &tree))
            }
            750..800 => (Kind::Take, take(draw)),
            800..940 => {
                let whole = take(draw);
                (Kind::DamagedTake, items::damaged(draw, &whole))
            }
            940..942 if !self.given.is_empty() => {
                let whole = &self.given[draw.below(self.given.len())];
                (Kind::DamagedGiven, items::damaged(draw, whole))
            }
            942 if draw.chance(20) => (Kind::Wide, wide(draw)),
            _ => {
                let length = draw.below(40);
                (Kind::Noise, noise(draw, length))
            }
        }
    }

    /// An input of another kind than a payload, one for each number.
    pub fn other(&self, number: u64) -> (Kind, Input) {
        let draw = &mut Draw::new(self.seed.wrapping_add(0x5eed), number);
        match number % 16 {
            0 | 1 => (Kind::RawFile, Input::File(raw_file(draw))),
            2 => (Kind::RawFile, Input::File(letters(draw))),
            3..6 => (Kind::TypeText, Input::TypeText(items::type_text(draw))),
            6 | 7 => (Kind::Date, Input::Date(items::date(draw))),
            8 => {
                let length = draw.below(24);
                (Kind::Text, Input::Utf8(items::utf8_text(draw, length), draw.below(12)))
            }
            9 => (Kind::Key, Input::Key(key(draw))),
            10 | 11 => (Kind::Axes, Input::Axes(items::axes_text(draw), items::axes_text(draw))),
            12 => {
                let count = if draw.chance(90) { 9 } else { draw.below(13) };
                (Kind::Matrix, Input::Matrix((0..count).map(|_| items::single(draw)).collect()))
            }
            13 => (Kind::Quaternion, quaternion(draw)),
            _ => (Kind::Durations, Input::Average(durations(draw))),
        }
    }
}

// ---- exhaustive lists

const SHORT_KEYS: [(&[u8; 4], u8, usize, usize); 8] = [
    (b"STRM", 0, 1, 0),
    (b"STRM", 0, 1, 4),
    (b"STRM", 0, 4, 2),
    (b"STRM", 0, 2, 8),
    (b"GYRO", b's', 2, 1),
    (b"TYPE", b'c', 1, 1),
    (b"ABCD", b'?', 1, 4),
    (b"ABCD", b'B', 0, 3),
];

/// Containers, rows, TYPE, empty items, bytes of 1, 3, 4 and 7.
fn part(n: u64) -> Vec<u8> {
    match n {
        0..8 => {
            let (key, letter, size, repeat) = SHORT_KEYS[n as usize];
            header(key, letter, size, repeat)
        }
        8 => b"f".to_vec(),
        9 => vec![0; 3],
        10 => b"fLs[".to_vec(),
        _ => vec![0; 7],
    }
}

/// The digits of the n-th word of all words over so many letters, the short ones first; none where it is longer than the longest.
fn word(mut n: u64, letters: u64, longest: u32) -> Option<Vec<u64>> {
    for length in 0..=longest {
        let count = letters.pow(length);
        if n < count {
            return Some((0..length).map(|at| n / letters.pow(at) % letters).collect());
        }
        n -= count;
    }
    None
}
fn words(letters: u64, longest: u32) -> u64 {
    (0..=longest).map(|length| letters.pow(length)).sum()
}

/// The n-th payload of the three lists, one behind the other.
fn exhaustive(mut n: u64) -> Option<(Kind, Vec<u8>)> {
    if let Some(parts) = word(n, 12, 4) {
        return Some((Kind::Parts, parts.into_iter().flat_map(part).collect()));
    }
    n -= words(12, 4);
    if let Some(bytes) = word(n, 2, 16) {
        return Some((Kind::TwoBytes, bytes.into_iter().map(|b| b as u8).collect()));
    }
    n -= words(2, 16);
    if n < 12u64.pow(5) {
        return Some((Kind::Parts, word(n + words(12, 4), 12, 5)?.into_iter().flat_map(part).collect()));
    }
    n -= 12u64.pow(5);
    Some((Kind::FourBytes, word(n, 4, 10)?.into_iter().map(|b| [0, 1, 2, 0x63][b as usize]).collect()))
}

// ---- payloads

/// The samples of the GPMF description: padding, a device, a stream of acceleration, a structure; alone and in one device.
pub fn samples() -> Vec<Vec<u8>> {
    let colours = item(b"RGB8", b'B', 3, 3, &[1, 2, 3, 4, 5, 6, 7, 8, 9]);
    let device = [one(b"DVID", b'L', &[0, 0, 0x10, 1]), text(b"DVNM", b"Camera")].concat();
    let readings = item(b"ACCL", b's', 6, 2, &[0, 1, 0xff, 0xfe, 0x7f, 0xff, 0x80, 0, 0, 0, 1, 2]);
    let acceleration = [one(b"SCAL", b's', &[1, 0xa2]), one(b"SIUN", b'c', b"m/s\xb2"), readings].concat();
    let faces: Vec<u8> = [1u32, 2]
        .iter()
        .flat_map(|n| [n.to_be_bytes(), 0.5f32.to_be_bytes(), (-0.25f32).to_be_bytes(), 1e9f32.to_be_bytes(), (*n as f32).to_be_bytes()].concat())
        .collect();
    let structure = [text(b"TYPE", b"Lffff"), item(b"FACE", b'?', 20, 2, &faces)].concat();
    let stream = |inside: &[u8]| container(b"STRM", inside);
    let all = stream(&[&device[..], &stream(&acceleration), &stream(&structure), &colours].concat());
    vec![colours, stream(&device), stream(&acceleration), stream(&structure), all]
}

fn streams(draw: &mut Draw) -> Vec<u8> {
    (0..draw.pick(&[1, 1, 2, 3]))
        .flat_map(|_| {
            let inside = items::stream(draw);
            container(b"STRM", &inside)
        })
        .collect()
}

fn take(draw: &mut Draw) -> Vec<u8> {
    let (generation, second) = (draw.pick(&GENERATIONS), draw.below(5000) as u64);
    takes::payload(draw, generation, second)
}

/// Many items, the same and others, some of them in streams.
fn wide(draw: &mut Draw) -> Vec<u8> {
    let (most, mut payload) = (draw.below(60_000), Vec::new());
    while payload.len() < most {
        let part = match draw.below(3) {
            0 => streams(draw),
            1 => one(b"ABCD", b'B', &[draw.byte()]).repeat(draw.below(200)),
            _ => items::random_level(draw, 2),
        };
        payload.extend(&part[..part.len() / 4 * 4]);
    }
    payload
}

/// Random bytes, half of them of small numbers and letters of types.
fn noise(draw: &mut Draw, length: usize) -> Vec<u8> {
    let small = draw.chance(50);
    (0..length).map(|_| if small { draw.pick(b"\0\0\0\x01\x01\x02\x04\x08cs?UTYPE[2]") } else { draw.byte() }).collect()
}

// ---- files

/// Packets that are read and damaged, and takes.
fn raw_file(draw: &mut Draw) -> Vec<u8> {
    if draw.chance(20) {
        let generation = draw.pick(&GENERATIONS);
        let file = takes::file(draw, generation, 2);
        return if draw.chance(50) { items::damaged(draw, &file) } else { file };
    }
    (0..draw.below(4) + 1)
        .flat_map(|_| {
            let depth = draw.below(4);
            let level = items::random_level(draw, depth);
            let payload = if draw.chance(30) { items::damaged(draw, &level) } else { level };
            [b"DEVC\0\x01\0\0", &payload[..]].concat()
        })
        .collect()
}

/// A file of the letters of DEVC.
fn letters(draw: &mut Draw) -> Vec<u8> {
    let parts: [&[u8]; 6] = [b"DEVC", b"DEV", b"D", b"C", b"1234", b"DEVC\0\x01\0\0"];
    (0..draw.below(40))
        .flat_map(|_| {
            if draw.chance(85) {
                draw.pick(&parts).to_vec()
            } else {
                let length = draw.below(200);
                draw.bytes(length)
            }
        })
        .collect()
}

// ---- the rest

/// Every listed key, each with one byte changed.
fn listed_keys() -> Vec<u32> {
    let keys = items::KEYS.iter().map(|key| u32::from_be_bytes(**key));
    let changed = |key: u32| (0..4).flat_map(move |at| [0x20, 1, 0x80, 3].map(|change| key ^ change << (8 * at)));
    keys.clone().chain(keys.flat_map(changed)).chain([0, u32::MAX]).collect()
}

fn key(draw: &mut Draw) -> u32 {
    match draw.below(3) {
        0 => draw.next() as u32,
        1 => u32::from_be_bytes(*draw.pick(&items::KEYS)) ^ (draw.next() as u32 & 0x2020_2020),
        _ => u32::from_be_bytes([(); 4].map(|_| draw.pick(b"ABCDEFGHIJKLMNOPQRSTUVWXYZ0123456789"))),
    }
}

fn quaternion(draw: &mut Draw) -> Input {
    let numbers = [(); 4].map(|_| if draw.chance(30) { draw.pick(&[i16::MIN, i16::MIN + 1, i16::MAX, 0, -1]) } else { draw.next() as i16 });
    let scale = if draw.chance(60) { draw.next() as i16 as f64 } else { draw.pick(&[0.0, -0.0, 32767.0, 1.0, -32768.0]) };
    Input::Quaternion(numbers, scale)
}

/// Packets whose stamps rise, stand still and fall, some without; durations of 0, below it and of all sizes; gaps on the track.
fn durations(draw: &mut Draw) -> Vec<Timed> {
    let mut stamp = if draw.chance(50) { draw.next() >> 24 } else { (1 << 42) - 2_500_000 };
    let mut at = 0.0;
    (0..draw.pick(&[0, 1, 2, 2, 3, 4, 6, 12]))
        .map(|_| {
            stamp = stamp.wrapping_add_signed(draw.pick(&[1_000_000, 1_001_001, 0, -5, 33_366]) + draw.within(-50, 50)) % (1 << 43);
            let duration = match draw.below(10) {
                0 => 0.0,
                1 => -3.5,
                2 => draw.next() as f64 / 1e15,
                3 => f64::from_bits(draw.next()),
                _ => draw.pick(&[1001.0, 1000.0, 33.366]),
            };
            at += if draw.chance(80) { duration } else { duration * 2.0 };
            let count = match draw.below(10) {
                0 | 1 => 0,
                2 => draw.below(300),
                _ => draw.pick(&[1, 2, 3, 7]),
            } as u32;
            Timed { count, stamp: draw.chance(70).then_some(stamp), duration, at }
        })
        .collect()
}
