//! Items, and random trees of them: every type letter, sizes and repeats, padding that is there and not, nesting from 0 to 18 levels.
use crate::draw::Draw;

pub const KEYS: [&[u8; 4]; 41] = [
    b"GYRO", b"ACCL", b"GRAV", b"MAGN", b"CORI", b"IORI", b"SHUT", b"GPS5", b"FASC", b"MWET", b"AALP", b"WNDM", b"UNIF", b"WRGB", b"WBAL", b"ISOE", b"SIUN",
    b"UNIT", b"MTRX", b"SCAL", b"STMP", b"STNM", b"DVNM", b"TMPC", b"TSMP", b"ORIN", b"ORIO", b"DEVC", b"DVID", b"STRM", b"TYPE", b"TICK", b"TIMO", b"EMPT",
    b"FACE", b"GPS9", b"GPSF", b"GPSP", b"GPSU", b"ABCD", b"gyro",
];
const LETTERS: &[u8] = b"bBsSlLfdjJqQcFGU?";

pub fn header(key: &[u8], data_type: u8, size: usize, repeat: usize) -> Vec<u8> {
    [key, &[data_type, size as u8, (repeat >> 8) as u8, repeat as u8]].concat()
}

/// A whole item with its padding, of zeros.
pub fn item(key: &[u8], data_type: u8, size: usize, repeat: usize, payload: &[u8]) -> Vec<u8> {
    let mut made = [&header(key, data_type, size, repeat)[..], payload].concat();
    made.resize(made.len().next_multiple_of(4), 0);
    made
}

/// An item of one sample.
pub fn one(key: &[u8], data_type: u8, payload: &[u8]) -> Vec<u8> {
    item(key, data_type, payload.len(), 1, payload)
}

/// A text as a run of characters.
pub fn text(key: &[u8], letters: &[u8]) -> Vec<u8> {
    item(key, b'c', 1, letters.len(), letters)
}

/// A container of what is inside, none where its length cannot be written.
pub fn container(key: &[u8], inside: &[u8]) -> Vec<u8> {
    let (size, repeat) = if inside.len() < 65_536 { (1, inside.len()) } else { (4, inside.len() / 4) };
    if size * repeat != inside.len() || repeat > 65_535 {
        return Vec::new();
    }
    [&header(key, 0, size, repeat)[..], inside].concat()
}

/// So many containers round something.
pub fn nested(depth: usize, inside: &[u8]) -> Vec<u8> {
    (0..depth).fold(inside.to_vec(), |inner, _| container(b"STRM", &inner))
}

/// A size and a repeat that make a length.
fn fields(draw: &mut Draw, length: usize) -> (usize, usize) {
    if length < 256 && draw.chance(40) {
        return (length, 1);
    }
    let sizes: Vec<usize> = (1..256.min(length + 1)).filter(|size| length % size == 0 && length / size < 65_536).collect();
    let size = draw.pick(&sizes);
    (size, length / size)
}

fn some_key(draw: &mut Draw) -> Vec<u8> {
    if draw.chance(95) { draw.pick(&KEYS).to_vec() } else { draw.bytes(4) }
}

/// Bytes as a type might have them: dates, texts and floats that mean something, else anything.
fn contents(draw: &mut Draw, letter: u8, length: usize) -> Vec<u8> {
    let mut bytes = match letter {
        b'U' if draw.chance(70) => date(draw),
        b'c' | b'F' if draw.chance(70) => utf8_text(draw, length),
        b'f' | b'd' | b'q' | b'Q' if draw.chance(40) => special_numbers(draw, length),
        _ if draw.chance(10) => vec![draw.pick(&[0, 0x7f, 0x80, 0xff]); length],
        _ => return draw.bytes(length),
    };
    bytes.resize(length, 0);
    bytes
}

pub fn date(draw: &mut Draw) -> Vec<u8> {
    let fields = [100, 14, 33, 25, 61, 61].map(|n| format!("{:02}", draw.below(n)));
    let mut text = format!("{}.{:03}", fields.concat(), draw.below(1000)).into_bytes();
    if draw.chance(30) {
        let at = draw.below(16);
        text[at] = if draw.chance(70) { draw.pick(b"+-. 09:/") } else { draw.byte() };
    }
    if draw.chance(5) {
        let at = draw.below(15);
        text.splice(at..at + 2, "é".bytes());
    }
    if draw.chance(10) {
        text.truncate(draw.below(17));
    }
    if draw.chance(5) {
        text.extend(draw.bytes(3));
    }
    text
}

const PIECES: [&[u8]; 26] = [
    b"A",
    b"m/s",
    b"\0",
    b"\x7f",
    b"\x80",
    b"\xc2\x80",
    b"\xdf\xbf",
    b"\xc1\xbf",
    b"\xe0\xa0\x80",
    b"\xe0\x9f\xbf",
    b"\xed\x9f\xbf",
    b"\xed\xa0\x80",
    b"\xee\x80\x80",
    b"\xef\xbf\xbf",
    b"\xf0\x90\x80\x80",
    b"\xf0\x8f\xbf\xbf",
    b"\xf4\x8f\xbf\xbf",
    b"\xf4\x90\x80\x80",
    b"\xf5\x80\x80\x80",
    b"\xff",
    b"\xb2",
    b"\xe9",
    b"\xc2",
    b"\xe2\x82",
    b"\xf0\x9f\x98",
    b"XYZ",
];

/// Characters at the borders of UTF-8, mostly whole, some broken.
pub fn utf8_text(draw: &mut Draw, length: usize) -> Vec<u8> {
    let whole: &[usize] = &[0, 1, 2, 3, 5, 6, 8, 10, 12, 13, 14, 16, 25];
    let mut text = Vec::new();
    while text.len() < length {
        let piece = if draw.chance(95) { draw.pick(whole) } else { draw.below(PIECES.len()) };
        text.extend(PIECES[piece]);
        if draw.chance(4) {
            break;
        }
    }
    text
}

const SINGLES: [u32; 14] = [
    0,
    0x8000_0000,
    0x3f00_0000,
    0x3f00_0001,
    0xbf00_0001,
    0x3f80_0000,
    0xbf80_0000,
    0x7f80_0000,
    0xff80_0000,
    0x7fc0_0000,
    0xffc0_0001,
    1,
    0x7f7f_ffff,
    0xffff_ffff,
];

fn special_numbers(draw: &mut Draw, length: usize) -> Vec<u8> {
    (0..length / 4 + 1).flat_map(|_| if draw.chance(70) { draw.pick(&SINGLES) } else { draw.next() as u32 }.to_be_bytes()).collect()
}

pub fn single(draw: &mut Draw) -> f32 {
    f32::from_bits(if draw.chance(85) { draw.pick(&SINGLES) } else { draw.next() as u32 })
}

/// A TYPE text: letters, counts, brackets in all orders; some up to 300 characters when written out.
pub fn type_text(draw: &mut Draw) -> Vec<u8> {
    if draw.chance(40) {
        return (0..draw.below(5) + 1)
            .flat_map(|_| {
                let count = match draw.below(4) {
                    0 | 1 => String::new(),
                    2 => format!("[{}]", draw.below(12)),
                    _ => format!("[{}]", draw.below(300)),
                };
                [&[draw.pick(b"fLsbBdjJqQSlcFGUx\xe9")], count.as_bytes()].concat()
            })
            .collect();
    }
    if draw.chance(30) {
        return draw.pick(&[b"f".as_slice(), b"fff", b"Lf[2]", b"x", b"sS\0\0", b"\0", b"bB\0", b"Lffff", b"lllllllSS", b"Ff", b"dj[2]J", b"qQ"]).to_vec();
    }
    (0..draw.below(14) + 1).map(|_| draw.pick(b"fLsb[]]]+-0123x\xe9\xff 9")).collect()
}

/// An item of any kind; in a few its padding is other bytes.
fn random_item(draw: &mut Draw, depth: usize) -> Vec<u8> {
    let (mut key, mut letter) = (some_key(draw), 0);
    let payload = match draw.below(100) {
        0..25 if depth > 0 => {
            if draw.chance(70) {
                key = b"STRM".to_vec();
            }
            if draw.chance(30) { stream(draw) } else { random_level(draw, depth - 1) }
        }
        0..35 => return header(&key, draw.pick(b"\0cs?"), draw.pick(&[0, 1, 7]), 0),
        35..48 => {
            key = b"TYPE".to_vec();
            letter = draw.pick(b"cccccFsB");
            type_text(draw)
        }
        48..62 => {
            letter = b'?';
            let length = draw.below(40) + 1;
            draw.bytes(length)
        }
        _ => {
            letter = if draw.chance(92) { draw.pick(LETTERS) } else { draw.byte().max(1) };
            let length = match draw.below(20) {
                0 => draw.below(300) + 1,
                1..4 => 16,
                _ => draw.below(32) + 1,
            };
            contents(draw, letter, length)
        }
    };
    if payload.is_empty() {
        return header(&key, letter, 1, 0);
    }
    let (size, repeat) = fields(draw, payload.len());
    let mut made = item(&key, letter, size, repeat, &payload);
    if draw.chance(20) {
        for byte in &mut made[8 + payload.len()..] {
            *byte = draw.byte();
        }
    }
    made
}

/// A few items; in some the last one lacks its padding, and in a few bytes are left over.
pub fn random_level(draw: &mut Draw, depth: usize) -> Vec<u8> {
    let mut level: Vec<u8> = (0..draw.pick(&[0, 1, 1, 2, 2, 3, 4, 6])).flat_map(|_| random_item(draw, depth)).collect();
    if draw.chance(25) {
        let length = draw.below(5) + 1;
        level.extend([header(b"ABCD", b'B', length, 1), draw.bytes(length)].concat());
    }
    if draw.chance(6) {
        let more = draw.below(7) + 1;
        level.extend(draw.bytes(more));
    }
    level
}

/// A level inside many containers, of which some have items of their own before and behind.
pub fn deep(draw: &mut Draw) -> Vec<u8> {
    let mut inner = random_level(draw, 1);
    for _ in 0..draw.below(19) {
        inner = container(draw.pick(&[b"STRM", b"DEVC", b"GYRO"]), &inner);
        if draw.chance(15) {
            inner = [random_item(draw, 0), inner].concat();
        }
        if draw.chance(15) {
            inner.extend(random_item(draw, 0));
        }
    }
    inner
}

// ---- streams whose items tell of the readings: stamps, scales and axes of each shape

fn clock(draw: &mut Draw) -> Vec<u8> {
    match draw.below(11) {
        0 => one(b"STMP", b'J', &(draw.next() >> draw.below(64)).to_be_bytes()),
        1 => one(b"STMP", b'L', &draw.bytes(4)),
        2 => item(b"STMP", b'J', 8, 2, &draw.bytes(16)),
        3 => {
            let text = date(draw);
            if text.is_empty() { Vec::new() } else { one(b"STMP", b'U', &text) }
        }
        4 => one(b"STMP", b'j', &draw.bytes(8)),
        5 => {
            let length = draw.below(7) + 8;
            one(b"STMP", b'J', &draw.bytes(length))
        }
        6 => {
            let length = draw.below(4) + 4;
            one(b"TICK", b'L', &draw.bytes(length))
        }
        7 => one(b"TICK", b'l', &draw.bytes(4)),
        8 => item(b"TICK", b'L', 4, 2, &draw.bytes(8)),
        _ => Vec::new(),
    }
}

fn scale(draw: &mut Draw) -> Vec<u8> {
    match draw.below(7) {
        0 | 1 => one(b"SCAL", b's', &draw.pick(&[[0x7f, 0xff], [0, 0], [0, 3], [0xff, 0xfe], [0x80, 0]])),
        2 => one(b"SCAL", b's', &draw.bytes(3)),
        3 => one(b"SCAL", b'l', &draw.bytes(4)),
        4 => item(b"SCAL", b's', 2, 2, &draw.bytes(4)),
        _ => Vec::new(),
    }
}

pub fn axes_text(draw: &mut Draw) -> Vec<u8> {
    match draw.below(10) {
        0..6 => {
            let mut letters = *draw.pick(&[b"XYZ", b"XZY", b"YXZ", b"YZX", b"ZXY", b"ZYX"]);
            for letter in &mut letters {
                if draw.chance(50) {
                    letter.make_ascii_lowercase();
                }
            }
            letters.to_vec()
        }
        6 | 7 => (0..3).map(|_| draw.pick(b"XYZxyzAa@[`{0 \0\x7f")).collect(),
        8 => (0..draw.below(6)).map(|_| draw.pick(b"XYZxyz\xe9\xc9\xd7")).collect(),
        _ => {
            let length = draw.below(5);
            draw.bytes(length)
        }
    }
}

fn axes(draw: &mut Draw, key: &[u8]) -> Vec<u8> {
    let text = axes_text(draw);
    if text.is_empty() {
        return Vec::new();
    }
    match draw.below(6) {
        0 | 1 => item(key, b'c', 1, text.len(), &text),
        2 => one(key, b'c', &text),
        3 => one(key, b'F', &text),
        4 => one(key, draw.pick(b"BUG?"), &text),
        _ => Vec::new(),
    }
}

fn matrix(draw: &mut Draw) -> Vec<u8> {
    let turned = draw.pick(&[[0., -1., 0., 1., 0., 0., 0., 0., 1.], [1f32, 0., 0., 0., 1., 0., 0., 0., 1.]]);
    let bytes: Vec<u8> =
        if draw.chance(60) { turned.iter().flat_map(|x| x.to_be_bytes()).collect() } else { (0..9).flat_map(|_| single(draw).to_be_bytes()).collect() };
    match draw.below(12) {
        0..3 => item(b"MTRX", b'f', 36, 1, &bytes),
        3 => item(b"MTRX", b'f', 4, 9, &bytes),
        4 => item(b"MTRX", b'f', 12, 3, &bytes),
        5 => item(b"MTRX", draw.pick(b"lqLUGc?d"), 12, 3, &bytes),
        6 => item(b"MTRX", b'f', 72, 1, &[&bytes[..], &bytes].concat()),
        7 => item(b"MTRX", b'f', 36, 2, &[&bytes[..], &bytes].concat()),
        8 => {
            let size = draw.below(3) + 1;
            item(b"MTRX", b'f', size, 4, &bytes[..4 * size])
        }
        _ => Vec::new(),
    }
}

fn readings(draw: &mut Draw) -> Vec<u8> {
    let key: &[u8; 4] = draw.pick(&[b"GYRO", b"ACCL", b"MAGN", b"CORI", b"IORI", b"CORI", b"GRAV", b"MWET"]);
    let (count, size) = (draw.below(4), draw.pick(&[6, 8, 8, 8, 9, 12, 2]));
    let numbers: Vec<u8> = (0..count * size).map(|_| if draw.chance(30) { draw.pick(&[0, 0x80, 0x7f, 0xff]) } else { draw.byte() }).collect();
    item(key, draw.pick(b"sssssSf"), size, count, &numbers)
}

/// The inside of a stream.
pub fn stream(draw: &mut Draw) -> Vec<u8> {
    let mut parts = [clock(draw), clock(draw), scale(draw), axes(draw, b"ORIN"), axes(draw, b"ORIO"), matrix(draw)];
    for n in (1..parts.len()).rev() {
        parts.swap(n, draw.below(n + 1));
    }
    [parts.concat(), readings(draw)].concat()
}

// ---- damage

/// A copy with one to five bytes changed, cut off, put in or taken out, or a length changed.
pub fn damaged(draw: &mut Draw, payload: &[u8]) -> Vec<u8> {
    let mut copy = payload.to_vec();
    for _ in 0..draw.below(5) + 1 {
        let at = draw.below(copy.len() + 1);
        match draw.below(10) {
            0 => copy.truncate(at),
            1 => copy.insert(at, draw.byte()),
            2 if at < copy.len() => {
                copy.remove(at);
            }
            3 | 4 if !copy.is_empty() => {
                // a header's fields lie at 4 to 7 of items, which start at multiples of 4
                let field = (at / 4 * 4 + draw.below(4)).min(copy.len() - 1);
                copy[field] = copy[field].wrapping_add(draw.pick(&[1, 255, 4, 252]));
            }
            _ if at < copy.len() => copy[at] = if draw.chance(50) { draw.pick(&[0, 1, 255, b'?', b'c', b'U', b'[']) } else { draw.byte() },
            _ => (),
        }
    }
    copy
}
