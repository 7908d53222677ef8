//! Inputs at the limit of each cap: one below, at it, one above.
use crate::calls::Timed;
use crate::input::Input;
use crate::items::{container, header, item, nested, one, text};

pub fn all() -> Vec<Input> {
    let payloads = [bytes(), depths(), rows(), types(), readings()].concat();
    [payloads.into_iter().map(Input::Payload).collect(), texts(), lists(), files()].into_iter().flatten().collect()
}

fn bytes() -> Vec<Vec<u8>> {
    let filled = |length: usize| item(b"LONG", b'B', 255, 4112, &vec![7; 255 * 4112]).into_iter().chain([0; 64].into_iter().cycle()).take(length).collect();
    // in eight bytes more than the limit the last item is whole
    [1_048_575, 1_048_576, 1_048_577, 1_048_584].iter().flat_map(|length| [vec![0; *length], filled(*length)]).collect()
}

fn depths() -> Vec<Vec<u8>> {
    let inside = [one(b"GYRO", b'B', &[7]), header(b"GYRO", b's', 6, 0), Vec::new(), vec![1, 2, 3], header(b"STRM", 0, 1, 9)];
    let mut all: Vec<Vec<u8>> = (0..20).flat_map(|depth| inside.iter().map(move |i| nested(depth, i)).collect::<Vec<_>>()).collect();
    // the refusal's place is that of the outermost item, behind others
    all.extend((14..19).map(|depth| [one(b"ABCD", b'B', &[1]), container(b"DEVC", &[one(b"ABCD", b'B', &[2]), nested(depth, &inside[0])].concat())].concat()));
    all
}

fn rows() -> Vec<Vec<u8>> {
    let some = |count: usize| one(b"ABCD", b'B', &[1]).repeat(count);
    // up to 128 rows the walk is one pass
    let mut all: Vec<Vec<u8>> = [127, 128, 129, 4095, 4096, 4097, 5000].map(some).to_vec();
    let pairs = [(64, 64), (64, 65), (2000, 2000), (2000, 2096), (2000, 2097)];
    all.extend(pairs.map(|(first, second)| [container(b"STRM", &some(first)), container(b"STRM", &some(second))].concat()));
    all
}

fn long_texts() -> Vec<Vec<u8>> {
    let mut all: Vec<Vec<u8>> = (255..258)
        .flat_map(|n| {
            [vec![b'f'; n], format!("f[{n}]").into_bytes(), format!("a[200]b[{}]", n - 200).into_bytes(), format!("{}b", "a[128]".repeat(n / 128)).into_bytes()]
        })
        .collect();
    for text in [
        "f[18446744073709551615]",
        "f[18446744073709551616]",
        "f[99999]",
        "f[999999]",
        "\u{e9}[2]",
        "f[00000000000000000000000003]",
        "[256]f",
        "ab[255]",
        "ab[256]",
    ] {
        all.push(text.chars().map(|c| c as u8).collect());
    }
    all
}

fn texts() -> Vec<Input> {
    long_texts().into_iter().map(Input::TypeText).collect()
}

fn types() -> Vec<Vec<u8>> {
    long_texts()
        .iter()
        .flat_map(|t| [1usize, 2].map(|repeat| [text(b"TYPE", t), item(b"ABCD", b'?', 255, repeat * 8, &vec![3; 255 * repeat * 8])].concat()))
        .collect()
}

fn readings() -> Vec<Vec<u8>> {
    let most = 65_535;
    let of = |letter, size: usize| item(b"GYRO", letter, size, most, &vec![9; size * most]);
    let structures = |t: &[u8]| [text(b"TYPE", t), item(b"ABCD", b'?', 1, most, &vec![5; most])].concat();
    vec![
        of(b'B', 1),
        of(b's', 6),
        of(b'c', 1),
        of(b'c', 2),
        of(b'l', 3),
        structures(b"x"),
        structures(b"B"),
        structures(b"BB"),
        item(b"CORI", b's', 8, most, &vec![1; 8 * most]),
        item(b"CORI", b's', 7, most, &vec![1; 7 * most]),
        item(b"ABCD", b'd', 255, 4000, &vec![0x7f; 255 * 4000]),
        item(b"ABCD", b'F', 255, 4000, &vec![b'a'; 255 * 4000]),
    ]
}

fn lists() -> Vec<Input> {
    let one = Timed { count: 2, stamp: None, duration: 1001.0, at: 0.0 };
    let mut all: Vec<Vec<Timed>> = [2047, 2048, 2049].map(|n| vec![one; n]).to_vec();
    all.extend([65_534, 65_535, 65_536, u32::MAX].map(|count| vec![Timed { count, ..one }; 2]));
    all.extend([(1 << 42) - 1, 1 << 42, 1 << 63, u64::MAX].map(|us| vec![Timed { stamp: Some(1), ..one }, Timed { stamp: Some(us), ..one }]));
    all.extend([f64::MAX, f64::INFINITY, f64::NEG_INFINITY, f64::NAN].map(|duration| vec![Timed { duration, ..one }; 3]));
    all.into_iter().map(Input::Average).collect()
}

/// Packets of the most bytes and one more, first and behind another; many packets; DEVC at all small distances.
fn files() -> Vec<Input> {
    let devc = b"DEVC\0\x01\0\0".as_slice();
    let mut all: Vec<Vec<u8>> = (1_048_575..1_048_579)
        .flat_map(|n| {
            let long = [devc, &vec![0; n]].concat();
            [[&long[..], devc, b"12345"].concat(), [devc, b"1234", &long[..]].concat(), long]
        })
        .collect();
    // a window can tell that these are over the limit before it has their end
    all.extend([1_400_000, 2_500_000].map(|n| [devc, b"1234", devc, &vec![0; n], devc, b"12345"].concat()));
    all.push([devc, &one(b"ABCD", b'B', &[1])].concat().repeat(2049));
    for between in 0..16 {
        for behind in [0, 4, 5, 9] {
            all.push([&b"DEVC"[..], &vec![b'x'; between], b"DEVC", &vec![b'y'; behind]].concat());
        }
    }
    all.extend((20..420).map(|place| [&vec![b'x'; place][..], b"DEVC12345"].concat()));
    all.into_iter().map(Input::File).collect()
}
