//! What is read: a take, payloads of many items and of nested containers, and files that are hard to search.
use published::gopro::klv::probe;

/// A raw file, and where its packets lie.
pub struct Take {
    pub file: Vec<u8>,
    packets: Vec<(usize, usize)>,
}

impl Take {
    fn of(file: Vec<u8>) -> Take {
        let packets = probe::cuts(&file);
        Take { file, packets }
    }

    pub fn read(path: &str) -> Take {
        Take::of(std::fs::read(path).unwrap_or_else(|why| {
            eprintln!("{path}: {why}");
            std::process::exit(2)
        }))
    }

    /// The front of the file that has so many packets.
    pub fn first(&self, packets: usize) -> Take {
        let Some((_, end)) = self.packets.get(packets - 1) else {
            eprintln!("the take has fewer than {packets} packets");
            std::process::exit(2)
        };
        Take::of(self.file[..*end].to_vec())
    }

    pub fn payloads(&self) -> Vec<&[u8]> {
        self.packets.iter().map(|(start, end)| &self.file[*start..*end]).collect()
    }
}

// ---- items, and nested containers

/// An item of ten readings of three numbers, with a key of its own.
fn item(n: usize) -> Vec<u8> {
    let key = [b'K', b'0' + (n / 256) as u8, b'0' + (n / 16 % 16) as u8, b'A' + (n % 16) as u8];
    [&key[..], b"s\x06\0\x0a", &[n as u8; 60]].concat()
}

/// So many items, up to 4,096, one behind the other.
pub fn items(count: usize) -> Vec<u8> {
    (0..count).flat_map(item).collect()
}

fn container(inside: Vec<u8>) -> Vec<u8> {
    let repeat = u16::try_from(inside.len() / 4).expect("a length that a header can write");
    [&b"STRM\0\x04"[..], &repeat.to_be_bytes(), &inside].concat()
}

/// So many containers round 64 items, one in the other.
pub fn nested(levels: usize) -> Vec<u8> {
    (0..levels).fold(items(64), |inside, _| container(inside))
}

// ---- files that are hard to search

/// The bytes of a made-up file.
const SIZE: usize = 1 << 22;

fn over_and_over(pattern: &[u8]) -> Vec<u8> {
    pattern.iter().copied().cycle().take(SIZE).collect()
}

/// Bytes of no order, by a shift register.
fn random_bytes() -> Vec<u8> {
    let mut state = 0x9e37_79b9_7f4a_7c15u64;
    let next = |_| {
        state ^= state << 13;
        state ^= state >> 7;
        state ^= state << 17;
        (state >> 32) as u8
    };
    (0..SIZE).map(next).collect()
}

/// DEVC at each distance of 4 to 512, over and over, with pairs of a D and a C between.
fn all_distances() -> Vec<u8> {
    let stretch = |distance: usize| b"DEVC".iter().chain(b"D--C".iter().cycle()).copied().take(distance);
    (4..=512).cycle().flat_map(stretch).take(SIZE).collect()
}

/// Files with their names.
pub fn hard_files() -> Vec<(&'static str, Vec<u8>)> {
    vec![
        ("bytes of no order", random_bytes()),
        ("`DEV`, over and over", over_and_over(b"DEV")),
        ("`D--C`, over and over", over_and_over(b"D--C")),
        ("`DDDCCC`, over and over: half of its places are a `D` with a `C` three behind", over_and_over(b"DDDCCC")),
        ("`D--C-EV-`, over and over", over_and_over(b"D--C-EV-")),
        ("`DEV-EVC-D--C-`, over and over: no filter of ours passes a block of it", over_and_over(b"DEV-EVC-D--C-")),
        ("`DEVCxxxx`, over and over", over_and_over(b"DEVCxxxx")),
        ("`DEVC` at each distance of 4 to 512, `D--C` between", all_distances()),
    ]
}
