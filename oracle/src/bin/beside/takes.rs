//! Packets as cameras of each generation lay them out, made up, with few readings.
use crate::draw::Draw;
use crate::items::{container, item, one, text};

/// A generation: what its packets have beside accelerometer and gyroscope.
#[derive(Clone, Copy, Debug)]
pub struct Generation {
    stamped: bool,
    ticks: bool,
    axes: bool,
    matrix: bool,
    float_motion: bool,
    magnet: bool,
    faces: bool,
    orientation: bool,
    sound: bool,
    gps5: bool,
    gps9: bool,
}

const NONE: Generation = Generation {
    stamped: false,
    ticks: false,
    axes: false,
    matrix: false,
    float_motion: false,
    magnet: false,
    faces: false,
    orientation: false,
    sound: false,
    gps5: false,
    gps9: false,
};
pub const GENERATIONS: [Generation; 7] = [
    // earliest: TICK, TSMP alone
    Generation { ticks: true, gps5: true, ..NONE },
    // early: TSMP alone
    Generation { gps5: true, ..NONE },
    // axes by ORIN and ORIO, faces
    Generation { axes: true, faces: true, gps5: true, ..NONE },
    // spherical: floats, MAGN, STMP
    Generation { stamped: true, float_motion: true, magnet: true, ..NONE },
    // STMP, faces, sound
    Generation { stamped: true, axes: true, faces: true, sound: true, gps5: true, ..NONE },
    // STMP, MTRX, orientation, sound
    Generation { stamped: true, axes: true, matrix: true, orientation: true, sound: true, gps5: true, ..NONE },
    // newest: GPS9 by TYPE
    Generation { stamped: true, axes: true, matrix: true, faces: true, orientation: true, sound: true, gps9: true, ..NONE },
];

struct Camera<'a> {
    draw: &'a mut Draw,
    generation: Generation,
    second: u64,
}

/// The payload of a packet, from behind the header of its DEVC.
pub fn payload(draw: &mut Draw, generation: Generation, second: u64) -> Vec<u8> {
    let mut camera = Camera { draw, generation, second };
    [one(b"DVID", b'L', &[0, 0, 0, 1]), text(b"DVNM", b"Camera"), camera.streams()].concat()
}

/// A raw file of so many packets.
pub fn file(draw: &mut Draw, generation: Generation, seconds: u64) -> Vec<u8> {
    (0..seconds)
        .flat_map(|second| {
            let inside = payload(draw, generation, second);
            container(b"DEVC", &inside)
        })
        .collect()
}

impl Camera<'_> {
    fn streams(&mut self) -> Vec<u8> {
        let g = self.generation;
        let mut all = [self.motion(b"ACCL", b"m/s\xb2", 417), self.motion(b"GYRO", b"rad/s", 939)].concat();
        if g.magnet {
            all.extend(self.motion(b"MAGN", b"\xb5T", 1));
        }
        all.extend(self.numbers(b"Exposure time (shutter speed)", &text(b"SIUN", b"s"), b"SHUT", b'f', 4));
        all.extend(self.numbers(b"Sensor ISO", &[], b"ISOE", b'S', 2));
        if g.faces {
            all.extend(self.faces());
        }
        if g.orientation {
            for key in [b"CORI", b"IORI"] {
                all.extend(self.numbers(b"Orientation", &one(b"SCAL", b's', &[0x7f, 0xff]), key, b's', 8));
            }
            all.extend(self.numbers(b"Gravity Vector", &one(b"SCAL", b's', &[0x7f, 0xff]), b"GRAV", b's', 6));
        }
        if g.sound {
            all.extend(self.numbers(b"Wind Processing", &[], b"WNDM", b'B', 2));
            all.extend(self.numbers(b"Microphone Wet", &[], b"MWET", b'B', 3));
            all.extend(self.numbers(b"AGC audio level", &[text(b"SIUN", b"dBFS"), item(b"SCAL", b's', 2, 2, &[0, 1, 0, 1])].concat(), b"AALP", b'b', 2));
        }
        if g.gps5 {
            all.extend(self.gps5());
        }
        if g.gps9 {
            all.extend(self.gps9());
        }
        all
    }

    /// A stream: the last item holds the readings, and `count` is how many.
    fn stream(&mut self, name: &[u8], count: usize, items: &[Vec<u8>]) -> Vec<u8> {
        let total = (self.second as u32 + 1) * count as u32;
        let mut inside = Vec::new();
        if self.generation.stamped {
            inside.extend(one(b"STMP", b'J', &(self.second * 1_001_000 + self.draw.below(900) as u64).to_be_bytes()));
        }
        inside.extend(one(b"TSMP", b'L', &total.to_be_bytes()));
        if self.generation.ticks {
            inside.extend(one(b"TICK", b'L', &(self.second as u32 * 1001 + 7).to_be_bytes()));
        }
        inside.extend(text(b"STNM", name));
        inside.extend(items.concat());
        container(b"STRM", &inside)
    }

    /// A few readings of random bytes.
    fn numbers(&mut self, name: &[u8], about: &[u8], key: &[u8], letter: u8, size: usize) -> Vec<u8> {
        let count = self.draw.below(4);
        let readings = item(key, letter, size, count, &self.draw.bytes(size * count));
        self.stream(name, count, &[about.to_vec(), readings])
    }

    fn motion(&mut self, key: &[u8], unit: &[u8], scale: u16) -> Vec<u8> {
        let g = self.generation;
        let mut about = [one(b"SIUN", b'c', unit), one(b"SCAL", b's', &scale.to_be_bytes()), one(b"TMPC", b'f', &42.5f32.to_be_bytes())].concat();
        if g.axes {
            about.extend([text(b"ORIN", b"YxZ"), text(b"ORIO", b"ZXY")].concat());
        }
        let matrix: Vec<u8> = [0f32, 0., 1., 0., -1., 0., 1., 0., 0.].iter().flat_map(|x| x.to_be_bytes()).collect();
        if g.matrix {
            about.extend(item(b"MTRX", b'f', 36, 1, &matrix));
        }
        let (letter, size) = if g.float_motion { (b'f', 12) } else { (b's', 6) };
        self.numbers(b"Motion", &about, key, letter, size)
    }

    fn faces(&mut self) -> Vec<u8> {
        let count = self.draw.below(3);
        let found = item(b"FACE", b'?', 20, count, &self.draw.bytes(20 * count));
        self.stream(b"Face Coordinates", count, &[text(b"TYPE", b"Lffff"), found])
    }

    fn gps5(&mut self) -> Vec<u8> {
        let count = self.draw.below(3) + 1;
        let date = format!("240229{:02}{:02}{:02}.400", self.draw.below(24), self.draw.below(60), self.draw.below(60));
        let scales: Vec<u8> = [10_000_000i32, 10_000_000, 1000, 1000, 100].iter().flat_map(|n| n.to_be_bytes()).collect();
        let readings = item(b"GPS5", b'l', 20, count, &self.draw.bytes(20 * count));
        let units = item(b"UNIT", b'c', 3, 5, b"degdegm\0\0m/sm/s");
        self.stream(
            b"GPS",
            count,
            &[
                one(b"GPSF", b'L', &[0, 0, 0, 3]),
                one(b"GPSU", b'U', date.as_bytes()),
                one(b"GPSP", b'S', &[2, 94]),
                units,
                item(b"SCAL", b'l', 4, 5, &scales),
                readings,
            ],
        )
    }

    fn gps9(&mut self) -> Vec<u8> {
        let count = self.draw.below(3) + 1;
        let scales: Vec<u8> = [10_000_000i32, 10_000_000, 1000, 1000, 100, 1, 1000, 100, 1].iter().flat_map(|n| n.to_be_bytes()).collect();
        let readings = item(b"GPS9", b'?', 32, count, &self.draw.bytes(32 * count));
        self.stream(b"GPS", count, &[text(b"TYPE", b"lllllllSS"), item(b"SCAL", b'l', 4, 9, &scales), readings])
    }
}
