//! The cutting of a raw file: `gpmf_packets_next` beside one pass of memmem, and beside the Rust's own cutting, which searches a stretch twice.
use crate::inputs::{Take, hard_files};
use crate::library::{self, IS};
use crate::table::{head_of_ratios, ratio};
use crate::timing::{Times, alternate, whole};
use memchr::memmem;
use published::gopro::klv::probe;
use std::hint::black_box;

/// Nothing of the library is inlined, so the compiler knows nothing of an answer; a black box would copy it, as no caller does.
pub fn ours(file: &[u8]) -> usize {
    let mut answer = library::packets_next(library::packets_new(0), file);
    let mut packets = 0;
    while answer.kind == IS {
        packets += 1;
        answer = library::packets_next(answer.rest, file);
    }
    packets
}

/// Both must cut the same packets.
pub fn check(file: &[u8]) {
    let (mut found, mut answer) = (Vec::new(), library::packets_next(library::packets_new(0), file));
    while answer.kind == IS {
        found.push((answer.packet.start, answer.packet.end));
        answer = library::packets_next(answer.rest, file);
    }
    assert_eq!(found, probe::cuts(file), "what is compared must be the same packets");
}

/// Every DEVC.
pub fn by_memmem(file: &[u8]) -> usize {
    memmem::find_iter(black_box(file), b"DEVC").map(black_box).count()
}

/// Ours, memmem's and the Rust's times for 1,000 bytes.
fn times(file: &[u8]) -> [Times; 3] {
    let theirs = || probe::cuts(black_box(file)).len();
    check(file);
    alternate(1, [&mut whole(|| ours(file)), &mut whole(|| by_memmem(file)), &mut whole(theirs)]).map(|t| {
        let thousands = file.len() as f64 / 1000.;
        Times { best: t.best / thousands, median: t.median / thousands }
    })
}

pub fn print(take: &Take) {
    let mut files = vec![("the take", take.file.clone())];
    files.extend(hard_files());
    let found: Vec<_> = files.iter().map(|(what, file)| (what, times(file))).collect();
    println!(
        "\n**Cutting** by `gpmf_packets_next`, which is lent nothing to write; the unit is 1,000 bytes, so that 100 ns are 10 GB/s. First beside one pass of memmem over the file:"
    );
    head_of_ratios("memmem");
    for (what, [ours, memmem, _]) in &found {
        ratio(what, *ours, *memmem, &[1., 1.2]);
    }
    println!("\nThen beside the Rust's own lines, which search each stretch twice and lay the packets into a list:");
    head_of_ratios("The Rust");
    for (what, [ours, _, theirs]) in &found {
        ratio(what, *ours, *theirs, &[]);
    }
}
