//! Memory: the peak of a process that reads 0, 1 and 1,000 packets with our library, and what either side asks of the heap.
use crate::cut;
use crate::heap::{Heap, counted};
use crate::inputs::Take;
use crate::library::{self, IS, MORE};
use crate::table::{count, head, row};
use crate::values::{Both, ELEMENTS};
use crate::walk::{self, NUMBERS, map_of};
use std::io::Read;

/// The first word of a process that reads packets, to be measured.
pub const CHILD: &str = "read-in-windows";

/// The window that a file is read through.
const WINDOW: usize = 65_536;

/// Reads so many packets of a file through a window: how many there were, and the rows of all.
fn read_in_windows(file: &mut impl Read, most: usize) -> (usize, usize) {
    let (mut window, mut numbers) = ([0; WINDOW], [0; NUMBERS]);
    let (mut filled, mut at_end, mut packets, mut rows) = (0, false, 0, 0);
    let mut cursor = library::packets_new(0);
    while packets < most {
        let answer = library::next_metadata_in(cursor, &window[..filled], !at_end, false, &mut numbers);
        cursor = answer.rest;
        match answer.kind {
            IS => {
                packets += 1;
                rows += answer.metadata.rows;
            }
            MORE => {
                window.copy_within(answer.place..filled, 0);
                filled -= answer.place;
                let read = file.read(&mut window[filled..]).expect("a file that can be read");
                (filled, at_end, cursor) = (filled + read, read == 0, library::packets_new(0));
            }
            _ => break,
        }
    }
    (packets, rows)
}

/// The most memory that this process has had, as the system tells it.
fn peak() -> String {
    let status = std::fs::read_to_string("/proc/self/status").expect("a system that tells of its processes");
    status.lines().find_map(|line| line.strip_prefix("VmHWM:")).expect("the peak").trim().to_string()
}

pub fn child(path: &str, packets: &str) {
    let mut file = std::fs::File::open(path).expect("the take");
    let most = packets.parse().expect("a number");
    let (packets, rows) = read_in_windows(&mut file, most);
    println!("{packets} {rows} {}", peak());
}

/// A process that reads so many packets: their rows, and its peak.
fn peak_of(path: &str, packets: usize) -> (usize, String) {
    let program = std::env::current_exe().expect("this program");
    let done = std::process::Command::new(program).args([CHILD, path, &packets.to_string()]).output().expect("a process");
    let said = String::from_utf8(done.stdout).expect("text");
    let [read, rows, peak] = said.trim().splitn(3, ' ').collect::<Vec<_>>()[..] else { panic!("the process said {said:?}") };
    assert_eq!(read, packets.to_string(), "all packets must be read");
    (rows.parse().expect("a number"), peak.to_string())
}

fn print_peaks(path: &str, most: usize) {
    println!(
        "\n**Peak memory** of a process that reads a file through a window of 65,536 bytes with our library, with what a Rust program has from its start:"
    );
    head(&["Packets", "Rows", "Peak"]);
    for packets in [0, 1, most] {
        let (rows, peak) = peak_of(path, packets);
        row(&[count(packets), count(rows), peak]);
    }
}

fn print_heap(what: &str, heap: Heap) {
    row(&[what.to_string(), count(heap.calls as usize), count(heap.bytes as usize), count(heap.most_held as usize), count(heap.held as usize)]);
}

pub fn print(all: &Take, path: &str) {
    let payloads = all.payloads();
    print_peaks(path, payloads.len());
    println!("\n**The heap**, counted by the allocator:");
    head(&["What", "Allocations", "Bytes", "Most held at one time", "Held behind it"]);
    let (both, mut rows, mut numbers) = (Both::of(&payloads), vec![0; NUMBERS], vec![0; ELEMENTS]);
    let ours =
        counted(|| (walk::ours(&payloads, &mut rows), both.ours_by_place(), both.ours_by_bytes(), both.ours_at_once(&mut numbers), cut::ours(&all.file))).1;
    print_heap(&format!("our walk, values and cutting of {} packets", count(payloads.len())), ours);
    for packets in [1, payloads.len()] {
        let (some, number) = (&payloads[..packets], count(packets));
        print_heap(&format!("the Rust's walk of {number}, each map dropped"), counted(|| walk::theirs(some)).1);
        let (_maps, kept) = counted(|| some.iter().map(|payload| map_of(payload)).collect::<Vec<_>>());
        print_heap(&format!("the Rust's walk of {number}, all maps kept, as its `parse` keeps them"), kept);
        let both = Both::of(some);
        print_heap(&format!("the Rust's reads of all values of {number}"), counted(|| both.theirs()).1);
    }
}
