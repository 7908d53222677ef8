//! How the times grow: from 1 to 1,000 packets, from 64 to 4,096 items, and from 1 to 16 containers, one in the other.
use crate::cut;
use crate::inputs::{Take, items, nested};
use crate::table::{head, number, row};
use crate::timing::{Times, alternate, whole};
use crate::values::Both;
use crate::walk::{self, MOST_NUMBERS};

const PACKETS: [usize; 4] = [1, 10, 100, 1000];
const ITEMS: [usize; 4] = [64, 128, 129, 4096];
const LEVELS: [usize; 5] = [1, 2, 4, 8, 16];

/// Our walk and the Rust's, in nanoseconds for a payload that both accept.
fn walk_times(payloads: &[&[u8]]) -> [f64; 2] {
    walk::check(payloads);
    unchecked_times(payloads)
}

fn unchecked_times(payloads: &[&[u8]]) -> [f64; 2] {
    let mut rows = vec![0; MOST_NUMBERS];
    alternate(payloads.len(), [&mut whole(|| walk::ours(payloads, &mut rows)), &mut whole(|| walk::theirs(payloads))]).map(best)
}

/// Our three ways to read all values and the Rust's, in nanoseconds for an element.
fn value_times(payloads: &[&[u8]]) -> [f64; 4] {
    Both::of(payloads).times().map(best)
}

/// Our cutting and memmem's, in nanoseconds for 1,000 bytes.
fn cut_times(file: &[u8]) -> [f64; 2] {
    cut::check(file);
    alternate(1, [&mut whole(|| cut::ours(file)), &mut whole(|| cut::by_memmem(file))]).map(|t| t.best / file.len() as f64 * 1000.)
}

fn best(times: Times) -> f64 {
    times.best
}

/// A row: the times at each size, and the last over the first.
fn print_row(what: &str, times: &[f64]) {
    let over = times[times.len() - 1] / times[0];
    row(&[&[what.to_string()][..], &times.iter().map(|t| number(*t)).collect::<Vec<_>>(), &[number(over)]].concat());
}

/// Rows of which each has one number of all sizes' times.
fn print_rows<const N: usize>(names: [&str; N], times: &[[f64; N]]) {
    for (n, name) in names.iter().enumerate() {
        print_row(name, &times.iter().map(|t| t[n]).collect::<Vec<f64>>());
    }
}

fn print_packets(all: &Take) {
    let takes = PACKETS.map(|packets| all.first(packets));
    println!(
        "\n**From 1 to 1,000 packets**: best rounds, in ns for a packet, an element or 1,000 bytes. Where the last number is about 1, the whole grows as the packets do."
    );
    head(&["What", "1 packet", "10", "100", "1,000", "1,000 over 1"]);
    print_rows(["our walk, a packet", "the Rust's walk, a packet"], &takes.each_ref().map(|take| walk_times(&take.payloads())));
    let names = ["our `gpmf_element`, an element", "our `gpmf_element_at`, an element", "our `gpmf_elements_at`, an element", "the Rust's values, an element"];
    print_rows(names, &takes.each_ref().map(|take| value_times(&take.payloads())));
    print_rows(["our cutting, 1,000 bytes", "memmem, 1,000 bytes"], &takes.each_ref().map(|take| cut_times(&take.file)));
}

fn print_items() {
    println!(
        "\n**From 64 to 4,096 items** of 30 numbers, one behind the other: best rounds, in ns for an item. A payload of more than 128 rows is walked up to row 129, and then \
         checked and written; one of fewer that is refused, here since its last byte is not there, is walked once."
    );
    head(&["What", "64 items", "128", "129", "4,096", "4,096 over 64"]);
    let payloads = ITEMS.map(items);
    let each = |n: usize, times: [f64; 2]| times.map(|time| time / ITEMS[n] as f64);
    let accepted: Vec<_> = payloads.iter().enumerate().map(|(n, payload)| each(n, walk_times(&[payload]))).collect();
    print_rows(["our walk, an item", "the Rust's walk, an item"], &accepted);
    let refused = payloads.iter().enumerate().map(|(n, payload)| {
        let cut = &payload[..payload.len() - 1];
        walk::check_refused(cut);
        each(n, unchecked_times(&[cut]))
    });
    print_rows(["our walk of one that is refused", "the Rust's walk of one that is refused"], &refused.collect::<Vec<_>>());
}

/// What a level more costs: from the first size to the last but one, and from there to the last.
fn print_slopes(what: &str, times: &[f64; 5]) {
    let slope = |from: usize, to: usize| (times[to] - times[from]) / (LEVELS[to] - LEVELS[from]) as f64;
    row(&[&[what.to_string()][..], &times.map(number), &[number(slope(0, 3)), number(slope(3, 4))]].concat());
}

fn print_levels() {
    let payloads = LEVELS.map(nested);
    println!("\n**From 1 to 16 containers**, one in the other, round the same 64 items of 30 numbers: best rounds, in ns for the payload or an element.");
    head(&["What", "1 level", "2", "4", "8", "16", "a level more, from 1 to 8", "from 8 to 16"]);
    let walks = payloads.each_ref().map(|payload| walk_times(&[payload]));
    print_slopes("our walk, the payload", &walks.map(|times| times[0]));
    print_slopes("the Rust's walk, the payload", &walks.map(|times| times[1]));
    let reads = payloads.each_ref().map(|payload| value_times(&[payload]));
    print_slopes("our `gpmf_element`, an element", &reads.map(|times| times[0]));
    print_slopes("our `gpmf_element_at`, an element", &reads.map(|times| times[1]));
    print_slopes("our `gpmf_elements_at`, an element", &reads.map(|times| times[2]));
    print_slopes("the Rust's values, an element", &reads.map(|times| times[3]));
}

pub fn print(all: &Take) {
    print_packets(all);
    print_items();
    print_levels();
}
