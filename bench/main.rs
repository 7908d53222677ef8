//! speed TAKE [PART ..]: how fast the proved library is beside the published Rust, and what memory each takes, in one run on the same input. See docs/SPEED.md.
mod cut;
mod growth;
mod heap;
mod inputs;
#[path = "../oracle/src/bin/beside/library.rs"]
#[allow(dead_code)] // few of the calls are timed
mod library;
mod memory;
#[path = "../oracle/src/bin/beside/parted.rs"]
mod parted;
mod table;
mod timing;
mod values;
mod walk;

use inputs::Take;

#[global_allocator]
static HEAP: heap::Counting = heap::Counting;

/// The packets of the take that is compared; the growth goes on to all that the file has.
const SECONDS: usize = 600;

const PARTS: [&str; 5] = ["walk", "values", "cut", "growth", "memory"];

fn print(part: &str, all: &Take, path: &str) {
    let take = all.first(SECONDS);
    match part {
        "walk" => walk::print(&take),
        "values" => values::print(&take),
        "cut" => cut::print(&take),
        "growth" => growth::print(all),
        _ => memory::print(all, path),
    }
}

fn main() {
    let words: Vec<String> = std::env::args().skip(1).collect();
    let known = |part: &String| PARTS.contains(&part.as_str());
    match words.as_slice() {
        [word, path, packets] if word == memory::CHILD => memory::child(path, packets),
        [path, parts @ ..] if parts.iter().all(known) => {
            let all = Take::read(path);
            PARTS.iter().filter(|part| parts.is_empty() || parts.iter().any(|named| named == *part)).for_each(|part| print(part, &all, path));
        }
        _ => {
            eprintln!("usage: speed TAKE [PART ..], with the parts {}", PARTS.join(", "));
            std::process::exit(2);
        }
    }
}
