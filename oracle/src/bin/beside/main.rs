//! beside SEED PAYLOADS [FILE ..]: the proved library and the published Rust in one process, asked the same, answer by answer. See oracle/README.md.
#[macro_use]
mod named;

mod calls;
mod clock;
mod compare;
mod differences;
mod draw;
mod files;
mod generate;
mod groups;
mod input;
mod items;
mod library;
mod limits;
mod model;
mod parted;
mod published_side;
mod takes;
mod tally;
mod values;

use generate::{Generator, Kind};
use input::Input;
use parted::parted;
use std::sync::atomic::{AtomicU64, Ordering};
use tally::{Call, Listed, Ours, Tally, Theirs};

/// How many numbers a thread takes at a time.
const SHARE: u64 = 512;

/// What a thread has counted, and the unlisted differences that it met, each with its input's number.
struct Found {
    tally: Tally,
    kinds: Vec<u64>,
    unlisted: u64,
    differences: Vec<(u64, Kind, Input, String)>,
}

impl Found {
    fn new() -> Found {
        Found { tally: Tally::new(), kinds: vec![0; Kind::ALL.len()], unlisted: 0, differences: Vec::new() }
    }

    fn ask(&mut self, number: u64, (kind, input): (Kind, Input)) {
        self.kinds[kind as usize] += 1;
        let Some(difference) = input.difference(&mut self.tally) else { return };
        self.unlisted += 1;
        if self.differences.len() < 1000 {
            self.differences.push((number, kind, input, difference));
        }
    }

    fn add(&mut self, other: Found) {
        self.tally.add(&other.tally);
        for (x, y) in self.kinds.iter_mut().zip(other.kinds) {
            *x += y;
        }
        self.unlisted += other.unlisted;
        self.differences.extend(other.differences);
    }
}

/// One thread: the fixed inputs by their numbers, then shares of the others, up to the number of payloads.
fn work(generator: &Generator, payloads: u64, next: &AtomicU64) -> Found {
    let mut found = Found::new();
    let fixed = generator.fixed();
    loop {
        let from = next.fetch_add(SHARE, Ordering::Relaxed);
        if from >= payloads {
            return found;
        }
        for number in from..(from + SHARE).min(payloads) {
            if let Some((kind, input)) = fixed.get(number as usize) {
                found.ask(number, (*kind, input.clone()));
            }
            found.ask(number, generator.payload(number));
            found.ask(number, generator.other(number));
        }
    }
}

fn run(generator: &Generator, payloads: u64) -> Found {
    let (next, threads) = (AtomicU64::new(0), std::thread::available_parallelism().map_or(1, |n| n.get()));
    let mut all = Found::new();
    std::thread::scope(|scope| {
        let spawn = |_| std::thread::Builder::new().stack_size(1 << 28).spawn_scoped(scope, || work(generator, payloads, &next)).expect("a thread");
        let workers: Vec<_> = (0..threads).map(spawn).collect();
        for worker in workers {
            all.add(worker.join().expect("a thread that ends"));
        }
    });
    all.differences.sort_by_key(|(number, kind, ..)| (*number, *kind as usize));
    all
}

// ---- what is printed

fn print_counts(found: &Found) {
    println!("\ninputs");
    for kind in Kind::ALL {
        println!("  {:>12}  {}", parted(found.kinds[*kind as usize]), kind.text());
    }
    println!(
        "\n{:<42} {}   {}",
        "calls",
        Theirs::ALL.iter().map(|t| format!("{:>12}", t.text())).collect::<String>(),
        Ours::ALL.iter().map(|o| format!("{:>12}", o.text())).collect::<String>()
    );
    for call in Call::ALL {
        let counts = found.tally.calls[*call as usize];
        let columns = |numbers: &[u64]| numbers.iter().map(|n| format!("{:>12}", parted(*n))).collect::<String>();
        println!("  {:<40} {}   {}", call.text(), columns(&counts.theirs), columns(&counts.ours));
    }
    let t = &found.tally;
    println!(
        "\n  {} values, {} elements; {} readings with a room that is too small; {} inputs on which the Rust's process would end, so that it was not asked",
        parted(t.values),
        parted(t.elements),
        parted(t.small_rooms),
        parted(t.outside)
    );
    println!("\nlisted differences (docs/DIFFERENCES.md)");
    for entry in Listed::ALL {
        println!("  {:>12}  {}", parted(t.listed[*entry as usize]), entry.text());
    }
}

/// The first of the unlisted differences of each sort, made small: of one sort are those whose words are the same but for numbers.
fn print_differences(found: Found) {
    let sort = |words: &str| words.chars().filter(|c| !c.is_ascii_digit()).collect::<String>();
    let mut sorts = std::collections::BTreeSet::new();
    for (number, kind, input, difference) in found.differences.into_iter().filter(|(.., difference)| sorts.insert(sort(difference))).take(12) {
        println!("\ninput {number} ({}): {difference}", kind.text());
        let small = input.shrunk();
        println!("  smallest: {}", small.shown());
        println!("  {}", small.difference(&mut Tally::new()).expect("a difference at every step"));
    }
}

fn main() {
    let words: Vec<String> = std::env::args().skip(1).collect();
    let number = |n: usize| words.get(n).and_then(|word| word.parse::<u64>().ok());
    let (Some(seed), Some(payloads)) = (number(0), number(1)) else {
        eprintln!("usage: beside SEED PAYLOADS [FILE ..]");
        std::process::exit(2);
    };
    let files: Vec<Vec<u8>> = words[2..]
        .iter()
        .map(|path| {
            std::fs::read(path).unwrap_or_else(|why| {
                eprintln!("{path}: {why}");
                std::process::exit(2)
            })
        })
        .collect();
    std::panic::set_hook(Box::new(|_| ())); // a panic of the Rust is an answer
    println!("seed {seed}");
    if !differences::all_shown() {
        std::process::exit(1);
    }
    let generator = Generator::new(seed, &files);
    let payloads = payloads.max(generator.fixed().len() as u64);
    let began = std::time::Instant::now();
    let found = run(&generator, payloads);
    let seconds = began.elapsed().as_secs_f64();
    print_counts(&found);
    let asked: u64 = Kind::ALL.iter().filter(|kind| (**kind as usize) < Kind::RawFile as usize).map(|kind| found.kinds[*kind as usize]).sum();
    let unlisted = found.unlisted;
    println!("\nseed {seed}: {seconds:.0} seconds, {} payloads a second", parted((asked as f64 / seconds) as u64));
    print_differences(found);
    println!("{} payloads, {unlisted} differences that docs/DIFFERENCES.md does not list", parted(asked));
    if unlisted > 0 {
        std::process::exit(1);
    }
}
