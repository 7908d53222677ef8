//! mixer FILE: which seconds of a raw take had a wet microphone (MWET), and the gain (AALP), as a table with a line for each packet.
//!
//! A packet that is refused is not lost: the bytes before the refusal's place are read. So what a damaged card still has of the second is in the table, and the last
//! column tells the refusal. samples/README.md describes each column.
use gpmf::{Group, Item, Kind, Reading, Refusal, Row, Tag};
use std::process::ExitCode;

const MWET: Group = Group::of(*b"MWET");
const AALP: Group = Group::of(*b"AALP");

/// The numbers of a value in double, row by row.
type Rows = Vec<Vec<f64>>;

/// The letters of the columns: a structure has one for each, those of its TYPE text, written out, that read something; any other value has one for all.
fn letters(reading: &Reading, row: Row) -> Result<Vec<u8>, Refusal> {
    let (b'?', Some(place)) = (row.data_type, row.type_place) else { return Ok(vec![row.data_type]) };
    let mut written = [0; 256];
    let count = gpmf::resolve_custom_type(gpmf::text_at(reading.payload(), place as usize, None, 0)?, &mut written)?;
    Ok(written[..count].iter().copied().filter(|&letter| gpmf::width(letter) != 0).collect())
}

/// What a number of `elements_at` stands for by its letter.
fn in_double(bits: u64, letter: u8) -> f64 {
    match letter {
        b'b' | b's' | b'l' | b'j' => bits as i64 as f64,
        b'f' | b'q' => f32::from_bits(bits as u32).into(),
        b'd' | b'Q' => f64::from_bits(bits),
        _ => bits as f64,
    }
}

/// The value of an item, read once: `element` would go through the TYPE text of a structure for each number. Several texts are of unequal lengths, so that theirs are
/// taken from the bytes.
fn rows(reading: &Reading, item: Item) -> Result<Rows, Refusal> {
    let (shape, bytes) = (item.shape()?, item.bytes()?);
    if shape.kind == Kind::Texts {
        let numbers = |text: &[u8]| text[..gpmf::utf8_len(text)].iter().map(|&byte| byte.into()).collect();
        return Ok(bytes.chunks(item.row().size.into()).map(numbers).collect());
    }
    let letters = letters(reading, item.row())?;
    let mut numbers = vec![0; bytes.len()]; // room for all: no element has less than a byte
    let count = item.elements_at(&mut numbers)?;
    let row = |numbers: &[u64]| numbers.iter().zip(letters.iter().cycle()).map(|(&bits, &letter)| in_double(bits, letter)).collect();
    Ok(numbers[..count].chunks(shape.columns.max(1)).map(row).collect())
}

/// The readings of a group, if they have so many columns.
fn readings(reading: &Reading, group: Group, columns: usize) -> Option<Rows> {
    let rows = rows(reading, reading.item(group, Tag::Data)?).ok()?;
    rows.first().is_some_and(|row| row.len() >= columns).then_some(rows)
}

/// What a column of a group's readings is divided by: SCAL has one number for all columns, or one for each; without SCAL it is 1.
fn scale(reading: &Reading, group: Group, column: usize) -> Option<f64> {
    let Some(scal) = reading.item(group, Tag::Scale) else { return Some(1.0) };
    let rows = rows(reading, scal).ok()?;
    let columns = rows.first()?.len();
    let index = if rows.len() == 1 && columns == 1 { 0 } else { column };
    let number = *rows.get(index.checked_div(columns)?)?.get(index % columns)?;
    (number != 0.0).then_some(number)
}

/// A column; none where a row has it not.
fn column(rows: &Rows, at: usize) -> Option<Vec<f64>> {
    rows.iter().map(|row| row.get(at).copied()).collect()
}

/// How many numbers of a column are not 0, and how many there are.
fn share(rows: &Rows, at: usize) -> Option<String> {
    let numbers = column(rows, at)?;
    Some(format!("{}/{}", numbers.iter().filter(|&&number| number != 0.0).count(), numbers.len()))
}

/// The mean of a column over its scale. A NaN is `nan`, as in the other languages, and not Rust's `NaN`.
fn mean(rows: &Rows, at: usize, divisor: f64) -> Option<String> {
    let numbers = column(rows, at)?;
    let sum: f64 = numbers.iter().fold(0.0, |sum, number| sum + number / divisor);
    let mean = sum / numbers.len() as f64;
    Some(if mean.is_nan() { "nan".into() } else { format!("{mean:.1}") })
}

/// One line of the table.
fn line(second: usize, reading: &Reading, refusal: Option<Refusal>) -> String {
    let wet = readings(reading, MWET, 3);
    let gain = readings(reading, AALP, 2);
    let level = |at| mean(gain.as_ref()?, at, scale(reading, AALP, at)?);
    let cells = [
        wet.as_ref().and_then(|rows| share(rows, 0)),
        wet.as_ref().and_then(|rows| share(rows, 1)),
        wet.as_ref().and_then(|rows| mean(rows, 2, 1.0)),
        level(0),
        level(1),
    ];
    let [main, all, confidence, level, peak] = cells.map(|cell| cell.unwrap_or("-".into()));
    let packet = refusal.map_or("read".into(), |refusal| format!("refused {} at {}", refusal.number, refusal.place));
    format!("{second:>6}  {main:>8}  {all:>7}  {confidence:>10}  {level:>10}  {peak:>9}  {packet}")
}

fn main() -> ExitCode {
    let words: Vec<_> = std::env::args_os().skip(1).collect();
    let [path] = words.as_slice() else {
        eprintln!("usage: mixer FILE");
        return ExitCode::from(2);
    };
    let file = match std::fs::read(path) {
        Ok(file) => file,
        Err(why) => {
            eprintln!("mixer: {}: {why}", path.to_string_lossy());
            return ExitCode::from(2);
        }
    };
    println!("second  main wet  all wet  confidence  level dBFS  peak dBFS  packet");
    for (index, packet) in gpmf::packets(&file).enumerate() {
        let (reading, refusal) = packet.front();
        println!("{}", line(index + 1, &reading, refusal));
    }
    ExitCode::SUCCESS
}
