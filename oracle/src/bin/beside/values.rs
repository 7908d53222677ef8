//! A row's value beside the Rust's, bit for bit: what it is called, its rows and columns, every element.
use crate::compare::header_at;
use crate::draw::Draw;
use crate::library::{self, ElementAnswer, IS, KINDS, REFUSED, Row, ShapeAnswer, Told, UNTOUCHED};
use crate::model;
use crate::tally::{Call, Listed, Ours, Outcome, Tally, Theirs, holds, ours, same};
use published::plain::{Plain, ReadBack, double, single};
use published::tags_impl::{TagValue, probe_rows};

pub fn value(bytes: &[u8], row: Row, value: &TagValue, draw: &mut Draw, tally: &mut Tally) -> Outcome {
    let (variant, item, read) = probe_rows(value);
    let place = row.place as usize;
    same("the item's bytes", &item, &&bytes[place..place + item.len()])?;
    same("type, size and repeat", &header_at(item, 0), &row.klv())?;
    tally.call(Call::IsOneText, Theirs::Answer, Ours::Is);
    same("is_one_text", &(variant == "String"), &library::is_one_text(row.klv()))?;
    its_bytes(bytes, row, item, tally)?;
    if draw.chance(10) {
        elsewhere(bytes, row)?;
    }
    let shape = library::shape_at(bytes, place, row.type_place as usize);
    let theirs = match read {
        ReadBack::Is(_) => Theirs::Answer,
        ReadBack::Failed => Theirs::Error,
        ReadBack::Panicked => Theirs::Panic,
    };
    tally.values += 1;
    tally.call(Call::ShapeAt, theirs, ours(shape.kind));
    let rows = match (refusal(bytes, row, variant, &read, tally)?, read) {
        (Some(number), _) => return refused(bytes, row, number, shape, draw),
        (None, ReadBack::Is(rows)) if shape.kind == IS => rows,
        (_, read) => return Err(format!("shape_at: the Rust has {read:?}, the library {shape:?}")),
    };
    let rows = if variant == "Vec_Scalar" { vec![rows.concat()] } else { rows };
    same("what the value is called", &called(variant, row), &KINDS[shape.value_kind as usize])?;
    let letter = row.klv().data_type;
    same("is_one_number of another letter", &false, &library::is_one_number(row.klv(), letter.wrapping_add(1)))?;
    // it looks at no key, and `s` under CORI and IORI is quaternions whatever their number
    if variant != "Vec_Quaternioni16" {
        same("is_one_number", &(called(variant, row) == "single"), &library::is_one_number(row.klv(), letter))?;
    }
    let columns = rows.first().map_or(0, Vec::len);
    same("rows and columns", &(rows.len(), columns), &(shape.rows, shape.columns))?;
    Value { bytes, row, rows: &rows, shape }.compare(draw, tally)
}

/// The header's word for the Rust's variant: a number of 64 bits may be a date.
fn called(variant: &str, row: Row) -> &'static str {
    match variant {
        "u64" if row.klv().data_type == b'U' => "date",
        "String" => "text",
        "Vec_String" => "texts",
        "Uuid" => "identifier",
        "Vec_Scalar" | "Vec_Vec_Scalar" => "structures",
        "Vec_Quaternioni16" => "quaternions",
        "Unknown" => "unknown",
        _ if variant.starts_with("Vec_Vector3") => "vector",
        _ if variant.starts_with("Vec_TimeVector3") => "timed vector",
        _ if variant.starts_with("Vec_Vec") => "nested",
        _ if variant.starts_with("Vec_") => "list",
        _ => "single",
    }
}

// ---- refusals

/// What the calls that read a value answer: its shape, an element, and the columns and the text of a row.
fn told(s: &[u8], at: usize, type_at: usize, row: usize, column: usize) -> [Told; 4] {
    let (shape, element) = (library::shape_at(s, at, type_at), library::element(s, at, type_at, row, column));
    [shape.told(), element.told(), library::columns_at(s, at, type_at, row).told(), library::text_at(s, at, type_at, row).told()]
}

/// The number that a value is refused with: 8 for a TYPE over the limit; else where the Rust fails or panics 7 for texts and dates, 6 for too few bytes.
fn refusal(bytes: &[u8], row: Row, variant: &str, read: &ReadBack, tally: &mut Tally) -> Result<Option<u32>, String> {
    if type_characters(bytes, row) > 256 {
        tally.listed(Listed::LongType);
        return Ok(Some(8));
    }
    match read {
        ReadBack::Is(_) => Ok(None),
        ReadBack::Failed => Ok(Some(if variant == "Vec_String" || variant == "u64" { 7 } else { 6 })),
        // dates of fewer than 16 bytes, and a character of more bytes that lies across the border of a field
        ReadBack::Panicked => {
            holds(row.klv().data_type == b'U', || "the Rust panics at a value that is no date".into())?;
            tally.listed(Listed::DatePanic);
            Ok(Some(if library::data_len(row.klv()) < 16 { 6 } else { 7 }))
        }
    }
}

/// How many characters the TYPE in force expands to; none where no TYPE is.
fn type_characters(bytes: &[u8], row: Row) -> u64 {
    if row.type_place == library::NO_TYPE {
        return 0;
    }
    let at = row.type_place as usize;
    let text = &bytes[at + 8..at + 8 + model::length(bytes, at)];
    model::expanded_length(&text[..library::latin1_len(text)])
}

/// Every call that reads a value refuses it so, and all elements at once leave what is lent.
fn refused_by_all(what: &str, refusal: Told, s: &[u8], at: usize, type_at: usize, n: usize) -> Outcome {
    let mut numbers = [UNTOUCHED as u64; 4];
    let all = library::elements_at(s, at, type_at, &mut numbers);
    same(what, &[refusal; 4], &told(s, at, type_at, n, n))?;
    same(what, &refusal, &all.told())?;
    holds(numbers == [UNTOUCHED as u64; 4], || format!("{what}: elements_at wrote"))
}

/// A value that is refused is so by every call that reads it, at whatever row and column.
fn refused(bytes: &[u8], row: Row, number: u32, shape: ShapeAnswer, draw: &mut Draw) -> Outcome {
    let place = row.place as usize;
    same("the value's refusal", &ShapeAnswer { kind: REFUSED, number, place, ..Default::default() }, &shape)?;
    for n in [0, draw.next() as usize >> draw.below(64)] {
        refused_by_all("the value's refusal by each call", (REFUSED, number, place), bytes, place, row.type_place as usize, n)?;
    }
    Ok(())
}

/// The row's places in other payloads, and a structure's with a TYPE that is none.
fn elsewhere(bytes: &[u8], row: Row) -> Outcome {
    let (place, type_at) = (row.place as usize, row.type_place as usize);
    let mut others = vec![
        ("a payload over the limit", &library::LONG[..], type_at, (REFUSED, 1, 0)),
        ("a payload that ends before the item", &bytes[..place], type_at, (REFUSED, 12, place)),
        ("a payload that ends behind the header", &bytes[..place + 8], type_at, (REFUSED, 2, place)),
        ("a payload of zeros", &library::LONG[..bytes.len()], type_at, (REFUSED, 12, place)),
    ];
    if row.klv().data_type == b'?' {
        others.push(("a structure as its own TYPE", bytes, place, (REFUSED, 12, place)));
    }
    for (what, s, type_at, refusal) in others {
        refused_by_all(what, refusal, s, place, type_at, 0)?;
        same(what, &[refusal; 2], &[library::klv_at(s, place, type_at).told(), library::bytes_at(s, place, type_at).told()])?;
    }
    Ok(())
}

// ---- the bytes, and what is in them

/// The item's header and its own payload.
fn its_bytes(bytes: &[u8], row: Row, item: &[u8], tally: &mut Tally) -> Outcome {
    let (place, type_at) = (row.place as usize, row.type_place as usize);
    let headed = library::klv_at(bytes, place, type_at);
    let part = library::bytes_at(bytes, place, type_at);
    tally.call(Call::KlvAt, Theirs::Answer, ours(part.kind));
    same("klv_at", &(IS, place, row.klv()), &(headed.kind, headed.place, headed.klv))?;
    same("bytes_at", &(IS, place + 8, item.len() - 8), &(part.kind, part.start, part.length))?;
    same("big_endian", &[big_endian(&item[..4]), big_endian(item)], &[library::big_endian(&item[..4]), library::big_endian(item)])
}

/// The number that bytes stand for: the first eight where there are more.
fn big_endian(bytes: &[u8]) -> u64 {
    bytes.iter().take(8).fold(0, |number, byte| number << 8 | *byte as u64)
}

struct Value<'a> {
    bytes: &'a [u8],
    row: Row,
    rows: &'a [Vec<Plain>],
    shape: ShapeAnswer,
}

impl Value<'_> {
    fn compare(&self, draw: &mut Draw, tally: &mut Tally) -> Outcome {
        for (n, row) in self.rows.iter().enumerate() {
            if self.rows.len() <= 256 || n % (self.rows.len() / 128) == 0 || n + 1 == self.rows.len() {
                self.columns(n, row.len(), tally)?;
            }
        }
        self.all_at_once(tally)?;
        let all: usize = self.rows.iter().map(Vec::len).sum();
        let most = if self.shape.value_kind == 6 { 128 } else { 4096 };
        if all <= most {
            for (n, row) in self.rows.iter().enumerate() {
                for c in 0..row.len() {
                    self.element(n, c, tally)?;
                }
            }
        } else {
            // of a value of very many elements some: each call looks at the whole shape
            for _ in 0..most {
                let n = draw.below(self.rows.len());
                if !self.rows[n].is_empty() {
                    self.element(n, draw.below(self.rows[n].len()), tally)?;
                }
            }
        }
        self.outside(draw, tally)
    }

    fn columns(&self, n: usize, expected: usize, tally: &mut Tally) -> Outcome {
        let answer = library::columns_at(self.bytes, self.row.place as usize, self.row.type_place as usize, n);
        tally.call(Call::ColumnsAt, Theirs::Answer, ours(answer.kind));
        same("columns_at", &(IS, expected as u64), &(answer.kind, answer.value))?;
        let is_text = matches!(KINDS[self.shape.value_kind as usize], "text" | "texts");
        if is_text || n == 0 { self.text(n, is_text, tally) } else { Ok(()) }
    }

    /// The part that a row's text is; 13 where the value is no text.
    fn text(&self, n: usize, is_text: bool, tally: &mut Tally) -> Outcome {
        let (place, klv) = (self.row.place as usize, self.row.klv());
        let part = library::text_at(self.bytes, place, self.row.type_place as usize, n);
        tally.call(Call::TextAt, if is_text { Theirs::Answer } else { Theirs::Outside }, ours(part.kind));
        if !is_text {
            return same("text_at where there is no text", &(REFUSED, 13, place), &part.told());
        }
        let start = place + 8 + n * klv.size as usize;
        same("text_at", &(IS, start, self.rows[n].len()), &(part.kind, part.start, part.length))?;
        let letters: Vec<Plain> = self.bytes[start..start + part.length].iter().map(|byte| Plain::Unsigned(*byte as u64)).collect();
        same("a text's bytes", &self.rows[n], &letters)
    }

    /// All elements in one call, with a number more than there are, which stays; with one less, none is laid.
    fn all_at_once(&self, tally: &mut Tally) -> Outcome {
        let expected: Vec<u64> = self.rows.iter().flatten().map(bits).chain([UNTOUCHED as u64]).collect();
        let (place, type_at, count) = (self.row.place as usize, self.row.type_place as usize, expected.len() - 1);
        let mut numbers = vec![UNTOUCHED as u64; count + 1];
        let answer = library::elements_at(self.bytes, place, type_at, &mut numbers);
        tally.call(Call::ElementsAt, Theirs::Answer, ours(answer.kind));
        same("elements_at, how many", &(IS, count as u64), &(answer.kind, answer.value))?;
        same("elements_at", &expected, &numbers)?;
        if count == 0 {
            return Ok(());
        }
        let mut short = vec![UNTOUCHED as u64; count - 1];
        let refused = library::elements_at(self.bytes, place, type_at, &mut short);
        tally.call(Call::ElementsAt, Theirs::Outside, ours(refused.kind));
        same("elements_at without room", &(REFUSED, 5, place), &(refused.kind, refused.number, refused.place))?;
        holds(short.iter().all(|&n| n == UNTOUCHED as u64), || "elements_at without room wrote".into())
    }

    fn element(&self, n: usize, c: usize, tally: &mut Tally) -> Outcome {
        let answer = library::element(self.bytes, self.row.place as usize, self.row.type_place as usize, n, c);
        tally.call(Call::Element, Theirs::Answer, ours(answer.kind));
        tally.elements += 1;
        holds(answer.kind == IS, || format!("element {n} {c} is refused: {answer:?}"))?;
        same("an element", &self.rows[n][c], &answer.element.plain())?;
        if self.shape.value_kind <= 4 {
            self.by_letter(n, c, answer, tally)?;
        }
        Ok(())
    }

    /// The same of rows of one letter, by the place of the element's own bytes.
    fn by_letter(&self, n: usize, c: usize, answer: ElementAnswer, tally: &mut Tally) -> Outcome {
        let letter = self.row.klv().data_type;
        let width = library::width(letter);
        let at = self.row.place as usize + 8 + (n * self.shape.columns + c) * width;
        let raw = &self.bytes[at..at + width];
        if is_other_nan(letter, raw, answer) {
            tally.listed(Listed::Nan);
        }
        if n > 1 {
            return Ok(()); // the calls below look at the element's own bytes alone: two rows of a value are asked
        }
        tally.call(Call::ElementAt, Theirs::Answer, Ours::Is);
        same("element_at", &self.rows[n][c], &library::element_at(self.bytes, at, letter).plain())?;
        same("big_endian", &big_endian(raw), &library::big_endian(raw))?;
        match letter {
            b'f' => same("single_bits", &self.rows[n][c], &Plain::Single(library::single_bits(f32::from_bits(whole(raw, 0))))),
            b'd' => same("double_bits", &self.rows[n][c], &Plain::Double(library::double_bits(f64::from_bits(big_endian(raw))))),
            b'q' => fixed(self.rows[n][c], single(library::q15_16(half(raw, 0) as i16, half(raw, 2))), tally),
            b'Q' => {
                let (high, low) = (whole(raw, 0) as i32, whole(raw, 4));
                let exact = library::Exact { numerator: high as i64 * 4_294_967_295 + low as i64, denominator: 4_294_967_295 };
                same("exact_at", &(exact, exact), &(library::exact_at(self.bytes, at), library::q31_32_exact(high, low)))?;
                fixed(self.rows[n][c], double(library::q31_32(high, low)), tally)
            }
            _ => Ok(()),
        }
    }

    /// Beside the value there is nothing: 13, at the place asked.
    fn outside(&self, draw: &mut Draw, tally: &mut Tally) -> Outcome {
        let (place, type_at, more) = (self.row.place as usize, self.row.type_place as usize, draw.next() as usize >> draw.below(64));
        let refused = (REFUSED, 13, place);
        let below = told(self.bytes, place, type_at, self.shape.rows.saturating_add(more), 0);
        let beside = library::element(self.bytes, place, type_at, 0, self.shape.columns.saturating_add(more));
        for _ in 0..2 {
            tally.call(Call::Element, Theirs::Outside, Ours::Refused);
        }
        tally.call(Call::ColumnsAt, Theirs::Outside, Ours::Refused);
        same("an element, columns and a text below the value", &[refused; 3], &[below[1], below[2], below[3]])?;
        same("an element beside the value", &refused, &beside.told())
    }
}

fn half(raw: &[u8], at: usize) -> u16 {
    u16::from_be_bytes([raw[at], raw[at + 1]])
}
fn whole(raw: &[u8], at: usize) -> u32 {
    u32::from_be_bytes([raw[at], raw[at + 1], raw[at + 2], raw[at + 3]])
}

fn fixed(theirs: Plain, ours: Plain, tally: &mut Tally) -> Outcome {
    tally.call(Call::Fixed, Theirs::Answer, Ours::Is);
    same("a fixed-point number", &theirs, &ours)
}

/// An element as one number.
fn bits(element: &Plain) -> u64 {
    match *element {
        Plain::Signed(x) => x as u64,
        Plain::Unsigned(x) | Plain::Double(x) => x,
        Plain::Single(x) => x as u64,
    }
}

/// Whether an element is a NaN whose bits in the payload, which the Rust keeps, are not the library's.
fn is_other_nan(letter: u8, raw: &[u8], answer: ElementAnswer) -> bool {
    match letter {
        b'f' => answer.element.single_value.is_nan() && answer.element.single_value.to_bits() != whole(raw, 0),
        b'd' => answer.element.double_value.is_nan() && answer.element.double_value.to_bits() != big_endian(raw),
        _ => false,
    }
}
