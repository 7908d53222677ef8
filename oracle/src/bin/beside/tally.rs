//! What is counted: inputs of each kind, what each side answered to each call, and what fell under each listed difference.
use crate::library;

named! {
    /// The calls that are compared, by the header's names without their `gpmf_`.
    Call {
        ParseMetadata = "parse_metadata",
        Alone = "parse_metadata, the Rust not asked",
        Front = "parse_metadata, before a refusal's place",
        RowAt = "row_at, put_row",
        Lookup = "lookup",
        TaggedItem = "tagged_item",
        GetLastKlv = "get_last_klv",
        LastItem = "last_item",
        ShapeAt = "shape_at",
        ColumnsAt = "columns_at",
        Element = "element",
        ElementsAt = "elements_at",
        KlvAt = "klv_at, bytes_at",
        TextAt = "text_at",
        ElementAt = "element_at, big_endian, .._bits",
        Fixed = "q15_16, q31_32, exact_at",
        ParseHeader = "parse_header, data_len, aligned_..",
        IsOneText = "is_one_text, is_type_text, is_one_number",
        TagId = "tag_id",
        GroupFromKey = "group_from_key",
        ResolveCustomType = "resolve_custom_type",
        ParseUtcdate = "parse_utcdate",
        Utf8 = "is_utf8, are_utf8, utf8_len, latin1_len",
        StampUs = "stamp_us",
        ScaledQuaternion = "scaled_quaternion",
        OrientationOfGroup = "orientation_of_group",
        Average = "get_avg_sample_duration",
        Matrix = "orientations_of, .._to_matrix",
        Back = "mtrx_to_orientation, matrix_..",
        FindDevc = "find_devc",
        PacketsNext = "packets_next",
        PacketsNextIn = "packets_next_in",
        NextMetadata = "next_metadata",
        NextMetadataIn = "next_metadata_in",
    }
}
named! {
    /// What the Rust answers.
    Theirs { Answer = "answer", Nothing = "nothing", Error = "error", Panic = "panic", Outside = "not asked" }
}
named! {
    /// What the library answers.
    Ours { Is = "is", Nothing = "nothing", More = "more", Refused = "refused" }
}
named! {
    /// The differences that a generated input can show, by the sections of docs/DIFFERENCES.md. Sections that are not here say where both part from the description.
    Listed {
        Bytes = "6, a payload of more than 1,048,576 bytes",
        Depth = "6, a level deeper than 16",
        Rows = "6, more than 4,096 rows",
        LongType = "6, a type of more than 256 characters",
        Packets = "6, more than 2,048 packets",
        Stamp = "6, a stamp of 2^42 or more",
        Readings = "6, more than 65,535 readings",
        Finite = "6, a duration that is not finite",
        DatePanic = "7, a date at which the Rust panics",
        MatrixPanic = "7, a matrix at which the Rust panics",
        StampDate = "8, a stamp whose date is not readable",
        TwoFindings = "9, one error for two findings",
        Nan = "16, the bits of a NaN",
        Axes = "18, axes that are not three ASCII characters",
        Told = "19, a packet that is refused and told",
        ShortQuaternions = "20, quaternions with too few bytes",
        NegativeStamp = "20, a stamp of 2^63 or more",
        ReadTwice = "30, headers that the Rust reads twice",
    }
}

/// How often each side gave each kind of answer.
#[derive(Clone, Copy, Default)]
pub struct Counts {
    pub theirs: [u64; Theirs::ALL.len()],
    pub ours: [u64; Ours::ALL.len()],
}

#[derive(Clone)]
pub struct Tally {
    pub calls: [Counts; Call::ALL.len()],
    pub listed: [u64; Listed::ALL.len()],
    pub values: u64,
    pub elements: u64,
    /// Rooms that were lent too small on purpose.
    pub small_rooms: u64,
    /// Inputs on which the Rust's process would end, so that it was not asked.
    pub outside: u64,
}

impl Tally {
    pub fn new() -> Tally {
        Tally { calls: [Counts::default(); Call::ALL.len()], listed: [0; Listed::ALL.len()], values: 0, elements: 0, small_rooms: 0, outside: 0 }
    }
    pub fn call(&mut self, call: Call, theirs: Theirs, ours: Ours) {
        let counts = &mut self.calls[call as usize];
        counts.theirs[theirs as usize] += 1;
        counts.ours[ours as usize] += 1;
    }
    pub fn listed(&mut self, entry: Listed) {
        self.listed[entry as usize] += 1;
    }
    pub fn add(&mut self, other: &Tally) {
        for (a, b) in self.calls.iter_mut().zip(&other.calls) {
            for (x, y) in a.theirs.iter_mut().zip(b.theirs) {
                *x += y;
            }
            for (x, y) in a.ours.iter_mut().zip(b.ours) {
                *x += y;
            }
        }
        for (x, y) in self.listed.iter_mut().zip(other.listed) {
            *x += y;
        }
        self.values += other.values;
        self.elements += other.elements;
        self.small_rooms += other.small_rooms;
        self.outside += other.outside;
    }
}

/// What the library answered, by the kind of its record.
pub fn ours(kind: u32) -> Ours {
    match kind {
        library::IS => Ours::Is,
        library::REFUSED => Ours::Refused,
        library::MORE => Ours::More,
        _ => Ours::Nothing,
    }
}

/// An unlisted difference, in words; `Ok` where there is none.
pub type Outcome = Result<(), String>;

/// Both sides must be equal.
pub fn same<T: PartialEq + std::fmt::Debug>(what: &str, theirs: &T, ours: &T) -> Outcome {
    if theirs == ours {
        return Ok(());
    }
    Err(format!("{what}: expected {theirs:?}, the library has {ours:?}"))
}

/// A fact about both sides' answers that no entry of the list lets fail.
pub fn holds(fact: bool, what: impl FnOnce() -> String) -> Outcome {
    if fact { Ok(()) } else { Err(what()) }
}
