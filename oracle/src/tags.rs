// Our stand-in for the tags.rs that tags_impl.rs includes. It is compiled inside the module `tags_impl`, so it also
// carries what that module's users need (`and_utc`, `pretty_hex`) and the probes of its private fields.

declare_groups! {
    Default, Gyroscope, Accelerometer, GravityVector, Magnetometer, CameraOrientation, ImageOrientation, Exposure, GPS,
    Quaternion, Lens,
}
declare_ids! {
    Data, Unit, Matrix, Scale, TimestampUs, TimestampMs, Name, Temperature, Count, OrientationIn, OrientationOut,
    Orientation, Rig,
}

type Uuid = (u32, u32, u32, u32);

macro_rules! with_all_types {
    ($mac:ident) => {
        $mac! {
            i8: i8,    Vec_i8: Vec<i8>,    Vec_Vector3_i8: Vec<Vector3<i8>>,    Vec_TimeVector3_i8: Vec<TimeVector3<i8>>,    Vec_Vec_i8: Vec<Vec<i8>>,
            u8: u8,    Vec_u8: Vec<u8>,    Vec_Vector3_u8: Vec<Vector3<u8>>,    Vec_TimeVector3_u8: Vec<TimeVector3<u8>>,    Vec_Vec_u8: Vec<Vec<u8>>,
            i16: i16,  Vec_i16: Vec<i16>,  Vec_Vector3_i16: Vec<Vector3<i16>>,  Vec_TimeVector3_i16: Vec<TimeVector3<i16>>,  Vec_Vec_i16: Vec<Vec<i16>>,
            u16: u16,  Vec_u16: Vec<u16>,  Vec_Vector3_u16: Vec<Vector3<u16>>,  Vec_TimeVector3_u16: Vec<TimeVector3<u16>>,  Vec_Vec_u16: Vec<Vec<u16>>,
            i32: i32,  Vec_i32: Vec<i32>,  Vec_Vector3_i32: Vec<Vector3<i32>>,  Vec_TimeVector3_i32: Vec<TimeVector3<i32>>,  Vec_Vec_i32: Vec<Vec<i32>>,
            u32: u32,  Vec_u32: Vec<u32>,  Vec_Vector3_u32: Vec<Vector3<u32>>,  Vec_TimeVector3_u32: Vec<TimeVector3<u32>>,  Vec_Vec_u32: Vec<Vec<u32>>,
            f32: f32,  Vec_f32: Vec<f32>,  Vec_Vector3_f32: Vec<Vector3<f32>>,  Vec_TimeVector3_f32: Vec<TimeVector3<f32>>,  Vec_Vec_f32: Vec<Vec<f32>>,
            f64: f64,  Vec_f64: Vec<f64>,  Vec_Vector3_f64: Vec<Vector3<f64>>,  Vec_TimeVector3_f64: Vec<TimeVector3<f64>>,  Vec_Vec_f64: Vec<Vec<f64>>,
            i64: i64,  Vec_i64: Vec<i64>,  Vec_Vector3_i64: Vec<Vector3<i64>>,  Vec_TimeVector3_i64: Vec<TimeVector3<i64>>,  Vec_Vec_i64: Vec<Vec<i64>>,
            u64: u64,  Vec_u64: Vec<u64>,  Vec_Vector3_u64: Vec<Vector3<u64>>,  Vec_TimeVector3_u64: Vec<TimeVector3<u64>>,  Vec_Vec_u64: Vec<Vec<u64>>,
            String: String, Vec_String: Vec<String>, Uuid: Uuid,
            Vec_Scalar: Vec<Scalar>, Vec_Vec_Scalar: Vec<Vec<Scalar>>,
            Vec_Quaternioni16: Vec<Quaternion<i16>>, Vec_TimeQuaternion_f64: Vec<TimeQuaternion<f64>>,
            CameraRig: crate::rig::CameraRig,
        }
    };
}
with_all_types!(declare_types);

// ---------- what the published users of this module miss here ----------

/// `NaiveDateTime::and_utc` is younger than Debian's chrono; klv.rs sees this one by `use crate::tags_impl::*`.
pub trait AndUtc { fn and_utc(&self) -> chrono::DateTime<chrono::Utc>; }
impl AndUtc for chrono::NaiveDateTime {
    fn and_utc(&self) -> chrono::DateTime<chrono::Utc> { chrono::TimeZone::from_utc_datetime(&chrono::Utc, self) }
}

mod pretty_hex {
    pub fn pretty_hex(data: &[u8]) -> String { crate::util::to_hex(data) }
}

// ---------- probes ----------

/// What a value is when it is read: the parse function's own answer, before `get` turns an error into a default.
pub fn probe_parse<T: Clone>(v: &ValueType<T>) -> std::io::Result<T> {
    match v.parse_fn {
        Some(f) => f(&mut std::io::Cursor::new(&v.raw_data[..])),
        None => Ok(v.parsed_value.get().unwrap().clone()),
    }
}

/// How a value is printed; a text among others is printed by its UTF-8 bytes, one alone by its Latin-1 bytes.
pub trait Show {
    fn show(&self) -> String;
    fn show_in_list(&self) -> String { self.show() }
}
macro_rules! show_whole {
    ($sign:literal: $($t:ty),*) => { $(impl Show for $t { fn show(&self) -> String { format!("{}{self}", $sign) } })* };
}
show_whole!("i": i8, i16, i32, i64);
show_whole!("u": u8, u16, u32, u64);
// every NaN is shown as one NaN
impl Show for f32 { fn show(&self) -> String { format!("f{:08x}", if self.is_nan() { f32::NAN.to_bits() } else { self.to_bits() }) } }
impl Show for f64 { fn show(&self) -> String { format!("d{:016x}", if self.is_nan() { f64::NAN.to_bits() } else { self.to_bits() }) } }
impl Show for String {
    fn show(&self) -> String { format!("t{}", self.chars().map(|c| format!("{:02x}", c as u32)).collect::<String>()) }
    fn show_in_list(&self) -> String { format!("t{}", self.bytes().map(|b| format!("{b:02x}")).collect::<String>()) }
}
impl<T: Show> Show for Vec<T> {
    fn show(&self) -> String { format!("[{}]", self.iter().map(|x| x.show_in_list()).collect::<Vec<_>>().join(";")) }
}
impl<T: Show> Show for Vector3<T> {
    fn show(&self) -> String { format!("[{};{};{}]", self.x.show(), self.y.show(), self.z.show()) }
}
impl<T: Show> Show for TimeVector3<T> {
    fn show(&self) -> String { format!("[{};{};{};{}]", self.t.show(), self.x.show(), self.y.show(), self.z.show()) }
}
impl<T: Show> Show for Quaternion<T> {
    fn show(&self) -> String { format!("[{};{};{};{}]", self.w.show(), self.x.show(), self.y.show(), self.z.show()) }
}
impl<T: Show> Show for TimeQuaternion<T> {
    fn show(&self) -> String { format!("[{};{}]", self.t.show(), self.v.show()) }
}
impl Show for Uuid {
    fn show(&self) -> String { vec![self.0, self.1, self.2, self.3].show() }
}
impl Show for Scalar {
    fn show(&self) -> String {
        match self {
            Scalar::u8(v) => v.show(),  Scalar::i8(v) => v.show(),  Scalar::u16(v) => v.show(), Scalar::i16(v) => v.show(),
            Scalar::u32(v) => v.show(), Scalar::i32(v) => v.show(), Scalar::u64(v) => v.show(), Scalar::i64(v) => v.show(),
            Scalar::f32(v) => v.show(), Scalar::f64(v) => v.show(), Scalar::String(v) => v.show(), Scalar::bool(v) => v.to_string(),
        }
    }
}
impl Show for crate::rig::CameraRig { fn show(&self) -> String { "rig".into() } }

/// The value as it is printed; none where its read fails or panics.
fn shown<T: Clone + Show>(v: &ValueType<T>) -> Option<String> {
    std::panic::catch_unwind(std::panic::AssertUnwindSafe(|| probe_parse(v))).ok()?.ok().map(|x| x.show())
}

/// The bytes of an item, its header first: in front of a structure's the Rust keeps the expanded type and its length.
fn item_bytes<'a>(variant: &str, raw: &'a [u8]) -> &'a [u8] {
    if !variant.ends_with("Scalar") { return raw; }
    &raw[2 + u16::from_be_bytes([raw[0], raw[1]]) as usize..]
}

macro_rules! probe_values {
    ($($field:ident: $type:ty),*,) => {
        /// Variant name, the item's bytes and the value read; no name and `err` where the read fails or panics.
        pub fn probe_value(v: &TagValue) -> (&'static str, &[u8], String) {
            let (variant, raw, value) = match v {
                $(TagValue::$field(t) => (stringify!($field), &t.raw_data[..], shown(t)),)*
                TagValue::Unknown(t) => ("Unknown", &t.raw_data[..], Some("-".into())),
            };
            let bytes = item_bytes(variant, raw);
            match value { Some(value) => (variant, bytes, value), None => ("-", bytes, "err".into()) }
        }
    };
}
with_all_types!(probe_values);

macro_rules! probe_rows {
    ($($field:ident: $type:ty),*,) => {
        /// Variant name, the item's bytes and the rows of the value.
        pub fn probe_rows(v: &TagValue) -> (&'static str, &[u8], crate::plain::ReadBack) {
            use crate::plain::{ReadBack, read_back};
            let (variant, raw, rows) = match v {
                $(TagValue::$field(t) => (stringify!($field), &t.raw_data[..], read_back(t)),)*
                TagValue::Unknown(t) => ("Unknown", &t.raw_data[..], ReadBack::Is(Vec::new())),
            };
            (variant, item_bytes(variant, raw), rows)
        }
    };
}
with_all_types!(probe_rows);

macro_rules! probe_reads {
    ($($field:ident: $type:ty),*,) => {
        /// The read of a value, by its own parse function; what it gives is dropped.
        pub fn probe_read(v: &TagValue) {
            match v {
                $(TagValue::$field(t) => drop(std::hint::black_box(probe_parse(t))),)*
                TagValue::Unknown(_) => (),
            }
        }
    };
}
with_all_types!(probe_reads);

/// Document 01's tag numbers.
pub fn probe_tag_number(t: &TagId) -> u32 {
    match t {
        TagId::Data => 1, TagId::Unit => 2, TagId::Matrix => 3, TagId::Scale => 4, TagId::TimestampUs => 5,
        TagId::Name => 6, TagId::Temperature => 7, TagId::Count => 8, TagId::OrientationIn => 9,
        TagId::OrientationOut => 10, TagId::Unknown(_) => 0,
        _ => 99,
    }
}
