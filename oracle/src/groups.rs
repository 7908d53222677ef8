//! The groups that the published `group_from_key` makes, as numbers and keys.
use crate::tags_impl::GroupId;
use std::sync::LazyLock;

/// The keys that the Rust's `group_from_key` names, in its order, with what it makes of each.
static NAMED: LazyLock<Vec<([u8; 4], GroupId)>> = LazyLock::new(|| {
    let custom = |name: &'static str| GroupId::Custom(name.into());
    vec![
        (*b"GYRO", GroupId::Gyroscope), (*b"ACCL", GroupId::Accelerometer), (*b"GRAV", GroupId::GravityVector),
        (*b"MAGN", GroupId::Magnetometer), (*b"CORI", GroupId::CameraOrientation), (*b"IORI", GroupId::ImageOrientation),
        (*b"SHUT", GroupId::Exposure), (*b"GPS5", GroupId::GPS), (*b"FASC", custom("FovAdaptationScore")),
        (*b"MWET", custom("MicrophoneWet")), (*b"AALP", custom("AGCAudioLevel")), (*b"WNDM", custom("WindProcessing")),
        (*b"UNIF", custom("ImageUniformity")), (*b"WRGB", custom("WhiteBalanceRGBGains")),
        (*b"WBAL", custom("WhiteBalanceTemperature")), (*b"ISOE", custom("SensorISO")),
    ]
});

/// A group's number from 1, 0 for one that is not named, and its key: the name that the Rust kept, a byte for each character.
pub fn group_number(group: &GroupId) -> (u32, Vec<u8>) {
    if let Some(at) = NAMED.iter().position(|(_, g)| g == group) { return (at as u32 + 1, NAMED[at].0.to_vec()); }
    match group {
        GroupId::Custom(kept) => (0, kept.chars().map(|c| u8::try_from(c as u32).expect("Latin-1")).collect()),
        other => panic!("no key in {other:?}"),
    }
}
