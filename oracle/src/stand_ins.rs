//! What the published files name at the crate's root and is not built here, as far as their types need it.

pub mod rig {
    #[derive(Clone, Debug, Default, serde::Serialize)]
    pub struct CameraRig;
    pub fn readout(ms: Option<f64>) -> Option<f64> { ms }
}
pub mod mp4parse {
    #[derive(PartialEq)]
    pub enum TrackType { Video, Metadata }
    pub struct Tkhd { pub width: u32, pub height: u32 }
    pub struct Track { pub track_type: TrackType, pub tkhd: Option<Tkhd> }
    pub struct MediaContext { pub tracks: Vec<Track> }
}

use crate::tags_impl::{GroupId, TagId};
pub use crate::util::{SampleInfo, VideoMetadata, fourcc};

#[derive(Clone, Debug)]
pub enum TagFilter { EntireGroup(GroupId), EntireTag(TagId), SpecificTag(GroupId, TagId) }
#[derive(Clone, Debug, Default)]
pub struct InputOptions { pub probe_only: bool, pub tag_blacklist: Vec<TagFilter>, pub tag_whitelist: Vec<TagFilter> }
