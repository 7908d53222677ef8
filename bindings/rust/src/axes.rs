//! Axes.
use crate::refusal::{is, told, Refusal};
use crate::sys;

/// Three axes, a character each; a camera's are `X`, `Y` and `Z`, small for the other direction.
///
/// ```
/// let axes: gpmf::Axes = *b"YxZ";
/// assert_eq!(gpmf::orientations_to_matrix(axes, axes)[1], [0.0, 1.0, 0.0]);
/// ```
pub type Axes = [u8; 3];

fn to_sys(axes: Axes) -> sys::Axes {
    sys::Axes { first: axes[0], second: axes[1], third: axes[2] }
}

fn from_sys(axes: sys::Axes) -> Axes {
    [axes.first, axes.second, axes.third]
}

pub(crate) fn axes_or_none(a: sys::AxesAnswer) -> Result<Option<Axes>, Refusal> {
    told(a.kind, a.number, a.place, from_sys(a.axes))
}

/// The axes that the texts of ORIN and ORIO name. Refused with 9.
///
/// ```
/// assert_eq!(gpmf::orientations_of(b"YxZ", b"XYZ"), Ok((*b"YxZ", *b"XYZ")));
/// assert_eq!(gpmf::orientations_of(b"Yx", b"XYZ").unwrap_err().number, gpmf::Refusal::BAD_AXES);
/// ```
pub fn orientations_of(orin: &[u8], orio: &[u8]) -> Result<(Axes, Axes), Refusal> {
    let a = unsafe { sys::gpmf_orientations_of(orin.as_ptr(), orin.len(), orio.as_ptr(), orio.len()) };
    is(a.kind, a.number, a.place, (from_sys(a.orin), from_sys(a.orio)))
}

/// A row for each ORIO letter, a column for each ORIN letter: 1 for the same, -1 for the other direction, else 0.
///
/// ```
/// let matrix = gpmf::orientations_to_matrix(*b"YxZ", *b"XYZ");
/// assert_eq!(matrix, [[0.0, -1.0, 0.0], [1.0, 0.0, 0.0], [0.0, 0.0, 1.0]]);
/// ```
pub fn orientations_to_matrix(orin: Axes, orio: Axes) -> [[f32; 3]; 3] {
    let m = unsafe { sys::gpmf_orientations_to_matrix(to_sys(orin), to_sys(orio)) }.entries;
    [[m[0], m[1], m[2]], [m[3], m[4], m[5]], [m[6], m[7], m[8]]]
}

/// The axes that a matrix names. Refused with 10.
///
/// ```
/// let matrix = [[0.0, -1.0, 0.0], [1.0, 0.0, 0.0], [0.0, 0.0, 1.0]];
/// assert_eq!(gpmf::matrix_to_orientation(matrix), Ok(*b"yXZ"));
/// assert_eq!(gpmf::matrix_to_orientation([[0.5; 3]; 3]).unwrap_err().number, gpmf::Refusal::BAD_MATRIX);
/// ```
pub fn matrix_to_orientation(matrix: [[f32; 3]; 3]) -> Result<Axes, Refusal> {
    let mut entries = [0.0; 9];
    entries.copy_from_slice(&matrix.concat());
    let a = unsafe { sys::gpmf_matrix_to_orientation(sys::Matrix { entries }) };
    is(a.kind, a.number, a.place, from_sys(a.axes))
}

/// The same of the numbers of an MTRX. Refused with 10 where they are not nine.
///
/// ```
/// let mtrx = [0.0, 0.0, 1.0, 0.0, -1.0, 0.0, 1.0, 0.0, 0.0];
/// assert_eq!(gpmf::mtrx_to_orientation(&mtrx), Ok(*b"ZyX"));
/// assert!(gpmf::mtrx_to_orientation(&mtrx[1..]).is_err());
/// ```
pub fn mtrx_to_orientation(mtrx: &[f32]) -> Result<Axes, Refusal> {
    let a = unsafe { sys::gpmf_mtrx_to_orientation(mtrx.as_ptr(), mtrx.len()) };
    is(a.kind, a.number, a.place, from_sys(a.axes))
}
