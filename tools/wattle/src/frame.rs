//! `--voxel` and `--origin`: how large a voxel is, and where the grid lies.

use crate::args::Args;
use crate::Failure;

/// Sizes that a voxel may have: with any of them a volume is a number.
const SIZES: std::ops::RangeInclusive<f64> = 1e-12..=1e12;

pub struct Frame {
    /// A voxel's size along x, y and z.
    pub voxel: [f64; 3],
    /// Where the centre of voxel (0, 0, 0) lies.
    pub origin: [f64; 3],
    sized: bool,
    placed: bool,
}

impl Frame {
    pub fn of(args: &Args) -> Result<Frame, Failure> {
        let size = "a size from 1e-12 to 1e12, or three: SIZE,SIZE,SIZE";
        let sizes = |numbers: &[f64]| match *numbers {
            [size] => Some([size; 3]),
            _ => numbers.try_into().ok(),
        };
        let voxel = three(args, "--voxel", size, |n| sizes(n).filter(|sizes| sizes.iter().all(|s| SIZES.contains(s))))?;
        let origin = three(args, "--origin", "three numbers: X,Y,Z", |n| n.try_into().ok())?;
        let (sized, placed) = (voxel.is_some(), origin.is_some());
        Ok(Frame { voxel: voxel.unwrap_or([1.0; 3]), origin: origin.unwrap_or([0.0; 3]), sized, placed })
    }

    /// Whether places are other than voxels'.
    pub fn is_given(&self) -> bool {
        self.sized || self.placed
    }

    /// A place in units, of one in voxels.
    pub fn at(&self, place: [f64; 3]) -> [f64; 3] {
        [0, 1, 2].map(|i| self.origin[i] + self.voxel[i] * place[i])
    }

    /// The centre of a voxel in units.
    pub fn centre(&self, place: [usize; 3]) -> [f64; 3] {
        self.at(place.map(|p| p as f64)).map(rounded)
    }

    /// What so many voxels hold, where their size is known.
    pub fn cubic(&self, voxels: usize) -> Option<f64> {
        self.sized.then(|| rounded(voxels as f64 * self.voxel.iter().product::<f64>()))
    }

    /// What coordinates are in, in words.
    pub fn told(&self) -> String {
        let three = |[x, y, z]: [f64; 3], between: &str| format!("{x}{between}{y}{between}{z}");
        match self.is_given() {
            false => "coordinates in voxels".to_string(),
            true => format!("a voxel is {}, and voxel 0,0,0 lies at {}", three(self.voxel, " x "), three(self.origin, ",")),
        }
    }
}

/// To twelve digits: more would show how a product was rounded, and nothing of the scan.
fn rounded(number: f64) -> f64 {
    format!("{number:.11e}").parse().expect("a number reads back")
}

/// The numbers given with an option, with commas between them, where they fit.
fn three(args: &Args, option: &str, due: &str, fit: impl Fn(&[f64]) -> Option<[f64; 3]>) -> Result<Option<[f64; 3]>, Failure> {
    let Some(word) = args.value(option) else { return Ok(None) };
    let numbers: Option<Vec<f64>> = word.split(',').map(|n| n.parse().ok().filter(|n: &f64| n.is_finite())).collect();
    let wrong = || Failure::unusable(format!("{option} takes {due}, not {word}"));
    numbers.as_deref().and_then(fit).map(Some).ok_or_else(wrong)
}
