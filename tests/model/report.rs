//! The template report.

use super::{Model, MOST};

/// A count for each tag, then the bundles, the reserved ones, their stops and the bytes of the tail.
pub type Report = [u64; 36];

impl Model {
    /// The report with an image's added, or the refusal and the report as it was.
    pub fn report(&self, report: &Report, image: &[u8]) -> (u8, Report) {
        if image.len() > MOST {
            return (10, *report);
        }
        let mut of: Report = [0; 36];
        for bundle in image.chunks_exact(16) {
            of[bundle[0] as usize % 32] += 1;
        }
        for tag in 0..32 {
            of[32] += of[tag];
            of[33] += of[tag] * self.units[tag].is_none() as u64;
            of[34] += of[tag] * self.stops[tag].iter().filter(|stop| **stop).count() as u64;
        }
        of[35] = image.len() as u64 % 16;
        let mut sums = *report;
        for (sum, more) in sums.iter_mut().zip(of) {
            match sum.checked_add(more) {
                Some(fits) => *sum = fits,
                None => return (6, *report),
            }
        }
        (0, sums)
    }
}
