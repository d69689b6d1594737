//! The files that are exported.

use super::files::Made;
use crate::compare::acceptance;
use crate::compare::damage::Bases;
use crate::compare::random;
use crate::compare::rng::Rng;
use crate::number::narrowed;
use crate::second::contents;

/// Small files, whole and damaged, and a few large ones.
pub struct Files {
    seed: u64,
    small: Bases,
    large: Vec<Vec<u8>>,
}

const LARGE: [(u32, u32); 5] = [(400, 30), (400, 15), (60, 15), (31, 5), (400, 5)];

impl Files {
    pub fn new(seed: u64) -> Files {
        let large = LARGE.into_iter().map(|(days, interval)| {
            let file = |index| random::file_of(Rng::new(seed ^ 0x4E45, index), days, interval);
            let mut files = (0..).map(file);
            let accepted = files.find(|file| acceptance::read(file).is_ok());
            accepted.expect("one of many")
        });
        Files {
            seed,
            small: Bases::new(seed ^ 0x4E45, 60),
            large: large.collect(),
        }
    }

    /// A published file; one in fifty is large.
    fn published(&self, rng: &mut Rng, index: u64) -> Vec<u8> {
        if index % 160 == 3 {
            return self.large[narrowed::<usize>(index) / 160 % self.large.len()].clone();
        }
        let most = rng.pick(&[3, 10, 45]);
        let (days, interval) = (rng.between(1, most), rng.pick(&[5, 15, 30, 30]));
        let file = random::file_of(Rng::new(self.seed, rng.word().into()), days, interval);
        match contents::before(&file) {
            Ok(before) if rng.one_in(2) => before,
            Ok(_) => file,
            Err(_) => self.small.whole(rng).to_vec(),
        }
    }

    /// The file of a try, and its class where it is to be exported and not refused.
    pub fn of_try(&self, rng: &mut Rng, index: u64) -> (Vec<u8>, Option<&'static str>) {
        match index % 16 {
            0..=4 => {
                let file = self.published(rng, index);
                (file, Some("export of a published file"))
            }
            5..=8 => {
                let file = match index % 480 {
                    86 => Made::of_size(rng, 400, 5).file(),
                    _ => Made::random(rng).file(),
                };
                (file, Some("export of a made file"))
            }
            10 | 11 => {
                let file = self.small.damaged(self.seed, index).file();
                let is_whole = acceptance::read(&file).is_ok();
                (file, is_whole.then_some("export of a damaged file"))
            }
            _ => match rng.below(3) {
                0 => (self.small.whole(rng).to_vec(), None),
                _ => (Made::random(rng).file(), None),
            },
        }
    }
}
