//! The two benches: parts of 256 bytes, FFh everywhere at first, on which a run file is played.

use crate::cells::{Lasting, Shadowed};
use crate::dialect::{Mr, Nv};
use crate::machine::Part;
use crate::run_file::play;
use crate::watch::Watch;

const SIZE: usize = 256;
const FRESH: u8 = 0xFF;

#[derive(Clone, Copy, Debug, PartialEq, Eq)]
pub enum Bench {
    Nv,
    Mr,
}

impl Bench {
    pub fn named(name: &str) -> Option<Self> {
        match name {
            "nv" => Some(Self::Nv),
            "mr" => Some(Self::Mr),
            _ => None,
        }
    }

    /// What the bench prints for a file.
    pub fn print(self, file: &[u8]) -> Vec<u8> {
        self.watched(file, ()).0
    }

    /// The same, with the notes of the run given to `watch`.
    pub fn watched<W: Watch>(self, file: &[u8], watch: W) -> (Vec<u8>, W) {
        // Each byte of a dense file makes about three printed bytes.
        let mut out = Vec::with_capacity(3 * file.len());
        let watch = match self {
            Self::Nv => {
                let mut part = Part::<Nv, _, _>::new(Shadowed::filled(SIZE, FRESH), watch);
                play(file, &mut part, &mut out);
                part.into_watch()
            }
            Self::Mr => {
                let mut part = Part::<Mr, _, _>::new(Lasting::filled(SIZE, FRESH), watch);
                play(file, &mut part, &mut out);
                part.into_watch()
            }
        };
        (out, watch)
    }
}
