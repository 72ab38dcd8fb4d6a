//! Grants, cells and frames.

use super::messages::{random_down, DOWN_KINDS};
use super::Random;
use crate::cell::{Cell, GRANTS};
use crate::frame::{Frame, FRAME_GRANTS};
use crate::grant::Grant;

/// Grants in one of several styles: any, runs, special ones only.
pub fn random_grants(random: &mut Random, grants: &mut [Grant]) {
    match random.below(4) {
        0 => grants.fill_with(|| Grant(random.byte())),
        1 => grants.fill_with(|| Grant(random.one_of(&[0xFC, 0xFD, 0xFE, 0xFF]))),
        _ => {
            let mut rest = grants;
            while !rest.is_empty() {
                let count = random.between(1, 12.min(rest.len()));
                let grant = if random.flag() {
                    random.byte()
                } else {
                    random.one_of(&[0xFD, 0xFE, 0xFF])
                };
                let (run, after) = rest.split_at_mut(count);
                run.fill(Grant(grant));
                rest = after;
            }
        }
    }
}

pub fn random_cell(random: &mut Random) -> Cell {
    let mut grants = [Grant::IDLE; GRANTS];
    random_grants(random, &mut grants);
    let kind = random.between(0, DOWN_KINDS - 1);
    Cell {
        first: random.flag(),
        grants,
        message: random_down(random, kind),
    }
}

pub fn random_frame(random: &mut Random) -> Frame {
    let mut grants = [Grant::IDLE; FRAME_GRANTS];
    random_grants(random, &mut grants);
    let kinds = [(); 2].map(|()| random.between(0, DOWN_KINDS - 1));
    Frame {
        grants,
        messages: kinds.map(|kind| random_down(random, kind)),
    }
}
