//! Compares two managers on every sequence of three calls in a few small worlds.

use super::Finding;
use super::manager::{MakeManager, compare_sequence};
use crate::calls::ManagerCall;

/// An arena, and all numbers that its calls are made of.
struct World {
    arena: (u64, u64),
    starts: &'static [u64],
    lengths: &'static [u64],
    points: &'static [u64],
}

const TOP: u64 = u64::MAX;
const HALF: u64 = 1 << 47;

const WORLDS: [World; 3] = [
    World {
        arena: (TOP - 3, 4),
        starts: &[TOP - 4, TOP - 3, TOP - 2, TOP - 1, TOP],
        lengths: &[0, 1, 2, 3, 4, 5],
        points: &[],
    },
    World {
        arena: (HALF - 4, 4),
        starts: &[HALF - 5, HALF - 4, HALF - 3, HALF - 1, HALF],
        lengths: &[0, 1, 2, 3, 4, 5],
        points: &[],
    },
    World {
        arena: (0x1000, 0x3000),
        starts: &[0x1000, 0x2000, 0x3000],
        lengths: &[0, 0x1000, 0x1800, 0x2000],
        points: &[0x1800, 0x2000, 0x3000],
    },
];

/// Answers how many calls were compared.
///
/// # Errors
/// The shortest script found on which the two differ.
pub fn compare_short(second: MakeManager<'_>) -> Result<usize, Finding<ManagerCall>> {
    let mut compared = 0;
    for world in &WORLDS {
        let (start, size) = world.arena;
        let first = ManagerCall::Manager { start, size };
        let calls = world.calls();
        for (a, b) in calls.iter().flat_map(|a| calls.iter().map(move |b| (a, b))) {
            for c in &calls {
                let sequence = [first.clone(), a.clone(), b.clone(), c.clone()];
                compared += compare_sequence(&sequence, second)?;
            }
        }
    }
    Ok(compared)
}

impl World {
    /// Every call of the world.
    fn calls(&self) -> Vec<ManagerCall> {
        let reserves = self.lengths.iter().map(|&len| ManagerCall::Reserve { len });
        let mut calls: Vec<ManagerCall> = reserves.collect();
        for &start in self.starts {
            for &len in self.lengths {
                calls.push(ManagerCall::Mark { start, len });
                calls.push(ManagerCall::Release { start, len });
                let points = self.points.iter();
                calls.extend(points.map(|&at| ManagerCall::Split { start, len, at }));
            }
        }
        calls
    }
}
