//! What a stretch of a script is about: how much disturbs it, how well things go, and what
//! is begun in READY.

use super::calls::Proposal;
use crate::random::Random;

type Weighted = &'static [(u64, Proposal)];

/// Chances are so many times in a hundred.
#[derive(Clone, Copy)]
pub struct Stretch {
    /// That a line disturbs what is going on.
    pub unrest: u64,
    /// That what arrives lets the driver go on.
    pub smooth: u64,
    /// That the second length byte of a frame is the held one.
    pub faithful: u64,
    /// That an interrupt comes before a transfer ends.
    pub interruption: u64,
    /// That a transfer is declined before it ends.
    pub declining: u64,
    /// That another line comes before a declined transfer is resumed.
    pub patience: u64,
    /// What is begun in READY while nothing is going on.
    pub beginnings: Weighted,
}

impl Stretch {
    pub fn any(random: &mut Random) -> Stretch {
        Stretch {
            unrest: random.pick(&[0, 2, 6, 12, 25, 45]),
            smooth: random.pick(&[50, 75, 90, 97]),
            faithful: random.pick(&[65, 85, 95]),
            interruption: random.pick(&[0, 2, 8, 25]),
            declining: random.pick(&[0, 0, 2, 5, 12, 30]),
            patience: random.pick(&[15, 45, 65, 80]),
            beginnings: random.pick(&[RECEIVING, RECEIVING, SENDING, MIXED]),
        }
    }
}

/// A burst: frame after frame, with buffers lent in between.
const RECEIVING: Weighted = &[
    (65, Proposal::Fired),
    (6, Proposal::LendSeveral),
    (9, Proposal::Lend),
    (7, Proposal::ReceiveListener),
    (4, Proposal::Send),
    (5, Proposal::Refused),
    (2, Proposal::Commit),
    (1, Proposal::Stop),
];

const SENDING: Weighted = &[
    (45, Proposal::Send),
    (20, Proposal::Fired),
    (6, Proposal::LendSeveral),
    (8, Proposal::Refused),
    (6, Proposal::Commit),
    (4, Proposal::Listener),
    (2, Proposal::Stop),
];

const MIXED: Weighted = &[
    (30, Proposal::Fired),
    (20, Proposal::Send),
    (15, Proposal::Lend),
    (6, Proposal::LendSeveral),
    (8, Proposal::Commit),
    (8, Proposal::Stop),
    (6, Proposal::Refused),
    (5, Proposal::Setting),
];

/// From START: a firing is the short way.
pub const FROM_START: Weighted = &[
    (70, Proposal::Fired),
    (25, Proposal::Start),
    (6, Proposal::LendSeveral),
    (4, Proposal::Refused),
];

pub const FROM_SLEEP: Weighted = &[
    (70, Proposal::Start),
    (15, Proposal::Fired),
    (5, Proposal::LendSeveral),
    (5, Proposal::Refused),
];

/// What disturbs: anything, at any time.
pub const DISTURBANCES: Weighted = &[
    (12, Proposal::Fired),
    (4, Proposal::Start),
    (5, Proposal::Stop),
    (6, Proposal::Commit),
    (7, Proposal::Send),
    (9, Proposal::Lend),
    (3, Proposal::LendSeveral),
    (20, Proposal::Refused),
    (3, Proposal::Reset),
    (4, Proposal::Setting),
    (4, Proposal::Listener),
    (9, Proposal::ReceiveListener),
    (3, Proposal::Query),
    (8, Proposal::OutsideBytes),
];
