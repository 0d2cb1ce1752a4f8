//! Work and out counts of many sizes.

use super::random::Random;

/// The largest count.
const MOST: u32 = u16::MAX as u32;

/// How large the counts of one plan, or of some of its tasks, are.
#[derive(Clone, Copy)]
pub(crate) enum Counts {
    Zero,
    UpTo(u16),
    Large,
    Extreme,
    Most,
    Mixed,
}

impl Counts {
    pub fn random(random: &mut Random) -> Counts {
        random.pick(&[
            Counts::Zero,
            Counts::UpTo(1),
            Counts::UpTo(4),
            Counts::UpTo(4),
            Counts::UpTo(20),
            Counts::UpTo(1000),
            Counts::Large,
            Counts::Extreme,
            Counts::Mixed,
        ])
    }

    /// One work or out count.
    pub fn count(self, random: &mut Random) -> u16 {
        let count = match self {
            Counts::Zero => 0,
            Counts::UpTo(most) => random.between(0, most.into()),
            Counts::Large => random.between(60_000, MOST),
            Counts::Extreme => random.pick(&[0, MOST]),
            Counts::Most => MOST,
            Counts::Mixed => {
                let most = random.pick(&[0, 3, 30, 3000, MOST]);
                random.between(0, most)
            }
        };
        count as u16
    }
}
