//! What a scheduler is compared with: its limits, and how many keys and calls.
use crate::random::Random;
use crate::scheduler::Limits;

pub struct Scene {
    pub limits: Limits,
    pub keys: u64,
    /// How many calls that add a thread or an object come first.
    pub additions: usize,
    /// How many timers are set then.
    pub armings: usize,
    pub calls: u64,
    /// Whether the policy is chosen at the start.
    pub policy: bool,
    /// The call before which a number is put to its end.
    pub put: Option<u64>,
    /// Everything is read after one call in as many, and a word changed.
    pub survey: u64,
    pub damage: u64,
}

impl Scene {
    pub fn new(random: &Random) -> Self {
        let calls = 1 + random.below(300);
        let (limits, keys, additions) = match random.below(1000) {
            0 if random.once_in(2) => (Limits::MOST, 9500, 9500),
            0..=5 => (Limits::MOST, 100, random.pick(&[0, 400, 4000])),
            6..=25 => (Limits::new(256, 300, 60), 100, random.pick(&[0, 100, 700])),
            26..=125 => (Limits::new(64, 80, 16), 90, random.pick(&[0, 20, 200])),
            126..=425 => (
                Limits::new(16, 64, 64),
                random.pick(&[4, 20, 80]),
                random.pick(&[0, 10, 30, 100]),
            ),
            426..=825 => (
                Limits::new(4, 8, 4),
                random.pick(&[2, 5, 9]),
                random.pick(&[0, 4, 10]),
            ),
            826..=875 => (Limits::new(1, 0, 0), 2, 0),
            876..=925 => (Limits::new(2, 1, 0), 3, 0),
            _ => (
                Limits::new(1 + random.below(20), random.below(20), random.below(20)),
                1 + random.below(24),
                0,
            ),
        };
        Self {
            limits,
            keys,
            additions,
            armings: random.pick(&[0, 0, additions / 4, additions / 2]).min(300),
            calls,
            policy: random.below(8) < 6,
            put: random.once_in(3).then(|| random.below(calls)),
            survey: 300,
            damage: if limits.words() < 20_000 { 8 } else { 200 },
        }
    }
}
