//! The lists of waits: pairs of a kind and a key, mostly of known objects, each once.
use super::{Draw, EDGES};
use crate::scheduler::state::State;

/// The most pairs that a wait may have.
const MOST: u64 = 64;

impl Draw<'_> {
    pub(super) fn list(&self, state: &State) -> Vec<u64> {
        let random = self.random;
        let wanted = match random.below(32) {
            0 => 0,
            1 => random.pick(&[MOST - 1, MOST, MOST + 1, MOST + 2]),
            2 => random.below(MOST + 3),
            _ => 1 + random.below(3),
        };
        let mut pairs = self.known(state, wanted);
        match random.below(16) {
            0 => self.spoil(state, &mut pairs),
            1 => pairs.push([random.below(4), self.key()]),
            _ => {}
        }
        let mut list = pairs.concat();
        if random.once_in(64) {
            list.pop();
        }
        list
    }

    /// Known objects, each once, as many as wanted if there are as many.
    fn known(&self, state: &State, wanted: u64) -> Vec<[u64; 2]> {
        let random = self.random;
        let wanted = wanted as usize;
        if wanted <= 3 {
            let mut pairs: Vec<[u64; 2]> = Vec::new();
            for _ in 0..wanted {
                let pair = self.one(state);
                if !pairs.contains(&pair) {
                    pairs.push(pair);
                }
            }
            return pairs;
        }
        let mutexes = state.mutexes.iter().map(|(key, _)| [0, *key]);
        let events = state.events.iter().map(|event| [1, event.key]);
        let timers = state.timers.iter().map(|timer| [2, timer.address]);
        let threads = (1..=state.threads.len() as u64).map(|id| [3, id]);
        let own = |[kind, key]: &[u64; 2]| {
            let owned = |(known, owner): &(u64, Option<u64>)| {
                known == key && owner.is_some() && *owner == state.current
            };
            *kind == 0 && state.mutexes.iter().any(owned)
        };
        let mut pairs: Vec<[u64; 2]> = mutexes.chain(events).chain(timers).chain(threads).collect();
        let wanted = wanted.min(pairs.len());
        for place in 0..wanted {
            let other = place + random.below((pairs.len() - place) as u64) as usize;
            pairs.swap(place, other);
        }
        pairs.truncate(wanted);
        if !random.once_in(4) {
            pairs.retain(|pair| !own(pair));
        }
        pairs
    }

    fn one(&self, state: &State) -> [u64; 2] {
        let random = self.random;
        match random.below(12) {
            0..=3 if !state.events.is_empty() => [1, random.pick(&state.events).key],
            8..=11 if !state.timers.is_empty() => [2, random.pick(&state.timers).address],
            4..=6 if !state.mutexes.is_empty() => [0, random.pick(&state.mutexes).0],
            _ => [3, self.thread(state)],
        }
    }

    /// A pair twice, or one of no object.
    fn spoil(&self, state: &State, pairs: &mut Vec<[u64; 2]>) {
        let random = self.random;
        let pair = match random.below(4) {
            0 if !pairs.is_empty() => random.pick(pairs),
            1 => [random.pick(&[4, 5, 1 << 32, u64::MAX]), self.key()],
            2 => [2, self.timer(state)],
            _ => [random.below(4), random.pick(&EDGES)],
        };
        let place = random.below(pairs.len() as u64 + 1) as usize;
        pairs.insert(place, pair);
    }
}
