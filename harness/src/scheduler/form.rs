//! Whether words are in form, after document 01's list and docs/DECISIONS.md. Written apart from the proved check.
use super::Limits;
use super::answer::record::{backing_words, location};
use super::words::*;
use emumee::pe::Architecture;
use std::collections::{BTreeMap, BTreeSet};

const MOST_WAITED: u64 = 64;
const LIFETIME: u64 = 65_536;

/// What a clause says, where the words break it.
type Fault = &'static str;

/// The first clause that the words break.
pub fn fault(words: &[u64]) -> Option<Fault> {
    let limits = Limits::new(words[0], words[1], words[2]);
    if limits.are_bad() {
        return Some("limits");
    }
    if words.len() < limits.words() {
        return Some("length");
    }
    let form = Form::new(words, limits);
    let clauses = [
        Form::counts,
        Form::header,
        Form::threads,
        Form::waits,
        Form::objects,
        Form::timers,
        Form::dpcs,
        Form::thread_chains,
        Form::queue,
        Form::work,
    ];
    clauses.into_iter().find_map(|clause| clause(&form).err())
}

struct Form<'a> {
    words: &'a [u64],
    limits: Limits,
    /// Where each object and each DPC stands, by key; the last of those with one key.
    objects: BTreeMap<u64, usize>,
    dpcs: BTreeMap<u64, usize>,
}

fn holds(clause: bool, fault: Fault) -> Result<(), Fault> {
    if clause { Ok(()) } else { Err(fault) }
}

impl<'a> Form<'a> {
    fn new(words: &'a [u64], limits: Limits) -> Self {
        let objects = (0..words[OBJECTS].min(limits.objects)).map(|i| object_at(limits, i));
        let dpcs = (0..words[DPCS].min(limits.dpcs)).map(|i| dpc_at(limits, i));
        let by_key = |place: usize| (words[place + KEY], place);
        Self {
            words,
            limits,
            objects: objects.map(by_key).collect(),
            dpcs: dpcs.map(by_key).collect(),
        }
    }

    fn threads_in_use(&self) -> impl Iterator<Item = (u64, &[u64])> {
        (1..=self.words[THREADS]).map(|id| (id, &self.words[thread_at(id)..][..THREAD_WORDS]))
    }

    fn objects_in_use(&self) -> impl Iterator<Item = &[u64]> {
        let places = (0..self.words[OBJECTS]).map(|index| object_at(self.limits, index));
        places.map(|place| &self.words[place..][..OBJECT_WORDS])
    }

    fn timers_in_use(&self) -> impl Iterator<Item = &[u64]> {
        self.objects_in_use().filter(|object| object[KIND] == 2)
    }

    fn dpcs_in_use(&self) -> impl Iterator<Item = &[u64]> {
        let places = (0..self.words[DPCS]).map(|index| dpc_at(self.limits, index));
        places.map(|place| &self.words[place..][..DPC_WORDS])
    }

    fn counts(&self) -> Result<(), Fault> {
        let Limits {
            threads,
            objects,
            dpcs,
        } = self.limits;
        let words = self.words;
        holds((1..=threads).contains(&words[THREADS]), "thread count")?;
        holds(words[OBJECTS] <= objects, "object count")?;
        holds(words[DPCS] <= dpcs, "DPC count")
    }

    fn header(&self) -> Result<(), Fault> {
        let words = self.words;
        holds(words[CURRENT] <= words[THREADS], "current thread")?;
        holds(
            words[READY] < 1 << 32 && words[READY] & 1 == 0,
            "ready word",
        )?;
        let [first, second] = [words[TIMER_ARGUMENTS], words[TIMER_ARGUMENTS + 1]];
        holds(
            match words[POLICY] {
                0 => first == 0 && second == 0,
                1 => first != 0 && second != 0 && first != second,
                _ => false,
            },
            "policy",
        )?;
        holds(words[ACCEPTED] <= LIFETIME, "acceptances")?;
        holds(
            words[TIMER_INITIALIZATIONS] <= LIFETIME && words[DPC_INITIALIZATIONS] <= LIFETIME,
            "initializations",
        )
    }

    fn threads(&self) -> Result<(), Fault> {
        for (id, thread) in self.threads_in_use() {
            holds((1..=31).contains(&thread[PRIORITY]), "priority")?;
            holds((1..=4).contains(&thread[STATE]), "thread's state")?;
            holds(thread[RESULT] <= MOST_WAITED + 1, "wait result")?;
            holds(thread[STATUS] < 1 << 32, "exit status")?;
            holds(
                thread[STATE] == 4 || thread[STATUS] == 0,
                "no exit, no exit status",
            )?;
            holds(
                (thread[STATE] == 1) == (self.words[CURRENT] == id),
                "only the current one runs",
            )?;
        }
        Ok(())
    }

    fn waits(&self) -> Result<(), Fault> {
        for (_, thread) in self.threads_in_use() {
            holds(thread[ALL] < 2 && thread[TIMED] < 2, "wait's flags")?;
            holds(thread[COUNT] <= MOST_WAITED, "wait's count")?;
            let list = &thread[PLACES..][..2 * thread[COUNT] as usize];
            let (pairs, _) = list.as_chunks::<2>();
            holds(pairs.iter().all(|[kind, _]| *kind < 4), "wait's kinds")?;
            if thread[STATE] != 3 {
                continue;
            }
            holds(
                !pairs.is_empty() || thread[TIMED] == 1,
                "a delay has a deadline",
            )?;
            holds(
                pairs.iter().all(|pair| self.exists(*pair)),
                "waited objects exist",
            )?;
            let distinct: BTreeSet<&[u64; 2]> = pairs.iter().collect();
            holds(
                distinct.len() == pairs.len(),
                "no wait list names one twice",
            )?;
        }
        Ok(())
    }

    fn exists(&self, [kind, key]: [u64; 2]) -> bool {
        match kind {
            3 => (1..=self.words[THREADS]).contains(&key),
            _ => self
                .objects
                .get(&key)
                .is_some_and(|place| self.words[place + KIND] == kind),
        }
    }

    fn objects(&self) -> Result<(), Fault> {
        let keys: Vec<u64> = self.objects_in_use().map(|object| object[KEY]).collect();
        holds(!keys.contains(&0), "key 0")?;
        holds(keys.is_sorted_by(|a, b| a < b), "keys rise")?;
        for object in self.objects_in_use() {
            match object[KIND] {
                0 => {
                    holds(
                        object[OWNER] == 0 || self.is_live(object[OWNER]),
                        "owners are live",
                    )?;
                    let flags = [object[MANUAL], object[SIGNALED]];
                    holds(flags == [0, 0], "a mutex has no flags")?;
                }
                1 => holds(object[MANUAL] < 2 && object[SIGNALED] < 2, "event's flags")?,
                2 => {}
                _ => return Err("object's kind"),
            }
            holds(
                object[KIND] == 0 || object[OWNER] == 0,
                "what is no mutex has no owner",
            )?;
        }
        Ok(())
    }

    fn is_live(&self, id: u64) -> bool {
        (1..=self.words[THREADS]).contains(&id) && self.words[thread_at(id) + STATE] != 4
    }

    fn timers(&self) -> Result<(), Fault> {
        for timer in self.timers_in_use() {
            let flags = [MANUAL, SIGNALED, INSERTED, ABSOLUTE];
            holds(
                flags.into_iter().all(|flag| timer[flag] < 2),
                "timer's flags",
            )?;
            holds(timer[PERIOD] <= i32::MAX as u64, "period")?;
            let given = 1..=self.words[TIMER_INITIALIZATIONS];
            holds(
                given.contains(&timer[INITIALIZATION]),
                "timer's initialization",
            )?;
            holds(is_placed(timer, TIMER_LOCATION, [64, 40]), "timer's place")?;
            if timer[INSERTED] == 1 && timer[TIMER_DPC] != 0 {
                let dpc = self.dpcs.get(&timer[TIMER_DPC]);
                let dpc = dpc.ok_or("an inserted timer's DPC exists")?;
                let serves = self.words[dpc + NAMED_BY];
                holds(serves == timer[KEY], "a timer's DPC serves no other")?;
            }
        }
        Ok(())
    }

    fn dpcs(&self) -> Result<(), Fault> {
        let addresses: Vec<u64> = self.dpcs_in_use().map(|dpc| dpc[KEY]).collect();
        for dpc in self.dpcs_in_use() {
            holds(dpc[PHASE] < 4, "phase")?;
            holds(is_placed(dpc, DPC_LOCATION, [64, 32]), "DPC's place")?;
            holds(
                !self.objects.contains_key(&dpc[KEY]),
                "a DPC's address is no object's key",
            )?;
            if dpc[PHASE] != 0 {
                let work = &dpc[WORK..];
                holds(work[3] < 2 && work[9] < 2, "work's flags")?;
                holds(
                    work[3] == 1 || work[4..10] == [0; 6],
                    "work of no timer names none",
                )?;
                holds(
                    (1..=self.words[ACCEPTED]).contains(&work[0]),
                    "work's sequence was given",
                )?;
            }
            holds(
                dpc[NAMED_BY] == 0 || self.has_dpc(dpc[NAMED_BY], dpc[KEY]),
                "a DPC is named by a timer that has it",
            )?;
        }
        holds(addresses.is_sorted_by(|a, b| a < b), "addresses rise")
    }

    fn has_dpc(&self, key: u64, dpc: u64) -> bool {
        self.objects.get(&key).is_some_and(|place| {
            let timer = &self.words[*place..];
            timer[KIND] == 2 && timer[INSERTED] == 1 && timer[TIMER_DPC] == dpc
        })
    }

    /// The waiters by rising sequence, and the ready queues.
    fn thread_chains(&self) -> Result<(), Fault> {
        let words = self.words;
        let waiters = self.thread_chain((WAITERS_FIRST, WAITERS_LAST), NEXT_WAITER);
        let waiters = waiters.ok_or("waiters' chain")?;
        let sequence = |id: &u64| words[thread_at(*id) + WAIT_SEQUENCE];
        holds(self.are(&waiters, |thread| thread[STATE] == 3), "waiters")?;
        let mut sequences: Vec<u64> = waiters.iter().map(sequence).collect();
        sequences.push(words[SEQUENCE]);
        holds(
            sequences.is_sorted_by(|a, b| a < b),
            "wait sequences rise below the next",
        )?;
        for priority in 1..32 {
            let ends = (READY_FIRST + priority, READY_LAST + priority);
            let queue = self.thread_chain(ends, NEXT_READY).ok_or("ready queue")?;
            let is_ready =
                |thread: &[u64]| thread[STATE] == 2 && thread[PRIORITY] == priority as u64;
            holds(self.are(&queue, is_ready), "ready threads")?;
            holds(
                (words[READY] >> priority & 1 == 1) != queue.is_empty(),
                "bit of a ready queue",
            )?;
        }
        Ok(())
    }

    fn thread_chain(&self, ends: (usize, usize), link: usize) -> Option<Vec<u64>> {
        let next = |id| self.words[thread_at(id) + link];
        chain(self.words, ends, self.words[THREADS], next)
    }

    /// Whether the chain holds the threads that pass, each once.
    fn are(&self, chain: &[u64], passes: impl Fn(&[u64]) -> bool) -> bool {
        let members: BTreeSet<u64> = chain.iter().copied().collect();
        let passing = self.threads_in_use().filter(|(_, thread)| passes(thread));
        members.len() == chain.len() && members.into_iter().eq(passing.map(|(id, _)| id))
    }

    fn queue(&self) -> Result<(), Fault> {
        let next = |number| self.words[dpc_at(self.limits, number - 1) + NEXT_QUEUED];
        let queue = chain(
            self.words,
            (QUEUE_FIRST, QUEUE_LAST),
            self.words[DPCS],
            next,
        );
        let queue = queue.ok_or("DPC queue")?;
        let members: BTreeSet<u64> = queue.iter().copied().collect();
        let queued = (1..).zip(self.dpcs_in_use());
        let queued = queued.filter(|(_, dpc)| dpc[PHASE] == 1);
        holds(
            members.len() == queue.len()
                && members.into_iter().eq(queued.map(|(number, _)| number)),
            "queued DPCs",
        )
    }

    fn work(&self) -> Result<(), Fault> {
        let words = self.words;
        let count = |phase: u64| self.dpcs_in_use().filter(|dpc| dpc[PHASE] == phase).count();
        let [queued, running, returning] = [1, 2, 3].map(|phase| count(phase) as u128);
        let active = running + returning;
        let [accepted, removed, started, returned, restored] =
            [ACCEPTED, REMOVED, STARTED, RETURNED, RESTORED].map(|at| u128::from(words[at]));
        holds(accepted == removed + restored + queued + active, "the sum")?;
        holds(active < 2, "one work is active")?;
        holds(started == restored + active, "starts")?;
        holds(returned == restored + returning, "returns")?;
        let named = self.dpcs.get(&words[ACTIVE]);
        holds(
            match words[ACTIVE] {
                0 => active == 0,
                _ => named.is_some_and(|place| words[place + PHASE] > 1),
            },
            "the active work's address",
        )
    }
}

/// Whether the five words of the location, from `from` on, let the record stand at its address with
/// the size for x64 or for x86.
fn is_placed(record: &[u64], from: usize, sizes: [u64; 2]) -> bool {
    let Some((architecture, backing)) = location(&record[from..]) else {
        return false;
    };
    let (size, top) = match architecture {
        Architecture::X64 => (sizes[0], u64::MAX),
        Architecture::X86 => (sizes[1], 1 << 32),
    };
    let [kind, base, length, mapped] = backing_words(backing);
    let address = record[KEY];
    let end = u128::from(address) + u128::from(size);
    address != 0
        && address.is_multiple_of(architecture.width() as u64)
        && end <= u128::from(top)
        && base <= address
        && end <= u128::from(base) + u128::from(length)
        && u128::from(base) + u128::from(length) <= u128::from(u64::MAX)
        && match kind {
            0 => record[from + 4] == 0,
            _ => length <= mapped,
        }
}
