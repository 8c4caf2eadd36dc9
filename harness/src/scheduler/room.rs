//! Where a proved call writes what it answers.
use super::Limits;
use super::answer::{IMAGE_BYTES, RECORD_WORDS};
use super::proved::Lent;
use super::reference::Lengths;

/// What is in the room where no call may write.
pub const UNUSED: u64 = 0x5555_aaaa_3333_cccc;
const UNUSED_BYTE: u8 = 0xa5;
/// The most that is lent of each slice.
pub const OUT: usize = RECORD_WORDS + 2;
pub const WAITING: usize = Limits::MOST.threads as usize + 2;
pub const BYTES: usize = IMAGE_BYTES + 6;

#[derive(Clone, PartialEq, Eq)]
pub struct Room {
    pub out: [u64; OUT],
    pub waiting: [u64; WAITING],
    pub bytes: [u8; BYTES],
}

impl Room {
    pub fn unused() -> Self {
        Self {
            out: [UNUSED; OUT],
            waiting: [UNUSED; WAITING],
            bytes: [UNUSED_BYTE; BYTES],
        }
    }

    /// As much of everything as these lengths say.
    pub fn lent<'a>(&'a mut self, words: &'a mut [u64], lengths: Lengths) -> Lent<'a> {
        Lent {
            words: &mut words[..lengths.words],
            out: &mut self.out[..lengths.out],
            waiting: &mut self.waiting[..lengths.waiting],
            bytes: &mut self.bytes[..lengths.bytes],
        }
    }

    /// The most of everything but of the words, which are lent whole.
    pub fn most<'a>(&'a mut self, words: &'a mut [u64]) -> Lent<'a> {
        let lengths = Lengths {
            words: words.len(),
            out: OUT,
            waiting: WAITING,
            bytes: BYTES,
        };
        self.lent(words, lengths)
    }

    /// The answer's words as far as something is written.
    pub fn written(&self) -> &[u64] {
        let end = self.out.iter().rposition(|word| *word != UNUSED);
        &self.out[..end.map_or(0, |end| end + 1)]
    }

    /// Whether the answer's words stand at the start, those known, and nothing is written behind
    /// them; words behind them below `cleared` may be 0 too.
    pub fn has_answer(&self, answer: &[Option<u64>], cleared: usize) -> bool {
        let places = self.out.iter().enumerate();
        places
            .map(|(place, word)| (place, *word))
            .all(|(place, word)| match answer.get(place) {
                Some(known) => known.is_none_or(|known| known == word),
                None => word == UNUSED || place < cleared && word == 0,
            })
    }

    pub fn has_waiting(&self, waiting: &[u64]) -> bool {
        let rest = self.waiting.iter().skip(waiting.len());
        self.waiting.starts_with(waiting) && rest.copied().all(|word| word == UNUSED)
    }

    pub fn has_image(&self, image: &[u8]) -> bool {
        let rest = self.bytes.iter().skip(image.len());
        self.bytes.starts_with(image) && rest.copied().all(|byte| byte == UNUSED_BYTE)
    }
}
