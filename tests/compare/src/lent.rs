//! Words lent to a call, between margins that no call may touch. Every word
//! has a value of its own before the call, so that any change shows.

const MARGIN: usize = 32;

pub struct Lent {
    words: Vec<u32>,
}

/// What word `at` of the whole holds before the call.
fn pattern(at: usize) -> u32 {
    (at as u32).wrapping_mul(0x9E37_79B1) ^ 0xA5A5_5A5A
}

impl Lent {
    pub fn new(words: usize) -> Lent {
        Lent {
            words: (0..words + 2 * MARGIN).map(pattern).collect(),
        }
    }

    /// The lent words.
    pub fn words(&mut self) -> &mut [u32] {
        let end = self.words.len() - MARGIN;
        &mut self.words[MARGIN..end]
    }

    /// The first lent word from `from` on, or behind them all, that is not
    /// what it was.
    pub fn changed_from(&self, from: usize) -> Option<usize> {
        (from + MARGIN..self.words.len())
            .find(|&at| self.words[at] != pattern(at))
            .map(|at| at - MARGIN)
    }

    /// Is a word before the lent ones, or behind them, not what it was?
    pub fn overrun(&self) -> bool {
        let end = self.words.len() - MARGIN;
        let mut margins = (0..MARGIN).chain(end..self.words.len());
        margins.any(|at| self.words[at] != pattern(at))
    }
}
