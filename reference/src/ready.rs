//! The two ready lines, and the choosing between them.

use std::collections::VecDeque;

/// "four high ones in a row"
pub(crate) const IN_A_ROW: u8 = 4;

#[derive(Clone, Debug, Default, PartialEq, Eq)]
pub(crate) struct Ready {
    pub(crate) high: VecDeque<usize>,
    pub(crate) low: VecDeque<usize>,
    /// "The count of four": the high ones that were chosen in a row while a low one was waiting.
    pub(crate) count: u8,
}

impl Ready {
    /// "first of the high line, or of the low if that is empty, but when four high ones in a row
    /// were chosen while a low one was waiting, the first low one". "The count of four returns to
    /// nought when a low one is chosen, or at a choice made with the low line empty." With both lines
    /// empty there is no choice, and the count stays.
    pub(crate) fn choose(&mut self) -> Option<usize> {
        let low_waits = !self.low.is_empty();
        if low_waits && (self.high.is_empty() || self.count == IN_A_ROW) {
            self.count = 0;
            return self.low.pop_front();
        }
        let slot = self.high.pop_front()?;
        self.count = if low_waits { self.count + 1 } else { 0 };
        Some(slot)
    }

    pub(crate) fn is_empty(&self) -> bool {
        self.high.is_empty() && self.low.is_empty()
    }

    /// The slots of both lines, the high one first.
    pub(crate) fn slots(&self) -> impl Iterator<Item = usize> + '_ {
        self.high.iter().chain(&self.low).copied()
    }
}
