//! The logs of a set that are asked more than the others.

/// One in so many: the first, and then each so many further on.
pub struct OneIn {
    every: u64,
    pub met: u64,
}

impl OneIn {
    pub fn new(every: u64) -> OneIn {
        OneIn { every, met: 0 }
    }

    /// Whether the next is one of them.
    pub fn has_the_next(&mut self) -> bool {
        let has = self.met % self.every == 0;
        self.met += 1;
        has
    }
}

/// The logs of a set that are asked more: of those that pass, which are asked all 64 × 64 pairs, and of the others, which are asked an
/// edge at all. A log is read anew for each question, so that all questions of every log would take too long.
pub struct Share {
    pub passing: OneIn,
    pub refused: OneIn,
}

impl Share {
    pub fn one_in(passing: u64, refused: u64) -> Share {
        Share {
            passing: OneIn::new(passing),
            refused: OneIn::new(refused),
        }
    }

    pub fn all() -> Share {
        Share::one_in(1, 1)
    }
}
