//! The normal and the reduced trace of a cycle, as a bench has them beside its reduced-speed switch.

use crate::refusals::line;
use crate::trace::{self, Trace};
use crate::{files, Failure};
use std::path::Path;
use ylhovesko::gear::{choose, judge_pair, judge_trace};
use ylhovesko::Refusal;

pub struct Pair {
    normal: Trace,
    reduced: Trace,
}

impl Pair {
    pub fn read(normal: &Path, reduced: &Path) -> Result<Pair, Failure> {
        Ok(Pair { normal: files::trace(normal)?, reduced: files::trace(reduced)? })
    }

    pub fn notes(&self) -> String {
        format!("{}{}", self.normal.notes, self.reduced.notes)
    }

    /// Both names, and that the pair is accepted; or which of the two is refused, and why.
    pub fn judged(&self) -> Result<String, String> {
        let both = format!("{} and {}", self.normal.path.display(), self.reduced.path.display());
        match judge_pair(&self.normal.bytes, &self.reduced.bytes) {
            Ok(()) => Ok(format!("{both}: accepted")),
            Err(refusal) => Err(self.told(refusal, &both)),
        }
    }

    /// The refusal itself does not say of which trace it is. The normal one is judged first, so it is the normal one's where that is refused alone.
    fn told(&self, refusal: Refusal, both: &str) -> String {
        let Pair { normal, reduced } = self;
        for (Trace { path, bytes, .. }, word) in [(normal, "normal"), (reduced, "reduced")] {
            if judge_trace(bytes) == Err(refusal) {
                return format!("{}, the {word} trace: {}", path.display(), line(refusal, &trace::found(bytes, refusal)));
            }
        }
        format!("{both}: {}", line(refusal, &trace::found_in_pair(&normal.bytes, &reduced.bytes)))
    }

    /// The trace that the switch names, with its file; none where the pair is refused.
    pub fn chosen(&self, reduced_speed: bool) -> (&Path, &[u8]) {
        let named = if reduced_speed { &self.reduced } else { &self.normal };
        (&named.path, choose(&self.normal.bytes, &self.reduced.bytes, reduced_speed))
    }
}
