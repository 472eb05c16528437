//! A machine of a lot: the result of its test, worked out of its bag sheet or as it was stored, and what shows its type.

use crate::files::{self, Tested};
use crate::numbers::grouped;
use crate::result_sheet::{weighted_of, WeightedGases};
use crate::{bags, lines};
use std::collections::HashSet;
use std::path::PathBuf;
use ylhovesko::bags::{Ends, Gases, Verdict};
use ylhovesko::lot::Record;

/// No result has these ends: the lower one lies above the upper one.
const NO_ENDS: Ends = Ends { lower: 1, upper: 0 };

/// What machines of one type have in common, by the keys of a bag sheet.
const TYPE_KEYS: [&str; 6] = ["class", "limit hc", "limit co", "limit nox", "limit co2", "limit nmhc"];

/// For each of them the first machine of a lot that has a value, and the value.
type Firsts<'a> = [Option<(&'a Machine, u64)>; TYPE_KEYS.len()];

pub struct Machine {
    pub path: PathBuf,
    /// A stored result does not say it.
    class: Option<u32>,
    pub weighted: WeightedGases,
}

impl Machine {
    /// The machine of a file; or the refusal of its bag sheet in words, with the file.
    pub fn of(tested: &Tested) -> Result<Machine, String> {
        match tested {
            Tested::Bags(bags) => {
                let weighted = weighted_of(bags.value.limits, &bags::result_of(bags)?);
                Ok(Machine { path: bags.path.clone(), class: Some(bags.value.class), weighted })
            }
            Tested::Stored(stored) => Ok(Machine { path: stored.path.clone(), class: None, weighted: stored.weighted }),
        }
    }

    /// The ends of each gas, in the paper's order; of one that is none, ends that the core refuses.
    pub fn ends(&self) -> [Ends; 5] {
        self.weighted.each.map(|gas| gas.map_or(NO_ENDS, |gas| gas.ends))
    }

    /// What the core reads of it: of NMHC, where the test does not have it, no more than that.
    pub fn record(&self) -> Record {
        let verdicts = self.weighted.each.map(|gas| gas.map_or(Verdict::NoVerdict, |gas| gas.verdict).number());
        Record { weighted: Gases::of(self.ends()), verdicts: Gases::of(verdicts), has_nmhc: self.weighted.has_nmhc.into() }
    }

    /// The values of [`TYPE_KEYS`], where its file has them.
    fn type_values(&self) -> [Option<u64>; TYPE_KEYS.len()] {
        let [hc, co, nox, co2, nmhc] = self.weighted.each.map(|gas| gas.map(|gas| gas.limit));
        [self.class.map(u64::from), hc, co, nox, co2, nmhc]
    }

    /// A note where such a value is not that of the first machine.
    fn type_note(&self, firsts: &Firsts) -> Option<String> {
        let unlike = TYPE_KEYS.iter().zip(self.type_values()).zip(firsts).filter_map(|((key, here), first)| {
            let (here, (machine, there)) = (here?, (*first)?);
            let told = || format!("{key} is {}, in {} it is {}", grouped(here.into()), machine.path.display(), grouped(there.into()));
            (here != there).then(told)
        });
        let unlike: Vec<String> = unlike.collect();
        (!unlike.is_empty()).then(|| format!("seems of another type: {}", unlike.join("; ")))
    }
}

/// What the core does not judge, for the operator to see: a machine that seems of another type than the first, and a file that is named again.
pub fn notes(machines: &[Machine]) -> String {
    let firsts: Firsts =
        std::array::from_fn(|key| machines.iter().find_map(|machine| machine.type_values()[key].map(|value| (machine, value))));
    let mut places = HashSet::new();
    let note = |machine: &Machine| {
        let is_new = places.insert(files::place(&machine.path).unwrap_or_else(|| machine.path.clone()));
        let again = (!is_new).then(|| "is named before, and is counted again".to_string());
        let said: Vec<String> = machine.type_note(&firsts).into_iter().chain(again).collect();
        lines(&machine.path, &said)
    };
    machines.iter().map(note).collect()
}
