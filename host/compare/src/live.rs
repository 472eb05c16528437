//! Cases of the live engine (02, M-110): as stored, as made from those of the gear sheet, and what an engine says of one.

use std::fmt;

use ylhovesko::gear::Vehicle;
use ylhovesko::live::Second;

use crate::gear::{plain_vehicle, vehicle_of, vehicle_text};
use crate::{core_told, gear, hex, plain_told, unhex, Told};

/// The version that a trace is named with, the vehicle, and the seconds as they arrive, four bytes each.
#[derive(Clone, PartialEq, Eq)]
pub struct Case {
    pub version: u32,
    pub vehicle: Vehicle,
    pub seconds: Vec<[u8; 4]>,
}

/// The case as a line of vectors/M-110-live.txt has it, up to its answers.
impl fmt::Display for Case {
    fn fmt(&self, f: &mut fmt::Formatter) -> fmt::Result {
        let seconds = self.seconds.as_flattened();
        write!(f, "{} {} {} {}", self.version, vehicle_text(&self.vehicle), self.seconds.len(), hex(seconds))
    }
}

/// A case of the gear sheet, named with the version of its file; nothing where the file has no whole head or another length than its count says.
pub fn of_gear(case: &gear::Case) -> Option<Case> {
    let version = crate::trace::version(&case.trace)?;
    let count = usize::from(u16::from_le_bytes([case.trace[6], case.trace[7]]));
    let (seconds, rest) = case.trace[8..].as_chunks();
    let whole = rest.is_empty() && seconds.len() == count;
    whole.then(|| Case { version: version.into(), vehicle: case.vehicle, seconds: seconds.to_vec() })
}

/// What a call answers: its number and place, and two bytes for each second that it gives.
pub type Call = (Told, Vec<u8>);

/// What an engine says of the start, of every second and of the end. After a refusal there is nothing: every further call has answered that refusal again, and
/// has given nothing.
#[derive(Clone, Debug, PartialEq, Eq)]
pub struct Answer {
    pub begin: Told,
    pub calls: Vec<Option<Call>>,
}

impl Answer {
    /// All bytes that were given.
    pub fn given(&self) -> Vec<u8> {
        self.calls.iter().flatten().flat_map(|(_, given)| given.clone()).collect()
    }

    /// The one refusal, if there is one.
    pub fn refusal(&self) -> Option<Told> {
        let all = [self.begin].into_iter().chain(self.calls.iter().flatten().map(|(told, _)| *told));
        all.into_iter().find(|told| told[0] != 0)
    }
}

/// The answer as a line of vectors/M-110-live.txt has it after the case.
impl fmt::Display for Answer {
    fn fmt(&self, f: &mut fmt::Formatter) -> fmt::Result {
        write!(f, "{} {}", self.begin[0], self.begin[1])?;
        self.calls.iter().try_for_each(|call| match call {
            Some((told, given)) => write!(f, " {} {} {}", told[0], told[1], hex(given)),
            None => write!(f, " - - -"),
        })
    }
}

/// The case and the answers of a line of vectors/M-110-live.txt or vectors/directed_live.txt.
pub fn read(text: &str) -> (Case, Answer) {
    let words: Vec<&str> = text.split(' ').collect();
    let n: Vec<u32> = words[..16].iter().map(|word| word.parse().unwrap()).collect();
    let seconds = unhex(words[16]).as_chunks().0.to_vec();
    let case = Case { version: n[0], vehicle: vehicle_of(std::array::from_fn(|at| n[1 + at])), seconds };
    assert!(case.seconds.len() == n[15] as usize && words.len() == 22 + 3 * case.seconds.len(), "{text}");
    let told = |number: &str, place: &str| [number.parse().unwrap(), place.parse().unwrap(), 0, 0];
    let call = |words: &[&str]| match words {
        ["-", "-", "-"] => None,
        [number, place, given] => Some((told(number, place), unhex(given))),
        _ => panic!("{words:?}"),
    };
    let answer = Answer { begin: told(words[17], words[18]), calls: words[19..].chunks(3).map(call).collect() };
    (case, answer)
}

/// A live engine, whichever it is. One that refused the start does not exist, and nothing can be asked of it.
pub trait Engine: Clone {
    fn begin(version: u32, vehicle: &Vehicle) -> Result<Self, Told>;
    fn second(&mut self, second: [u8; 4]) -> Call;
    fn end(&self) -> Call;
}

/// What a call of the core answers.
pub fn core_call(answer: Result<Vec<[u8; 2]>, ylhovesko::Refusal>) -> Call {
    let given = answer.as_ref().map_or_else(|_| Vec::new(), |given| given.as_flattened().to_vec());
    (core_told(answer.map(|_| ())), given)
}

impl Engine for ylhovesko::live::Live {
    fn begin(version: u32, vehicle: &Vehicle) -> Result<Self, Told> {
        Self::begin(version, *vehicle).map_err(|refusal| core_told(Err(refusal)))
    }

    fn second(&mut self, [low, high, flags, fourth]: [u8; 4]) -> Call {
        let second = Second { speed: u16::from_le_bytes([low, high]), flags, fourth };
        core_call(self.second(second).map(|given| Vec::from_iter(given)))
    }

    fn end(&self) -> Call {
        core_call(self.end())
    }
}

fn plain_call(answer: Result<Vec<[u8; 2]>, plain::Refusal>) -> Call {
    let given = answer.as_ref().map_or_else(|_| Vec::new(), |given| given.as_flattened().to_vec());
    (plain_told(answer.map(|_| ())), given)
}

impl Engine for plain::live::Live {
    fn begin(version: u32, vehicle: &Vehicle) -> Result<Self, Told> {
        Self::begin(version, &plain_vehicle(vehicle)).map_err(|refusal| plain_told(Err(refusal)))
    }

    fn second(&mut self, second: [u8; 4]) -> Call {
        plain_call(self.second(second).map(|given| Vec::from_iter(given)))
    }

    fn end(&self) -> Call {
        plain_call(self.end())
    }
}

/// The answers of an engine from some state on. Stops where a call after a refusal does not answer it again, or gives something.
fn calls(mut engine: impl Engine, seconds: &[[u8; 4]]) -> Vec<Option<Call>> {
    let mut refused: Option<Call> = None;
    let mut after = |call: Call| match &refused {
        Some(refusal) => {
            assert_eq!(&call, refusal, "a call after a refusal answers it again");
            None
        }
        None => {
            if call.0[0] != 0 {
                assert!(call.1.is_empty(), "a refused call gives something: {call:?}");
                refused = Some(call.clone());
            }
            Some(call)
        }
    };
    let mut all: Vec<_> = seconds.iter().map(|second| after(engine.second(*second))).collect();
    all.push(after(engine.end()));
    all
}

/// What an engine says of a case.
pub fn by<E: Engine>(case: &Case) -> Answer {
    match E::begin(case.version, &case.vehicle) {
        Err(begin) => Answer { begin, calls: vec![None; case.seconds.len() + 1] },
        Ok(engine) => Answer { begin: [0; 4], calls: calls(engine, &case.seconds) },
    }
}

/// What the proved core says.
pub fn by_core(case: &Case) -> Answer {
    by::<ylhovesko::live::Live>(case)
}

/// What the second implementation says.
pub fn by_plain(case: &Case) -> Answer {
    by::<plain::live::Live>(case)
}

/// What an engine says from the state before some second on, after that state was kept, other seconds went through a copy of it, the end was asked for, and the
/// kept one was gone on from; only of a case whose start is taken.
pub fn gone_on_from<E: Engine>(case: &Case, second: usize, others: &[[u8; 4]]) -> Vec<Option<Call>> {
    let mut engine = E::begin(case.version, &case.vehicle).expect("the start is taken");
    case.seconds[..second].iter().for_each(|each| drop(engine.second(*each)));
    let older = engine.clone();
    drop(calls(engine, others));
    let _ = older.end();
    calls(older, &case.seconds[second..])
}
