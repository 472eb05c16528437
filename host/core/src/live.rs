//! The live engine: the gears of a trace while it is still arriving.

use crate::gear::Vehicle;
use crate::{agreed, calls, Outcome, Refusal};

/// A second as the house file has it; `ylhovesko_second` of include/ylhovesko.h.
#[repr(C)]
#[derive(Clone, Copy, Debug, PartialEq, Eq)]
pub struct Second {
    /// In 0.1 km/h.
    pub speed: u16,
    pub flags: u8,
    pub fourth: u8,
}

/// What crosses the boundary in both directions; `ylhovesko_live` of include/ylhovesko.h. Every bit pattern is answered.
#[repr(C)]
#[derive(Clone, Copy)]
pub(crate) struct State {
    pub outcome: Outcome,
    pub kept: [u32; 34],
}

/// `ylhovesko_given` of include/ylhovesko.h.
#[repr(C)]
#[derive(Clone, Copy)]
pub(crate) struct Given {
    pub count: u32,
    pub bytes: [u8; 10],
}

impl Given {
    /// Two bytes for each second: the gear and the clutch.
    fn seconds(&self) -> &[[u8; 2]] {
        let (given, rest) = self.bytes.split_at(2 * self.count as usize);
        assert!(rest.iter().all(|byte| *byte == 0), "what is not given is 0");
        given.as_chunks().0
    }
}

/// `ylhovesko_live_answer` of include/ylhovesko.h.
#[repr(C)]
pub(crate) struct Answer {
    pub state: State,
    pub given: Given,
}

/// `ylhovesko_live_last` of include/ylhovesko.h.
#[repr(C)]
pub(crate) struct Last {
    pub outcome: Outcome,
    pub given: Given,
}

/// The engine of one trace. Once it has refused, every further call answers that refusal.
///
/// ```
/// use ylhovesko::gear::Vehicle;
/// use ylhovesko::live::{Live, Second};
/// let vehicle = Vehicle { power: 300, mass: 200, rated: 8000, idle: 1200, gears: 3, ndv: [20_000, 12_000, 9_000, 0, 0, 0, 0, 0], rule_set: 1 };
/// let stop = Second { speed: 0, flags: 0, fourth: 0 };
/// let mut live = Live::begin(2, vehicle).unwrap();
/// for _ in 0..5 {
///     assert_eq!(live.second(stop), Ok(None));
/// }
/// // the first of six stop seconds is in neutral, with the clutch out
/// assert_eq!(live.second(stop), Ok(Some([0, 1])));
/// assert_eq!(live.end().unwrap(), [[1, 1]; 5]);
/// assert_eq!(Live::begin(3, vehicle).err().unwrap().number, 1);
/// ```
#[derive(Clone)]
pub struct Live {
    state: State,
}

impl Live {
    /// Refusals 1 and 5 to 7.
    pub fn begin(version: u32, vehicle: Vehicle) -> Result<Live, Refusal> {
        agreed();
        let state = calls::live_begin(version, vehicle);
        state.outcome.told().map(|()| Live { state })
    }

    /// The gear and clutch of the fifth second before this one, if there is one; refusals 2, 4, 20 and 9.
    pub fn second(&mut self, second: Second) -> Result<Option<[u8; 2]>, Refusal> {
        let Answer { state, given } = calls::live_second(self.state, second);
        self.state = state;
        let given = given.seconds();
        let told = state.outcome.told();
        assert!(given.len() <= 1 && (told.is_ok() || given.is_empty()), "a second gives one second at most, a refused one none");
        told.map(|()| given.first().copied())
    }

    /// The gears and clutches of the seconds that are left; refusal 2.
    pub fn end(&self) -> Result<Vec<[u8; 2]>, Refusal> {
        let Last { outcome, given } = calls::live_end(self.state);
        let given = given.seconds();
        let told = outcome.told();
        assert!(told.is_ok() || given.is_empty(), "a refusal has nothing beside it");
        told.map(|()| given.to_vec())
    }
}
