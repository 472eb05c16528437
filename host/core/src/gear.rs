//! The gear sheet: a trace and a vehicle become a gear and a clutch for each second.

use crate::{agreed, calls, Ends, Outcome, Refusal};

/// The vehicle sheet; `ylhovesko_vehicle` of include/ylhovesko.h, which has the units and ranges. Only the first `gears` of `ndv` are read.
#[repr(C)]
#[derive(Clone, Copy, Debug, PartialEq, Eq)]
pub struct Vehicle {
    pub power: u32,
    pub mass: u32,
    pub rated: u32,
    pub idle: u32,
    pub gears: u32,
    pub ndv: [u32; 8],
    pub rule_set: u32,
}

/// Writes the gear and the clutch of every second of the trace into the buffer from the byte `start` on; or gives the first of the refusals 1 to
/// 7, 20, 8 and 9, and the buffer stays as it was.
///
/// ```
/// use ylhovesko::gear::{gears, Vehicle};
/// let vehicle = Vehicle { power: 300, mass: 200, rated: 8000, idle: 1200, gears: 3, ndv: [20_000, 12_000, 9_000, 0, 0, 0, 0, 0], rule_set: 1 };
/// let stop = [b'W', b'T', b'R', 0, 1, 0, 1, 0, 0, 0, 0, 0];
/// let mut buffer = [7; 4];
/// gears(&stop, vehicle, &mut buffer, 1).unwrap();
/// assert_eq!(buffer, [7, 1, 1, 7]);
/// assert_eq!(gears(&stop, vehicle, &mut buffer, 3).unwrap_err().number, 8);
/// ```
pub fn gears(trace: &[u8], vehicle: Vehicle, buffer: &mut [u8], start: usize) -> Result<(), Refusal> {
    agreed();
    calls::gears(trace, vehicle, buffer, start).told()
}

/// What crosses the boundary in place of a `Result`; `ylhovesko_speeds` of include/ylhovesko.h.
#[repr(C)]
pub(crate) struct SpeedsOutcome {
    pub outcome: Outcome,
    pub count: u32,
    pub upshift: [Ends; 7],
    pub to_first: Ends,
}

/// The shift speeds of a vehicle, in 0.001 km/h.
#[derive(Clone, Debug, PartialEq, Eq)]
pub struct ShiftSpeeds {
    upshifts: Vec<Ends>,
    to_first: Option<Ends>,
}

impl ShiftSpeeds {
    /// From each gear but the last to the next, beginning with gear 1.
    pub fn upshifts(&self) -> &[Ends] {
        &self.upshifts
    }

    /// From each gear to the one before, beginning with gear 3. The first is the upshift 1 to 2, and so on: the upshift of two gears below.
    pub fn downshifts(&self) -> &[Ends] {
        &self.upshifts[..self.upshifts.len() - 1]
    }

    /// From gear 2 to gear 1, which rule set 2 alone has.
    pub fn to_first(&self) -> Option<Ends> {
        self.to_first
    }
}

/// The shift speeds of a vehicle; or the first of the refusals 5 to 7.
///
/// ```
/// use ylhovesko::gear::{shift_speeds, Vehicle};
/// use ylhovesko::Ends;
/// let vehicle = Vehicle { power: 300, mass: 200, rated: 8000, idle: 1200, gears: 3, ndv: [20_000, 12_000, 9_000, 0, 0, 0, 0, 0], rule_set: 1 };
/// let speeds = shift_speeds(vehicle).unwrap();
/// assert_eq!(speeds.upshifts(), [Ends { lower: 18_498, upper: 18_499 }, Ends { lower: 36_497, upper: 36_498 }]);
/// assert_eq!(speeds.downshifts(), &speeds.upshifts()[..1]);
/// assert_eq!(speeds.to_first(), None);
/// let by_set_2 = shift_speeds(Vehicle { rule_set: 2, ..vehicle }).unwrap();
/// assert_eq!(by_set_2.to_first(), Some(Ends { lower: 11_700, upper: 11_700 }));
/// assert_eq!(shift_speeds(Vehicle { gears: 9, ..vehicle }).unwrap_err().number, 5);
/// ```
pub fn shift_speeds(vehicle: Vehicle) -> Result<ShiftSpeeds, Refusal> {
    agreed();
    let SpeedsOutcome { outcome, count, upshift, to_first } = calls::shift_speeds(vehicle);
    let told = outcome.told();
    let (given, rest) = upshift.split_at(count as usize);
    let to_first = Some(to_first).filter(|ends| *ends != Ends::default());
    assert!(rest.iter().all(|ends| *ends == Ends::default()) && (count == 0) == told.is_err(), "what is not given is 0");
    assert_eq!(to_first.is_some(), told.is_ok() && vehicle.rule_set == 2, "what is not given is 0");
    told.map(|()| ShiftSpeeds { upshifts: given.to_vec(), to_first })
}

/// What crosses the boundary in place of a `Result`; `ylhovesko_tenths` of include/ylhovesko.h.
#[repr(C)]
pub(crate) struct TenthsOutcome {
    pub outcome: Outcome,
    pub count: u32,
    pub above: [u32; 7],
    pub not_below: [u32; 7],
    pub to_first: u32,
}

/// A shift speed in whole tenths of a km/h: a speed is above it from `above` on, below it under `not_below`, and else too close to call.
#[derive(Clone, Copy, Debug, PartialEq, Eq)]
pub struct Tenths {
    pub above: u32,
    pub not_below: u32,
}

impl Tenths {
    /// The tenth that is too close to call, if there is one.
    pub fn too_close(self) -> Option<u32> {
        (self.not_below < self.above).then_some(self.not_below)
    }
}

/// The shift speeds of a vehicle as gears are chosen by them, in whole tenths of a km/h.
#[derive(Clone, Debug, PartialEq, Eq)]
pub struct ShiftTenths {
    upshifts: Vec<Tenths>,
    to_first: Option<u32>,
}

impl ShiftTenths {
    /// From each gear but the last to the next, beginning with gear 1.
    pub fn upshifts(&self) -> &[Tenths] {
        &self.upshifts
    }

    /// From each gear to the one before, beginning with gear 3: the upshift of two gears below.
    pub fn downshifts(&self) -> &[Tenths] {
        &self.upshifts[..self.upshifts.len() - 1]
    }

    /// The least tenth at or above the downshift from gear 2 to gear 1, which rule set 2 alone has.
    pub fn to_first(&self) -> Option<u32> {
        self.to_first
    }
}

/// What stands in the places past the last shift speed: no speed reaches it.
const OUT_OF_REACH: u32 = 65_535;

/// The shift speeds of a vehicle in whole tenths; or the first of the refusals 5 to 7.
///
/// ```
/// use ylhovesko::gear::{shift_tenths, Tenths, Vehicle};
/// let vehicle = Vehicle { power: 300, mass: 200, rated: 8000, idle: 1200, gears: 3, ndv: [20_000, 12_000, 9_000, 0, 0, 0, 0, 0], rule_set: 1 };
/// let tenths = shift_tenths(vehicle).unwrap();
/// // 18.498 and 36.497 km/h
/// assert_eq!(tenths.upshifts(), [Tenths { above: 185, not_below: 185 }, Tenths { above: 365, not_below: 365 }]);
/// assert_eq!(tenths.downshifts(), &tenths.upshifts()[..1]);
/// assert_eq!((tenths.upshifts()[0].too_close(), tenths.to_first()), (None, None));
/// // 11.7 km/h exactly
/// assert_eq!(shift_tenths(Vehicle { rule_set: 2, ..vehicle }).unwrap().to_first(), Some(117));
/// assert_eq!(shift_tenths(Vehicle { gears: 9, ..vehicle }).unwrap_err().number, 5);
/// ```
pub fn shift_tenths(vehicle: Vehicle) -> Result<ShiftTenths, Refusal> {
    agreed();
    let TenthsOutcome { outcome, count, above, not_below, to_first } = calls::shift_tenths(vehicle);
    let told = outcome.told();
    let mut upshifts: Vec<_> = above.into_iter().zip(not_below).map(|(above, not_below)| Tenths { above, not_below }).collect();
    let unused = if told.is_ok() { OUT_OF_REACH } else { 0 };
    let rest = upshifts.split_off(count as usize);
    assert!(rest.iter().all(|tenths| [tenths.above, tenths.not_below] == [unused; 2]), "what is past the last is out of reach");
    assert!((count == 0) == told.is_err() && (to_first != 0) == (told.is_ok() && vehicle.rule_set == 2), "what is not given is 0");
    told.map(|()| ShiftTenths { upshifts, to_first: Some(to_first).filter(|tenth| *tenth != 0) })
}

/// Writes the trace of version 2 with these seconds to the front of the buffer, 8 bytes and 4 for each second; or gives the first of the refusals 2, 4 and
/// 8, and the buffer stays as it was. A second is its speed in 0.1 km/h and its phase: 0 stop, 1 acceleration, 2 cruise, 3 deceleration.
///
/// ```
/// use ylhovesko::gear::{judge_trace, write_trace};
/// let seconds = [[0, 0], [300, 1]];
/// let mut buffer = [7; 17];
/// write_trace(&seconds, &mut buffer).unwrap();
/// assert_eq!(buffer, [b'W', b'T', b'R', 0, 2, 0, 2, 0, 0, 0, 0, 0, 44, 1, 1, 0, 7]);
/// assert!(judge_trace(&buffer[..16]).is_ok());
/// assert_eq!(write_trace(&seconds, &mut buffer[..15]).unwrap_err().number, 8);
/// ```
pub fn write_trace(seconds: &[[u16; 2]], buffer: &mut [u8]) -> Result<(), Refusal> {
    write_numbers(seconds.as_flattened(), buffer)
}

/// As [`write_trace`], from the numbers as they cross the boundary. An odd number of them, which has a speed without its phase, is refused with 2.
///
/// ```
/// assert_eq!(ylhovesko::gear::write_numbers(&[0, 0, 300], &mut [7; 17]).unwrap_err().number, 2);
/// ```
pub fn write_numbers(seconds: &[u16], buffer: &mut [u8]) -> Result<(), Refusal> {
    agreed();
    calls::write_trace(seconds, buffer).told()
}

/// Judges the two traces of a cycle: refusals 1 to 4 of the normal one, then of the reduced one, then 15.
pub fn judge_pair(normal: &[u8], reduced: &[u8]) -> Result<(), Refusal> {
    agreed();
    calls::judge_pair(normal, reduced).told()
}

/// Judges one trace: refusals 1 to 4. A trace that is paired with itself is judged alone, and this also says which trace of a refused pair it was:
/// the normal one where it is refused alone, since it is judged first; else the reduced one, or neither for 15.
///
/// ```
/// let stop = [b'W', b'T', b'R', 0, 1, 0, 1, 0, 0, 0, 0, 0];
/// assert!(ylhovesko::gear::judge_trace(&stop).is_ok());
/// assert_eq!(ylhovesko::gear::judge_trace(&stop[..11]).unwrap_err().number, 3);
/// ```
pub fn judge_trace(trace: &[u8]) -> Result<(), Refusal> {
    judge_pair(trace, trace)
}

/// The one of two lent traces that the bench's reduced-speed switch names, itself and not a copy; the empty first part of the normal one where
/// [`judge_pair`] refuses them.
///
/// ```
/// let stop = [b'W', b'T', b'R', 0, 1, 0, 1, 0, 0, 0, 0, 0];
/// assert_eq!(ylhovesko::gear::choose(&stop, &stop.clone(), false).as_ptr(), stop.as_ptr());
/// assert!(ylhovesko::gear::choose(&stop, &[], false).is_empty());
/// ```
pub fn choose<'a>(normal: &'a [u8], reduced: &'a [u8], switch: bool) -> &'a [u8] {
    agreed();
    match calls::chosen(normal, reduced, switch) {
        0 => &normal[..0],
        1 => normal,
        2 => reduced,
        other => unreachable!("the core names trace {other} of two"),
    }
}
