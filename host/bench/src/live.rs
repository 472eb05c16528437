//! The live engine, refusals 1 and 5 to 7 at the start, then 2, 4, 20 and 9: a state of fixed size, no heap, and one pass over what a second needs. The gear of a
//! stop is settled when it is given, that of another second when its run has ended.

use ylhovesko::gear::Vehicle;
use ylhovesko::live::Second;
use ylhovesko::Refusal;

use crate::gear::{clutch, judge_vehicle, three_per_cent, Shift, ACCELERATION, DECELERATION, MOST_SECONDS, STOP};
use crate::{at, check, nowhere};

/// How many seconds wait.
const DELAY: usize = 5;

/// No gear.
const NONE: u8 = 0;

/// The engine of one trace. `Shift` borrows the ratios, so that the vehicle is kept beside it and lent again at each second.
#[derive(Clone)]
pub struct Live {
    vehicle: Vehicle,
    first: (i64, i64),
    higher: (i64, i64),
    to_first: u32,
    least: u32,
    most_flags: u8,
    received: usize,
    refused: Option<Refusal>,
    /// The last gear of the acceleration run before, or none.
    cap: u8,
    /// The phase of the second before, and its gear as corrections 3, 4 and 5 left it; 0 before the first.
    phase: u8,
    before: [u8; 3],
    /// The run of correction 6: its gear, the one before it or none, how many seconds it has, and whether one of them is marked.
    run: u8,
    left: u8,
    length: usize,
    marked: bool,
    /// How many stops the last seconds are.
    stops: usize,
    /// A ring: the speed, the flags and the gear of each second, by its number.
    waiting: [(u16, u8, u8); 8],
}

impl Live {
    pub fn begin(version: u32, vehicle: &Vehicle) -> Result<Live, Refusal> {
        let most_flags = match version {
            1 => 15,
            2 => DECELERATION,
            _ => return Err(nowhere(1)),
        };
        judge_vehicle(vehicle)?;
        let Shift { first, higher, to_first, .. } = Shift::of(vehicle);
        Ok(Live {
            vehicle: *vehicle,
            first,
            higher,
            to_first,
            least: three_per_cent(vehicle),
            most_flags,
            received: 0,
            refused: None,
            cap: NONE,
            phase: STOP,
            before: [0; 3],
            run: NONE,
            left: NONE,
            length: 0,
            marked: false,
            stops: 0,
            waiting: [(0, 0, 0); 8],
        })
    }

    fn own(&self, second: Second) -> Result<u8, Refusal> {
        let place = self.received as u32 + 1;
        check(self.received < MOST_SECONDS, nowhere(2))?;
        check(second.speed <= 2000 && second.flags <= self.most_flags && second.fourth == 0, at(4, place))?;
        check(second.flags <= DECELERATION || self.vehicle.rule_set == 1, at(20, place))?;
        let ndv = &self.vehicle.ndv[..self.vehicle.gears as usize - 1];
        let shift = Shift { first: self.first, higher: self.higher, to_first: self.to_first, ndv };
        let [low, high] = second.speed.to_le_bytes();
        shift.own([low, high, second.flags, 0]).ok_or(at(9, place))
    }

    /// Corrections 1 to 5 of a second outside stop.
    fn corrected(&mut self, flags: u8, own: u8) -> u8 {
        let (phase, [by_3, by_4, by_5]) = (flags & 3, self.before);
        let mut gear = own;
        if phase == DECELERATION {
            gear = if self.cap == NONE { gear } else { gear.min(self.cap) };
        } else {
            self.cap = if phase == ACCELERATION { own } else { NONE };
        }
        let second_if_marked = |gear: u8| if gear == 1 && flags & 8 != 0 { 2 } else { gear };
        gear = second_if_marked(gear);
        if flags & 4 != 0 && self.phase != STOP {
            gear = second_if_marked(by_3);
        }
        let now_3 = gear;
        if phase == ACCELERATION && self.phase == ACCELERATION {
            gear = gear.max(by_4);
        }
        let now_4 = gear;
        if by_5 != NONE {
            gear = gear.clamp(by_5 - 1, by_5 + 1);
        }
        self.before = [now_3, now_4, gear];
        self.phase = phase;
        gear
    }

    /// Correction 6 of the run before a second outside stop, and the run that the second stands in.
    fn judge_run(&mut self, flags: u8, gear: u8) {
        let marked = flags & 8 != 0;
        if gear == self.run {
            self.length += 1;
            self.marked |= marked;
            return;
        }
        let takes = gear == self.left && self.length <= 4 && (gear != 1 || !self.marked);
        if takes {
            for number in self.received - self.length..self.received {
                self.waiting[number % 8].2 = gear;
            }
        }
        // a merged run has no left neighbour, so that it takes nothing
        (self.left, self.run, self.length, self.marked) = (if takes { NONE } else { self.run }, gear, 1, marked);
    }

    fn stop(&mut self) {
        self.stops += 1;
        (self.cap, self.phase, self.before) = (NONE, STOP, [1; 3]);
        (self.run, self.left) = (NONE, NONE);
    }

    fn given(&self, number: usize) -> [u8; 2] {
        let (speed, flags, gear) = self.waiting[number % 8];
        let [low, high] = speed.to_le_bytes();
        let ndv = self.vehicle.ndv[usize::from(gear.max(1)) - 1];
        [gear, clutch([low, high, flags, 0], ndv, self.least)]
    }

    fn take(&mut self, second: Second) -> Result<Option<[u8; 2]>, Refusal> {
        let own = self.own(second)?;
        let gear = if second.flags & 3 == STOP {
            self.stop();
            1
        } else {
            self.stops = 0;
            let gear = self.corrected(second.flags, own);
            self.judge_run(second.flags, gear);
            gear
        };
        self.waiting[self.received % 8] = (second.speed, second.flags, gear);
        self.received += 1;
        if self.received <= DELAY {
            return Ok(None);
        }
        let oldest = self.received - 1 - DELAY;
        if self.stops > DELAY {
            self.waiting[oldest % 8].2 = 0;
        }
        Ok(Some(self.given(oldest)))
    }

    pub fn second(&mut self, second: Second) -> Result<Option<[u8; 2]>, Refusal> {
        if let Some(refusal) = self.refused {
            return Err(refusal);
        }
        let answer = self.take(second);
        self.refused = answer.err();
        answer
    }

    /// How many seconds are left, and then zeros.
    pub fn end(&self) -> Result<(usize, [[u8; 2]; DELAY]), Refusal> {
        self.refused.map_or(Ok(()), Err)?;
        check(self.received > 0, nowhere(2))?;
        let left = self.received.min(DELAY);
        let first = self.received - left;
        let mut given = [[0; 2]; DELAY];
        given[..left].iter_mut().enumerate().for_each(|(k, out)| *out = self.given(first + k));
        Ok((left, given))
    }
}
