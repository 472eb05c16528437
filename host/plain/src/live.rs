//! The live engine (02, M-110): one second at a time, refusals 1 and 5 to 7 before the first, then 2, 4, 20 and 9; and 2 at an end with no second received.
//!
//! "It gives the final gear and clutch of a second once the next five are known or the trace has ended, and keeps only a small state": the seconds that wait,
//! what corrections 1 and 3 to 5 take of the second before, and the run that correction 6 has not judged yet. Corrections 1 to 5 look back alone, so that the
//! gear that they leave is there with the second. Correction 6 changes no run of more than four, and the gear of a stop depends on the five behind it.

use std::collections::VecDeque;

use crate::gear::{clutch, judge, own, speeds, Speeds, Vehicle};
use crate::trace::{self, flags_of, Phase, Second};
use crate::{at, check, nowhere, Refusal};

/// "2 on second 2,001".
const MOST_SECONDS: u32 = 2000;

/// "A second is given at the call of the fifth after it, or at the end" (readings).
const DELAY: usize = 5;

/// A run of more seconds keeps its gear (correction 6).
const SHORT: usize = 4;

/// A gear and a clutch, as a row has them.
pub type Given = [u8; 2];

/// A second that is not given yet, with its gear as far as corrections have come; 1 at a stop.
#[derive(Clone, Copy, Debug)]
struct Waiting {
    second: Second,
    gear: u8,
}

/// The preceding second, with its gear as corrections 3, 4 and 5 have each left it. At a stop it is 1: "a stop run's last second is always gear 1" (readings).
#[derive(Clone, Copy, Debug)]
struct Preceding {
    phase: Phase,
    by_3: u8,
    by_4: u8,
    by_5: u8,
}

/// The run of one gear that the last second stands in, for correction 6.
#[derive(Clone, Copy, Debug)]
struct Run {
    gear: u8,
    seconds: usize,
    /// The gear before it; nothing at the first second and after a stop.
    left: Option<u8>,
    /// Whether it is "a replaced run and the two beside it".
    judged: bool,
}

/// The engine of one trace. "A call after a refusal answers that refusal again" (readings), and nothing more is given.
#[derive(Clone, Debug)]
pub struct Live {
    vehicle: Vehicle,
    speeds: Speeds,
    /// The flags that a second may have in the named version.
    may_have: u8,
    received: u32,
    refused: Option<Refusal>,
    /// The last gear of the acceleration run that the last second stands in, or that stands directly before the deceleration run of the last second.
    cap: Option<u8>,
    preceding: Option<Preceding>,
    run: Option<Run>,
    waiting: VecDeque<Waiting>,
}

impl Live {
    /// "1 for a named version not 1 or 2, then 5 to 7, before the first second."
    ///
    /// ```
    /// use plain::gear::Vehicle;
    /// use plain::live::Live;
    /// let vehicle = Vehicle { p: 300, m: 200, s: 8000, n: 1200, ng: 3, ndv: [20_000, 12_000, 9_000, 0, 0, 0, 0, 0], rule_set: 1 };
    /// let mut live = Live::begin(2, &vehicle).unwrap();
    /// for _ in 0..5 {
    ///     assert_eq!(live.second([0, 0, 0, 0]), Ok(None));
    /// }
    /// assert_eq!(live.second([0, 0, 0, 0]), Ok(Some([0, 1])));
    /// assert_eq!(live.end().unwrap(), [[1, 1]; 5]);
    /// assert_eq!(Live::begin(3, &vehicle).unwrap_err().number, 1);
    /// ```
    pub fn begin(version: u32, vehicle: &Vehicle) -> Result<Live, Refusal> {
        let may_have = u16::try_from(version).ok().and_then(flags_of).ok_or(nowhere(1))?;
        judge(vehicle)?;
        Ok(Live {
            vehicle: *vehicle,
            speeds: speeds(vehicle),
            may_have,
            received: 0,
            refused: None,
            cap: None,
            preceding: None,
            run: None,
            waiting: VecDeque::new(),
        })
    }

    /// Takes a second, the four bytes of the house file, and gives the fifth before it, if there is one.
    pub fn second(&mut self, bytes: [u8; 4]) -> Result<Option<Given>, Refusal> {
        if let Some(refusal) = self.refused {
            return Err(refusal);
        }
        match self.read(bytes) {
            Err(refusal) => {
                self.refused = Some(refusal);
                Err(refusal)
            }
            Ok((second, own)) => {
                self.take(second, own);
                Ok(self.oldest())
            }
        }
    }

    /// The seconds that are left, at the end; "2 .. at an end with no second received".
    pub fn end(&self) -> Result<Vec<Given>, Refusal> {
        self.refused.map_or(Ok(()), Err)?;
        check(self.received > 0, nowhere(2))?;
        Ok(self.waiting.iter().map(|waiting| self.given(waiting, waiting.gear)).collect())
    }

    /// The second with its gear before corrections; or its first fault. "Second 2,001 is 2 whatever it holds" (readings), then "the earliest faulty second is
    /// named, with 4, 20 and 9 in that order on one second".
    fn read(&self, bytes: [u8; 4]) -> Result<(Second, u8), Refusal> {
        let place = self.received + 1;
        check(place <= MOST_SECONDS, nowhere(2))?;
        let second = trace::second(&bytes, self.may_have).ok_or(at(4, place))?;
        check(self.vehicle.rule_set == 1 || !second.is_marked(), at(20, place))?;
        let own = own(&self.vehicle, &self.speeds, &second).ok_or(at(9, place))?;
        Ok((second, own))
    }

    /// Lets a second wait with the gear that corrections 1 to 5 leave it, and judges the run before it.
    fn take(&mut self, second: Second, own: u8) {
        self.received += 1;
        let by_1 = self.correction_1(&second, own);
        let preceding = if second.is_stop() {
            Preceding { phase: Phase::Stop, by_3: 1, by_4: 1, by_5: 1 }
        } else {
            let by_2 = correction_2(&second, by_1);
            let by_3 = self.correction_3(&second, by_2);
            let by_4 = self.correction_4(&second, by_3);
            Preceding { phase: second.phase, by_3, by_4, by_5: self.correction_5(by_4) }
        };
        self.preceding = Some(preceding);
        self.correction_6(&second, preceding.by_5);
        self.waiting.push_back(Waiting { second, gear: preceding.by_5 });
    }

    /// The oldest second, where five wait behind it. "The last five seconds of a run of stop seconds are gear 1, earlier ones gear 0": it is an earlier one where
    /// the five behind it are stops too.
    fn oldest(&mut self) -> Option<Given> {
        if self.waiting.len() <= DELAY {
            return None;
        }
        let neutral = self.waiting.iter().all(|waiting| waiting.second.is_stop());
        let oldest = self.waiting.pop_front()?;
        Some(self.given(&oldest, if neutral { 0 } else { oldest.gear }))
    }

    /// A second with its final gear and the clutch by it.
    fn given(&self, waiting: &Waiting, gear: u8) -> Given {
        [gear, clutch(&self.vehicle, &waiting.second, gear)]
    }

    /// "A deceleration run directly after an acceleration run: the smaller of its own gear and that run's last gear", which is "taken as it is then, before
    /// corrections 2 to 6" (readings).
    fn correction_1(&mut self, second: &Second, own: u8) -> u8 {
        match second.phase {
            Phase::Deceleration => return self.cap.map_or(own, |gear| own.min(gear)),
            Phase::Acceleration => self.cap = Some(own),
            Phase::Stop | Phase::Cruise => self.cap = None,
        }
        own
    }

    /// "'No gear-shift': the preceding second's gear, unless that second is a stop; where this puts 1 on a 'no 1. gear' second, 2."
    fn correction_3(&self, second: &Second, gear: u8) -> u8 {
        match self.preceding {
            Some(before) if second.no_gear_shift && before.phase != Phase::Stop => correction_2(second, before.by_3),
            _ => gear,
        }
    }

    /// "Acceleration after acceleration: never below the preceding gear."
    fn correction_4(&self, second: &Second, gear: u8) -> u8 {
        match self.preceding {
            Some(before) if [before.phase, second.phase] == [Phase::Acceleration; 2] => gear.max(before.by_4),
            _ => gear,
        }
    }

    /// "At most one step up or down from the preceding second; a larger one is cut to one", after a stop too (readings).
    fn correction_5(&self, gear: u8) -> u8 {
        self.preceding.map_or(gear, |before| gear.clamp(before.by_5 - 1, before.by_5 + 1))
    }

    /// Where the second, whose gear corrections 1 to 5 have left, stands to the run before it: it goes on with it, ends it, or ends it as its right neighbour. "A
    /// run holds no stop second and ends at one."
    fn correction_6(&mut self, second: &Second, gear: u8) {
        self.run = match self.run {
            _ if second.is_stop() => None,
            None => Some(Run { gear, seconds: 1, left: None, judged: false }),
            Some(run) if run.gear == gear => Some(Run { seconds: run.seconds + 1, ..run }),
            Some(run) => {
                let judged = self.takes(&run, gear);
                if judged {
                    self.run_seconds(&run).for_each(|waiting| waiting.gear = gear);
                }
                Some(Run { gear, seconds: 1, left: Some(run.gear), judged })
            }
        };
    }

    /// "A run of 1 to 4 seconds of one gear, with the same other gear on both sides, neither neighbour a stop, takes that gear; unless that is 1 and the run has
    /// a 'no 1. gear' second"; and one that "counts as judged" takes none.
    fn takes(&mut self, run: &Run, right: u8) -> bool {
        let between = run.left == Some(right) && run.seconds <= SHORT && !run.judged;
        between && (right != 1 || !self.run_seconds(run).any(|waiting| waiting.second.no_first_gear))
    }

    /// The seconds of a short run, which all wait: they are the last ones.
    fn run_seconds(&mut self, run: &Run) -> impl Iterator<Item = &mut Waiting> {
        self.waiting.iter_mut().rev().take(run.seconds)
    }
}

/// "'No 1. gear': 1 becomes 2."
fn correction_2(second: &Second, gear: u8) -> u8 {
    if second.no_first_gear && gear == 1 {
        2
    } else {
        gear
    }
}

#[cfg(test)]
mod kit {
    //! Seconds in short, for the tests.

    use super::*;
    use crate::gear::known_rows::MACHINE;

    /// The speeds in 0.1 km/h at which an acceleration second of [`MACHINE`] has gear 1, 2 and so on, and a cruise or deceleration second one more: its upshifts
    /// are at 28.5, 51.3, 63.9, 74.1 and 82.7 km/h.
    const SPEEDS: [u16; 6] = [200, 400, 600, 700, 800, 900];

    /// The phase (s stop, a acceleration, c cruise, d deceleration), the gear before corrections, = for "no gear-shift", ^ for "no 1. gear"; x for a fourth byte
    /// that is wrong.
    pub fn bytes(short: &str) -> [u8; 4] {
        let phase = "sacd".find(&short[..1]).unwrap() as u8;
        let gear = short.chars().find_map(|each| each.to_digit(10)).unwrap_or(1) as usize;
        let speed = match phase {
            0 => 0,
            1 => SPEEDS[gear - 1],
            _ => SPEEDS[gear - 2],
        };
        let [low, high] = speed.to_le_bytes();
        let bit = |sign: char, bit: u8| if short.contains(sign) { bit } else { 0 };
        [low, high, phase | bit('=', 4) | bit('^', 8), bit('x', 1)]
    }

    pub fn trace(seconds: &str) -> Vec<[u8; 4]> {
        seconds.split(' ').filter(|short| !short.is_empty()).map(bytes).collect()
    }

    pub fn live() -> Live {
        Live::begin(1, &MACHINE).unwrap()
    }

    /// The gears given at each second and at the end.
    pub fn gears(seconds: &str) -> (Vec<Option<u8>>, Vec<u8>) {
        let mut live = live();
        let given = trace(seconds).into_iter().map(|second| live.second(second).unwrap().map(|[gear, _]| gear)).collect();
        (given, live.end().unwrap().iter().map(|[gear, _]| *gear).collect())
    }
}

#[cfg(test)]
mod by_hand {
    //! 02's sentences on the live engine, with rows by hand.

    use super::kit::{bytes, gears, live, trace};
    use super::*;
    use crate::gear::known_rows::MACHINE;

    /// The whole row of some seconds, and that each second was given at the call of the fifth after it.
    fn row(seconds: &str) -> Vec<u8> {
        let (given, end) = gears(seconds);
        assert!(given.iter().take(5).all(Option::is_none), "{seconds}");
        assert_eq!(end.len(), given.len().min(5), "{seconds}");
        given.into_iter().skip(5).map(Option::unwrap).chain(end).collect()
    }

    #[test]
    fn five_behind() {
        assert_eq!(gears("a1"), (vec![None], vec![1]));
        assert_eq!(gears("a1 a2 a3 c4 c5"), (vec![None; 5], vec![1, 2, 3, 4, 5]));
        assert_eq!(gears("a1 a2 a3 c4 c5 c6 d6"), (vec![None, None, None, None, None, Some(1), Some(2)], vec![3, 4, 5, 6, 6]));
    }

    #[test]
    fn stops() {
        assert_eq!(row("s s s s s"), [1; 5]);
        assert_eq!(row("s s s s s s"), [0, 1, 1, 1, 1, 1]);
        assert_eq!(row("a1 s s s s s s s a1"), [1, 0, 0, 1, 1, 1, 1, 1, 1]);
        assert_eq!(row("s s s s s a1 s s s s s"), [1; 11]);
        assert_eq!(row("s s s s s s c2 s s s s s s s"), [0, 1, 1, 1, 1, 1, 2, 0, 0, 1, 1, 1, 1, 1]);
    }

    #[test]
    fn corrections_1_to_5() {
        for (seconds, by_hand) in [
            ("a3 d5 d4 d2", &[3, 3, 3, 2][..]),
            ("a3 s d5", &[3, 1, 2]),
            ("a3 d4 d4 c4 d4 d5", &[3, 3, 3, 4, 4, 5]),
            ("a1^ d2", &[2, 1]),
            ("a4 a3 d5", &[4, 4, 3]),
            ("c3 c5= c6=", &[3, 3, 3]),
            ("a1 c2=^ c4=", &[1, 2, 2]),
            ("s c2= s= c2=", &[1, 2, 1, 2]),
            ("c4 a6= a6 a6 a6", &[4, 4, 5, 6, 6]),
            ("c6 d2 a2 a2", &[6, 5, 4, 3]),
            ("c2 c5 c6=", &[2, 3, 4]),
            ("s a6 a6 s c5 c5", &[1, 2, 3, 1, 2, 3]),
        ] {
            assert_eq!(row(seconds), by_hand, "{seconds}");
        }
    }

    #[test]
    fn correction_6() {
        for (seconds, by_hand) in [
            ("c2 c3 c2", &[2, 2, 2][..]),
            ("c2 c3 c3 c3 c3 c2", &[2; 6]),
            ("c2 c3 c3 c3 c3 c3 c2", &[2, 3, 3, 3, 3, 3, 2]),
            ("c2 c3 c4 c3 c2", &[2, 3, 3, 3, 2]),
            ("c2 c3 c2 c3 c2 c3", &[2, 2, 2, 2, 2, 3]),
            ("c3 c2 c3 c3 c2 c3 c4", &[3, 3, 3, 3, 3, 3, 4]),
            ("a1 c2 c2^ c2 a1", &[1, 2, 2, 2, 1]),
            ("a1 c2 a1 a1^", &[1, 1, 1, 2]),
            ("a1 c2 s a1 c2 a1", &[1, 2, 1, 1, 1, 1]),
            ("c2 c3", &[2, 3]),
        ] {
            assert_eq!(row(seconds), by_hand, "{seconds}");
        }
    }

    /// 20.0 km/h is out in gear 4, which is 22.4 km/h at 1,470 per minute, and in in gear 3, which is 19.3.
    #[test]
    fn the_clutch_is_that_of_the_final_gear() {
        let mut live = live();
        let given: Vec<_> = trace("c4 c3 c2 c4 c4 c4 c4").into_iter().filter_map(|second| live.second(second).unwrap()).collect();
        // by correction 5 the gears are 4 3 2 3 4 4 4, and by correction 6 the third is 3
        assert_eq!(given, [[4, 0], [3, 0]]);
        assert_eq!(live.end().unwrap(), [[3, 0], [3, 0], [4, 0], [4, 0], [4, 0]]);
        let mut live = self::live();
        // 20.0 km/h in gear 3, between two 4
        let given: Vec<_> = trace("c5 c4 c2 c4 c4 c4 c4 c4").into_iter().filter_map(|second| live.second(second).unwrap()).collect();
        assert_eq!(given, [[5, 0], [4, 0], [4, 1]]);
    }

    /// The refusal of the last of some seconds, after which every call answers it.
    fn refused(mut live: Live, seconds: &[[u8; 4]]) -> (u32, u32) {
        let (last, before) = seconds.split_last().unwrap();
        before.iter().for_each(|second| assert!(live.second(*second).is_ok()));
        let refusal = live.second(*last).unwrap_err();
        for _ in 0..6 {
            assert_eq!((live.second(bytes("a1")), live.end()), (Err(refusal), Err(refusal)));
        }
        (refusal.number, refusal.at)
    }

    #[test]
    fn before_the_first_second() {
        for (version, number) in [(0, 1), (1, 0), (2, 0), (3, 1), (257, 1), (258, 1), (65_537, 1), (65_538, 1), (u32::MAX, 1)] {
            assert_eq!(Live::begin(version, &MACHINE).map_or_else(|refusal| refusal.number, |_| 0), number, "version {version}");
        }
        let faulty = Vehicle { p: 0, ..MACHINE };
        assert_eq!([1, 3].map(|version| Live::begin(version, &faulty).unwrap_err()), [at(5, 1), nowhere(1)]);
        assert_eq!(live().end(), Err(nowhere(2)));
    }

    #[test]
    fn the_earliest_faulty_second() {
        let set_2 = || Live::begin(1, &Vehicle { rule_set: 2, ..MACHINE }).unwrap();
        assert_eq!(refused(live(), &trace("a1 c2x")), (4, 2));
        assert_eq!(refused(live(), &[[0xd1, 7, 1, 0]]), (4, 1));
        assert_eq!(refused(set_2(), &trace("s a1 c2=")), (20, 3));
        assert_eq!(refused(set_2(), &trace("s s^")), (20, 2));
        assert_eq!(refused(set_2(), &trace("s a1 c2=x")), (4, 3));
        assert_eq!(refused(Live::begin(2, &MACHINE).unwrap(), &trace("s a1 c2=")), (4, 3));
    }

    /// 5,753 e (s - n) has a lower side that 123.7 km/h is at (docs/SECOND.md).
    #[test]
    fn too_close() {
        let close = Vehicle { p: 1612, m: 428, s: 10_540, n: 300, ng: 3, ndv: [3833, 2833, 2733, 0, 0, 0, 0, 0], rule_set: 1 };
        let of = |rule_set: u32| Live::begin(1, &Vehicle { rule_set, ..close }).unwrap();
        let [low, high] = 1237_u16.to_le_bytes();
        assert_eq!(refused(of(1), &[[0; 4], [low, high, 1, 0]]), (9, 2));
        assert_eq!(refused(of(2), &[[0; 4], [low, high, 5, 0]]), (20, 2));
        assert_eq!(refused(of(2), &[[0; 4], [low, high, 5, 1]]), (4, 2));
        assert_eq!(of(1).second([low, high, 0, 0]), Ok(None));
    }

    #[test]
    fn second_2001() {
        for last in [bytes("s"), bytes("a1"), bytes("a1x"), [255; 4]] {
            let seconds: Vec<_> = std::iter::repeat_n(bytes("s"), 2000).chain([last]).collect();
            assert_eq!(refused(live(), &seconds), (2, 0));
        }
        let mut live = live();
        let given = (0..2000).filter_map(|_| live.second(bytes("s")).unwrap()).filter(|given| *given == [0, 1]).count();
        assert_eq!((given, live.end().unwrap()), (1995, vec![[1, 1]; 5]));
    }
}

#[cfg(test)]
mod obvious {
    //! The engine that one would write first, which stores all seconds and works out their row at every call; and the rows of all traces of a few kinds of
    //! seconds.

    use super::kit::{bytes, trace};
    use super::*;
    use crate::gear::known_rows::MACHINE;
    use crate::gear::write_gears;

    /// The row of some seconds, or the refusal of their house file.
    fn row(version: u32, vehicle: &Vehicle, seconds: &[[u8; 4]]) -> Result<Vec<Given>, Refusal> {
        let [low, high] = (version as u16).to_le_bytes();
        let [least, most] = (seconds.len() as u16).to_le_bytes();
        let file = [&[b'W', b'T', b'R', 0, low, high, least, most], seconds.as_flattened()].concat();
        let mut row = vec![[0; 2]; seconds.len()];
        write_gears(&file, vehicle, row.as_flattened_mut(), 0).map(|()| row)
    }

    struct Obvious {
        version: u32,
        vehicle: Vehicle,
        seconds: Vec<[u8; 4]>,
        refused: Option<Refusal>,
    }

    impl Obvious {
        fn begin(version: u32, vehicle: &Vehicle) -> Result<Obvious, Refusal> {
            row(version, vehicle, &[[0; 4]])?;
            Ok(Obvious { version, vehicle: *vehicle, seconds: Vec::new(), refused: None })
        }

        /// A fault of a second is what the second alone has, as a trace of its own.
        fn judge(&self, second: [u8; 4]) -> Result<(), Refusal> {
            self.refused.map_or(Ok(()), Err)?;
            check(self.seconds.len() < 2000, nowhere(2))?;
            let place = self.seconds.len() as u32 + 1;
            row(self.version, &self.vehicle, &[second]).map(|_| ()).map_err(|refusal| Refusal { at: place, ..refusal })
        }

        fn row(&self) -> Result<Vec<Given>, Refusal> {
            self.refused.map_or(Ok(()), Err)?;
            row(self.version, &self.vehicle, &self.seconds)
        }

        fn second(&mut self, second: [u8; 4]) -> Result<Option<Given>, Refusal> {
            self.refused = self.judge(second).err();
            self.seconds.push(second);
            Ok(self.row()?.iter().rev().nth(5).copied())
        }

        fn end(&self) -> Result<Vec<Given>, Refusal> {
            let row = self.row()?;
            Ok(row[row.len().saturating_sub(5)..].to_vec())
        }
    }

    /// All traces of so many seconds of these kinds, each second by second: what is given is the row of the present engine, at its call.
    fn all_traces(kinds: &str, count: u32, rule_set: u32) {
        let vehicle = Vehicle { rule_set, ..MACHINE };
        let kinds = trace(kinds);
        let begun = Live::begin(1, &vehicle).unwrap();
        for mut number in 0..kinds.len().pow(count) {
            let seconds: Vec<[u8; 4]> = (0..count)
                .map(|_| {
                    let kind = kinds[number % kinds.len()];
                    number /= kinds.len();
                    kind
                })
                .collect();
            let mut live = begun.clone();
            let mut given: Vec<Given> = seconds.iter().filter_map(|second| live.second(*second).unwrap()).collect();
            assert_eq!(given.len(), seconds.len().saturating_sub(5));
            given.extend(live.end().unwrap());
            assert_eq!(given, row(1, &vehicle, &seconds).unwrap(), "{seconds:?}");
        }
    }

    #[test]
    fn every_trace_of_a_few_kinds() {
        for (kinds, count, rule_set) in [
            ("c2 c3", 13, 1),
            ("c2 c3 c4", 9, 1),
            ("s c2 c3", 9, 1),
            ("s a1", 12, 2),
            ("a1 c2 c2^", 9, 1),
            ("s a1 c2 c3^", 7, 1),
            ("a1 a3 d2 d4 c2", 6, 2),
            ("a1 a4^ d3 c5= c2=^ s", 5, 1),
            ("s a1 a3= c2^ c4 d2 d5= a2^", 4, 1),
        ] {
            (1..=count).for_each(|count| all_traces(kinds, count, rule_set));
        }
    }

    /// Numbers without an order, which are the same on every machine.
    struct Numbers(u64);

    impl Numbers {
        fn below(&mut self, n: usize) -> usize {
            self.0 = self.0.wrapping_mul(6_364_136_223_846_793_005).wrapping_add(1_442_695_040_888_963_407);
            (self.0 >> 33) as usize % n
        }
    }

    /// Both engines on longer traces, with faults, and gone on with after a refusal.
    #[test]
    fn as_the_obvious_one() {
        let usual = trace("s a1 a2 a3 a4 a5 a6 c2 c3 c4 c5 c6 d2 d3 d4 d5 d6 a1= c3= d2^ a1^ c2=^ s= s^");
        let faulty = [bytes("a1x"), [0xd1, 7, 0, 0], [0, 0, 16, 0], [0, 0, 128, 255]];
        let numbers = &mut Numbers(1);
        for number in 0..4000 {
            let (version, rule_set) = (1 + number % 2, 1 + number / 2 % 2);
            let vehicle = Vehicle { rule_set, ..MACHINE };
            let (mut live, mut obvious) = (Live::begin(version, &vehicle).unwrap(), Obvious::begin(version, &vehicle).unwrap());
            // without marks, where they would be refused
            let kinds = if version == 1 && rule_set == 1 || numbers.below(8) == 0 { &usual[..] } else { &usual[..17] };
            let mut kind = bytes("s");
            for _ in 0..1 + numbers.below(60) {
                if numbers.below(3) > 0 {
                    kind = kinds[numbers.below(kinds.len())];
                }
                let second = if numbers.below(100) == 0 { faulty[numbers.below(4)] } else { kind };
                assert_eq!(live.end(), obvious.end());
                assert_eq!(live.second(second), obvious.second(second));
            }
            assert_eq!(live.end(), obvious.end());
        }
    }

    #[test]
    fn they_begin_alike() {
        for vehicle in [MACHINE, Vehicle { ng: 2, ..MACHINE }, Vehicle { rule_set: 3, ..MACHINE }, Vehicle { p: 3000, ..MACHINE }] {
            for version in 0..4 {
                assert_eq!(Live::begin(version, &vehicle).err(), Obvious::begin(version, &vehicle).err());
            }
        }
    }
}
