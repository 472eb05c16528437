//! Plans in lanes: sixteen vehicles side by side, a byte each, so that the compiler works on all of them at once. Gears are chosen by whole tenths of a km/h,
//! as the core chooses them; what a second is decides for all lanes alike, so that no branch depends on a vehicle.

use ylhovesko::gear::Vehicle;
use ylhovesko::plan::SHEET;
use ylhovesko::Refusal;

use crate::gear::{
    is_marked, is_stop, judge_vehicle, no_first_gear, no_gear_shift, phase, speed, three_per_cent, Second, Shift, ACCELERATION,
    DECELERATION, MOST_SECONDS, STOP,
};
use crate::plan::{judge, vehicle};

/// How many vehicles stand side by side, and how many seconds are turned at once into bytes of their rows.
pub(crate) const LANES: usize = 16;

/// A byte of each vehicle: a gear, a length, or a mask of 0 or 255.
type Bytes = [u8; LANES];
/// A speed in 0.1 km/h of each vehicle.
type Tenths = [i16; LANES];

/// The tenth that no second reaches.
const FAR: i16 = 2001;
/// No gear is above it, so that it caps nothing.
const NO_CAP: u8 = 255;
/// No gear.
const NONE: u8 = 0;

/// What is worked out of sixteen vehicles.
struct Block {
    /// The least tenth above each upshift speed.
    above: [Tenths; 7],
    /// The least tenth at or above the downshift 2 to 1; 0 under rule set 1.
    to_first: Tenths,
    /// The gear that cruise and deceleration reach at most.
    last: Bytes,
    /// The least tenth at which the clutch is in, in each gear.
    clutch_in: [Tenths; 8],
}

fn tenth(number: i64) -> i16 {
    number.min(FAR.into()) as i16
}

impl Block {
    /// Lanes without a vehicle, in which gears are chosen all the same.
    fn empty() -> Block {
        Block { above: [[FAR; LANES]; 7], to_first: [0; LANES], last: [2; LANES], clutch_in: [[FAR; LANES]; 8] }
    }

    /// Puts a vehicle into a lane; or says which second is too close to call.
    fn put(&mut self, lane: usize, v: &Vehicle, seconds: &[Second]) -> Result<(), [u32; 2]> {
        let shift = Shift::of(v);
        let (above, close) = close_tenths(&shift);
        for (i, above) in above.into_iter().enumerate() {
            self.above[i][lane] = above;
        }
        let line = three_per_cent(v);
        self.to_first[lane] = tenth(i64::from(shift.to_first.div_ceil(v.ndv[1])));
        self.last[lane] = v.gears as u8;
        for gear in 0..v.gears as usize {
            self.clutch_in[gear][lane] = tenth(i64::from(line.div_ceil(v.ndv[gear]).max(100)));
        }
        first_close(&close[..shift.ndv.len()], seconds).map_or(Ok(()), |place| Err([9, place]))
    }

    /// One more than the number of upshift speeds that the speed is above.
    #[inline]
    fn upshifted(&self, speed: i16) -> Bytes {
        let mut gears = [1; LANES];
        for above in &self.above {
            for (gear, &above) in gears.iter_mut().zip(above) {
                *gear += i16::from(speed >= above);
            }
        }
        gears.map(|gear| gear as u8)
    }

    /// Two more than the number of downshift speeds that it is above, or 1. A speed above a shift speed is above those before it.
    #[inline]
    fn downshifted(&self, speed: i16) -> Bytes {
        let upshifted = self.upshifted(speed);
        let mut gears = [0; LANES];
        for lane in 0..LANES {
            let gear = (upshifted[lane] + 1).min(self.last[lane]);
            gears[lane] = if speed < self.to_first[lane] { 1 } else { gear };
        }
        gears
    }

    /// The first gear in which the clutch is out at this speed: ratios fall from gear to gear.
    #[inline]
    fn first_with_clutch_out(&self, speed: i16) -> Bytes {
        let mut gears = [1; LANES];
        for least in &self.clutch_in {
            for (gear, &least) in gears.iter_mut().zip(least) {
                *gear += i16::from(speed >= least);
            }
        }
        gears.map(|gear| gear as u8)
    }
}

/// The least tenth above each upshift speed, and the tenth that is too close to it, if there is one.
pub(crate) fn close_tenths(shift: &Shift) -> ([i16; 7], [i16; 7]) {
    let (mut above, mut close) = ([FAR; 7], [FAR; 7]);
    for (i, &ndv) in shift.ndv.iter().enumerate() {
        let (lower, upper) = if i == 0 { shift.first } else { shift.higher };
        let unit = (10 << 32) * i64::from(ndv);
        let below = upper / unit;
        above[i] = tenth(below + 1);
        if below * unit >= lower {
            close[i] = tenth(below);
        }
    }
    (above, close)
}

/// The first second, from 1, whose speed is too close to one of these upshift speeds; cruise and deceleration are not held against the last.
pub(crate) fn first_close(close: &[i16], seconds: &[Second]) -> Option<u32> {
    if close.iter().all(|&tenth| tenth == FAR) {
        return None;
    }
    let is_close = |&second: &Second| {
        let held = match phase(second) {
            ACCELERATION => close,
            _ if is_stop(second) => &[],
            _ => &close[..close.len() - 1],
        };
        held.contains(&(speed(second) as i16))
    };
    seconds.iter().position(is_close).map(|k| k as u32 + 1)
}

/// The first second, from 1, that has a mark.
pub(crate) fn first_marked(seconds: &[Second]) -> Option<u32> {
    seconds.iter().position(|&second| is_marked(second)).map(|k| k as u32 + 1)
}

/// The gears of all stops of a trace, which no vehicle changes; 0 elsewhere.
pub(crate) fn stop_gears(seconds: &[Second]) -> [u8; MOST_SECONDS] {
    let (mut gears, mut left) = ([0; MOST_SECONDS], 0);
    for k in (0..seconds.len()).rev() {
        left = if is_stop(seconds[k]) { left + 1 } else { 0 };
        gears[k] = u8::from((1..=5).contains(&left));
    }
    gears
}

/// All bits where it holds, and none where it does not: what is so for all lanes enters them as a mask, since a branch would take the lanes apart.
pub(crate) fn mask(holds: bool) -> u8 {
    if holds {
        255
    } else {
        0
    }
}

/// What corrections 1 and 3 to 5 know of the seconds before: the cap of a deceleration, and the gear as each correction left it.
struct Former {
    cap: Bytes,
    by_3: Bytes,
    by_4: Bytes,
    by_5: Bytes,
    phase: u8,
}

impl Former {
    /// After a stop, and before the first second.
    const STOPPED: Former = Former { cap: [NO_CAP; LANES], by_3: [1; LANES], by_4: [1; LANES], by_5: [1; LANES], phase: STOP };

    /// Corrections 1 to 5 of a second outside stop; the first has none before it.
    #[inline]
    fn corrected(&mut self, second: Second, own: &Bytes, is_first: bool, row: &mut Bytes) {
        let now = phase(second);
        let (accelerates, decelerates, first) = (mask(now == ACCELERATION), mask(now == DECELERATION), mask(is_first));
        let keeps = mask(no_gear_shift(second) && self.phase != STOP);
        let rises = accelerates & mask(self.phase == ACCELERATION);
        let least = if no_first_gear(second) { 2 } else { 0 };
        for lane in 0..LANES {
            let own = own[lane];
            let capped = own.min(self.cap[lane] | !decelerates);
            self.cap[lane] = self.cap[lane] & decelerates | (own | !accelerates) & !decelerates;
            let by_3 = (self.by_3[lane] & keeps | capped & !keeps).max(least);
            let by_4 = by_3.max(self.by_4[lane] & rises);
            let before = self.by_5[lane];
            let by_5 = by_4.max((before - 1) & !first).min((before + 1) | first);
            (self.by_3[lane], self.by_4[lane], self.by_5[lane], row[lane]) = (by_3, by_4, by_5, by_5);
        }
        self.phase = now;
    }
}

/// The row of every lane before correction 6.
fn before_runs(block: &Block, seconds: &[Second], stops: &[u8], row: &mut [Bytes]) {
    let mut former = Former::STOPPED;
    for (k, (&second, row)) in seconds.iter().zip(row).enumerate() {
        if is_stop(second) {
            *row = [stops[k]; LANES];
            former = Former::STOPPED;
            continue;
        }
        let tenth = speed(second) as i16;
        let own = if phase(second) == ACCELERATION { block.upshifted(tenth) } else { block.downshifted(tenth) };
        former.corrected(second, &own, k == 0, row);
    }
}

/// The run of correction 6 in each lane: its gear, the one before it or none, how many seconds it has, up to five, and whether one of them must not have gear 1.
struct Runs {
    gear: Bytes,
    left: Bytes,
    length: Bytes,
    marked: Bytes,
    /// How many seconds before the last one take its gear.
    reach: Bytes,
}

impl Runs {
    /// After a stop, and before the first second.
    const NONE: Runs = Runs { gear: [NONE; LANES], left: [NONE; LANES], length: [5; LANES], marked: [0; LANES], reach: [0; LANES] };

    /// Takes the next second, and whether the run before it takes its gear in any lane.
    #[inline]
    fn next(&mut self, gears: &Bytes, mark: u8) -> bool {
        for lane in 0..LANES {
            let (gear, length) = (gears[lane], self.length[lane]);
            let goes_on = mask(gear == self.gear[lane]);
            let may = mask(gear != 1) | mask(self.marked[lane] == 0);
            let takes = mask(gear == self.left[lane]) & mask(length <= 4) & may & !goes_on;
            self.reach[lane] = length & takes;
            self.left[lane] = self.left[lane] & goes_on | self.gear[lane] & !goes_on & !takes;
            self.length[lane] = ((length & goes_on) + 1).min(5);
            self.marked[lane] = self.marked[lane] & goes_on | mark;
            self.gear[lane] = gear;
        }
        u128::from_ne_bytes(self.reach) != 0
    }

    /// Puts the last second's gear on the run before it, of up to four seconds.
    #[inline]
    fn put(&self, before: &mut [Bytes; 4], gears: &Bytes) {
        let mut after = [[0; LANES]; 4];
        for lane in 0..LANES {
            let (reach, gear) = (self.reach[lane], gears[lane]);
            for (k, least) in [(3, 1), (2, 2), (1, 3), (0, 4)] {
                let takes = mask(reach >= least);
                after[k][lane] = gear & takes | before[k][lane] & !takes;
            }
        }
        *before = after;
    }
}

/// Correction 6. The row has four seconds of no trace before the first.
fn judge_runs(seconds: &[Second], row: &mut [Bytes]) {
    let mut runs = Runs::NONE;
    for (k, &second) in seconds.iter().enumerate() {
        if is_stop(second) {
            runs = Runs::NONE;
            continue;
        }
        let (before, now) = row[k..k + 5].split_first_chunk_mut().unwrap();
        if runs.next(&now[0], mask(no_first_gear(second))) {
            runs.put(before, &now[0]);
        }
    }
}

/// Sixteen bytes of sixteen lanes.
type Square = [u8; LANES * LANES];

/// Takes the two halves by turns.
#[inline]
fn shuffled(from: &Square) -> Square {
    let mut to = [0; LANES * LANES];
    for i in 0..LANES * LANES / 2 {
        to[2 * i] = from[i];
        to[2 * i + 1] = from[i + LANES * LANES / 2];
    }
    to
}

/// Sixteen seconds of sixteen lanes, with the bytes of one lane one after the other.
#[inline]
fn turned(seconds: &Square) -> Square {
    shuffled(&shuffled(&shuffled(&shuffled(seconds))))
}

/// Writes up to sixteen seconds into the rows of the lanes that are accepted, from this second on.
fn write_seconds(gears: &Square, clutches: &Square, from: usize, rows: &mut [&mut [[u8; 2]]; LANES]) {
    let (gears, clutches) = (turned(gears), turned(clutches));
    let mut pairs = [[0; 2]; LANES * LANES];
    for i in 0..LANES * LANES {
        pairs[i] = [gears[i], clutches[i]];
    }
    for (row, pairs) in rows.iter_mut().zip(pairs.as_chunks::<LANES>().0) {
        // the row of a refused vehicle is none
        let Some(rest) = row.get_mut(from..) else { continue };
        match rest.first_chunk_mut() {
            Some(whole) => *whole = *pairs,
            None => rest.copy_from_slice(&pairs[..rest.len()]),
        }
    }
}

/// The clutch of every second, and all into the rows.
fn write_lanes(block: &Block, seconds: &[Second], row: &[Bytes], rows: &mut [&mut [[u8; 2]]; LANES]) {
    for (from, some) in (0..).step_by(LANES).zip(seconds.chunks(LANES)) {
        let (mut gears, mut clutches, mut first_out) = ([0; LANES * LANES], [0; LANES * LANES], [[0; LANES]; LANES]);
        gears[..LANES * some.len()].copy_from_slice(row[from..from + some.len()].as_flattened());
        for (first_out, &second) in first_out.iter_mut().zip(some) {
            *first_out = if is_stop(second) { [0; LANES] } else { block.first_with_clutch_out(speed(second) as i16) };
        }
        for ((clutch, &gear), &first_out) in clutches.iter_mut().zip(&gears).zip(first_out.as_flattened()) {
            *clutch = u8::from(gear >= first_out);
        }
        write_seconds(&gears, &clutches, from, rows);
    }
}

/// What is said of a vehicle: 5 to 7, 20, or what is said where it is put into its lane.
pub(crate) fn judge_lane(sheet: [u32; SHEET], marked: Option<u32>, put: impl FnOnce(&Vehicle) -> Result<(), [u32; 2]>) -> [u32; 2] {
    let vehicle = vehicle(sheet);
    match (judge_vehicle(&vehicle), marked) {
        (Err(refusal), _) => [refusal.number, refusal.at],
        (Ok(()), Some(place)) if vehicle.rule_set == 2 => [20, place],
        _ => put(&vehicle).err().unwrap_or([0, 0]),
    }
}

/// The vehicles of a block with what is said of each, and its lanes.
fn judge_block(sheets: &[[u32; SHEET]], seconds: &[Second], marked: Option<u32>, answers: &mut [[u32; 2]]) -> Block {
    let mut block = Block::empty();
    for (lane, (&sheet, answer)) in sheets.iter().zip(answers).enumerate() {
        *answer = judge_lane(sheet, marked, |vehicle| block.put(lane, vehicle, seconds));
    }
    block
}

/// The row of every vehicle and what is said of it; or the first refusal of the whole, and all as it was lent.
pub fn write_rows(trace: &[u8], sheets: &[u32], rows: &mut [u8], answers: &mut [u32]) -> Result<(), Refusal> {
    let (seconds, sheets) = judge(trace, sheets, rows, answers)?;
    let (n, stops, marked) = (seconds.len(), stop_gears(seconds), first_marked(seconds));
    let mut row = [[NONE; LANES]; MOST_SECONDS + 4];
    let all = rows.as_chunks_mut().0.chunks_mut(LANES * n);
    for ((sheets, answers), rows) in sheets.chunks(LANES).zip(answers.as_chunks_mut().0.chunks_mut(LANES)).zip(all) {
        let block = judge_block(sheets, seconds, marked, answers);
        before_runs(&block, seconds, &stops, &mut row[4..]);
        judge_runs(seconds, &mut row);
        let mut parts = rows.chunks_exact_mut(n).take(sheets.len()).zip(answers.iter());
        let mut lanes: [&mut [[u8; 2]]; LANES] =
            std::array::from_fn(|_| parts.next().filter(|(_, answer)| **answer == [0, 0]).map_or(&mut [][..], |(part, _)| part));
        write_lanes(&block, seconds, &row[4..], &mut lanes);
    }
    Ok(())
}
