//! The core's own plan in plain Rust: the same tables, the same lines of sixteen bytes, a loop over the lanes for each correction. Held against it the core shows
//! what Rattle costs; `lanes` shows how fast lanes can be.

use ylhovesko::gear::Vehicle;
use ylhovesko::Refusal;

use crate::gear::{
    is_stop, no_first_gear, no_gear_shift, phase, speed, three_per_cent, Second, Shift, ACCELERATION, DECELERATION, MOST_SECONDS,
};
use crate::lanes::{close_tenths, first_close, first_marked, judge_lane, mask, stop_gears, LANES};
use crate::plan::judge;

/// A byte of each lane.
type Line = [u8; LANES];
/// A speed in 0.1 km/h of each lane.
type Limits = [u16; LANES];

/// The tenth that no second reaches.
const FAR: u16 = 65_535;

/// The tables of sixteen vehicles.
struct Tables {
    /// The least tenth above each upshift speed.
    above: [Limits; 7],
    /// The last of them once more, which cruise and deceleration are not held against.
    last: Limits,
    /// The least tenth at or above the downshift 2 to 1.
    to_first: Limits,
    /// The least tenth at which the engine turns no slower than the clutch asks for, in each gear.
    limits: [Limits; 8],
}

impl Tables {
    fn empty() -> Tables {
        Tables { above: [[FAR; LANES]; 7], last: [FAR; LANES], to_first: [0; LANES], limits: [[0; LANES]; 8] }
    }

    /// Puts a vehicle into a lane; or says which second is too close to call.
    fn put(&mut self, lane: usize, v: &Vehicle, seconds: &[Second]) -> Result<(), [u32; 2]> {
        let shift = Shift::of(v);
        let (above, close) = close_tenths(&shift);
        for i in 0..7 {
            self.above[i][lane] = if i < shift.ndv.len() { above[i] as u16 } else { FAR };
        }
        self.last[lane] = above[shift.ndv.len() - 1] as u16;
        self.to_first[lane] = shift.to_first.div_ceil(v.ndv[1]).min(FAR.into()) as u16;
        for gear in 0..v.gears as usize {
            self.limits[gear][lane] = three_per_cent(v).div_ceil(v.ndv[gear]).min(FAR.into()) as u16;
        }
        first_close(&close[..shift.ndv.len()], seconds).map_or(Ok(()), |place| Err([9, place]))
    }

    /// The gears outside stop.
    #[inline]
    fn own(&self, accelerates: bool, speed: u16, line: &mut Line) {
        let mut all = [0; LANES];
        for above in &self.above {
            for lane in 0..LANES {
                all[lane] += u16::from(above[lane] <= speed);
            }
        }
        let mut gears = all.map(|all| all + 1);
        if !accelerates {
            for lane in 0..LANES {
                let top = u16::from(self.last[lane] <= speed);
                let higher = 0u16.wrapping_sub(u16::from(self.to_first[lane] <= speed));
                gears[lane] = ((all[lane].saturating_sub(top) + 1) & higher) + 1;
            }
        }
        *line = gears.map(|gear| gear as u8);
    }

    #[inline]
    fn drives(&self, speed: u16, gear: u8, lane: usize) -> bool {
        let mut count = 0u8;
        for (i, limits) in (1..).zip(&self.limits) {
            count += u8::from((gear == i) & (limits[lane] <= speed));
        }
        count > 0
    }
}

/// The rows before corrections.
fn first_rows(tables: &Tables, seconds: &[Second], stops: &[u8], row: &mut [Line]) {
    for ((line, &second), &stop) in row.iter_mut().zip(seconds).zip(stops) {
        if is_stop(second) {
            *line = [stop; LANES];
        } else {
            tables.own(phase(second) == ACCELERATION, speed(second) as u16, line);
        }
    }
}

/// What is kept of the second before: the cap of the next one, and the gears after corrections 3, 4 and 5.
struct Kept {
    cap: Line,
    by_3: Line,
    by_4: Line,
    by_5: Line,
}

fn not_first(second: Second, gear: u8) -> u8 {
    if no_first_gear(second) & (gear == 1) {
        2
    } else {
        gear
    }
}

impl Kept {
    /// Correction 1.
    #[inline]
    fn capped(&mut self, second: Second, line: &mut Line) {
        let own = *line;
        for lane in 0..LANES {
            line[lane] = if phase(second) == DECELERATION { own[lane].min(self.cap[lane]) } else { own[lane] };
        }
        for lane in 0..LANES {
            self.cap[lane] = match phase(second) {
                ACCELERATION => own[lane],
                DECELERATION => self.cap[lane],
                _ => 255,
            };
        }
    }

    /// Corrections 2 to 5.
    #[inline]
    fn ruled(&mut self, former: Option<Second>, second: Second, line: &mut Line) {
        let stands = is_stop(second);
        let keeps = !stands & no_gear_shift(second) & former.is_some_and(|former| !is_stop(former));
        let rises = (phase(second) == ACCELERATION) & former.is_some_and(|former| phase(former) == ACCELERATION);
        let steps = !stands & former.is_some();
        for gear in line.iter_mut() {
            *gear = if stands { *gear } else { not_first(second, *gear) };
        }
        for lane in 0..LANES {
            self.by_3[lane] = if keeps { not_first(second, self.by_3[lane]) } else { line[lane] };
        }
        for lane in 0..LANES {
            self.by_4[lane] = if rises { self.by_3[lane].max(self.by_4[lane]) } else { self.by_3[lane] };
        }
        for lane in 0..LANES {
            let (before, own) = (self.by_5[lane], self.by_4[lane]);
            let one_step = if before < own { before.wrapping_add(1) } else { before.wrapping_sub(u8::from(own < before)) };
            self.by_5[lane] = if steps { one_step } else { own };
        }
        *line = self.by_5;
    }
}

/// Corrections 1 to 5.
fn correct(seconds: &[Second], row: &mut [Line]) {
    let mut kept = Kept { cap: [255; LANES], by_3: [0; LANES], by_4: [0; LANES], by_5: [0; LANES] };
    let mut former = None;
    for (line, &second) in row.iter_mut().zip(seconds) {
        kept.capped(second, line);
        kept.ruled(former, second, line);
        former = Some(second);
    }
}

/// Of each lane's run that may still take the gear beside it: how many seconds it has, the gear on its left, 0 where it stays; and how many seconds take the gear
/// of the one now judged.
struct Runs {
    count: Line,
    left: Line,
    reach: Line,
}

fn left_after(marked: bool, count: u8, left: u8, before: u8, gear: u8) -> u8 {
    let on = if (3 < count) | (marked & (left == 1)) { 0 } else { left };
    let anew = if (left == gear) | (marked & (before == 1)) { 0 } else { before };
    if gear == before {
        on
    } else {
        anew
    }
}

impl Runs {
    #[inline]
    fn judge(&mut self, marked: bool, before: &Line, now: &Line) -> bool {
        for lane in 0..LANES {
            self.reach[lane] = if self.left[lane] == now[lane] { self.count[lane] } else { 0 };
        }
        for lane in 0..LANES {
            self.left[lane] = left_after(marked, self.count[lane], self.left[lane], before[lane], now[lane]);
        }
        for lane in 0..LANES {
            let count = self.count[lane];
            self.count[lane] = if now[lane] == before[lane] { count + u8::from(count < 5) } else { 1 };
        }
        self.reach.iter().fold(false, |any, &reach| any | (0 < reach))
    }
}

/// The last four seconds before second k, as far as each lane reaches.
fn take_back(reach: &Line, row: &mut [Line], k: usize) {
    let now = row[k];
    for (least, line) in (1..=4).zip(row[..k].iter_mut().rev()) {
        for lane in 0..LANES {
            let takes = mask(least <= reach[lane]);
            line[lane] = now[lane] & takes | line[lane] & !takes;
        }
    }
}

/// Correction 6.
fn smooth(seconds: &[Second], row: &mut [Line]) {
    let mut runs = Runs { count: [0; LANES], left: [0; LANES], reach: [0; LANES] };
    let mut behind_stop = true;
    for (k, &second) in seconds.iter().enumerate() {
        if behind_stop | is_stop(second) {
            runs.left = [0; LANES];
        } else if runs.judge(no_first_gear(second), &row[k - 1], &row[k]) {
            take_back(&runs.reach, row, k);
        }
        behind_stop = is_stop(second);
    }
}

/// The clutch, as 128 more.
fn set_clutch(tables: &Tables, seconds: &[Second], row: &mut [Line]) {
    let top = tables.limits.iter().flatten().fold(0, |top, &limit| top.max(limit));
    for (line, &second) in row.iter_mut().zip(seconds) {
        let tenth = speed(second) as u16;
        if is_stop(second) | (tenth < 100) {
            line.iter_mut().for_each(|gear| *gear |= 128);
        } else if tenth < top {
            for lane in 0..LANES {
                let out = !tables.drives(tenth, line[lane], lane);
                line[lane] |= u8::from(out) << 7;
            }
        }
    }
}

/// The row of a lane.
fn put_row(row: &[Line], lane: usize, part: &mut [u8]) {
    for (line, [gear, clutch]) in row.iter().zip(part.as_chunks_mut().0) {
        (*gear, *clutch) = (line[lane] % 128, line[lane] / 128);
    }
}

/// The row of every vehicle and what is said of it; or the first refusal of the whole, and all as it was lent.
pub fn write_rows(trace: &[u8], sheets: &[u32], rows: &mut [u8], answers: &mut [u32]) -> Result<(), Refusal> {
    let (seconds, sheets) = judge(trace, sheets, rows, answers)?;
    let (n, stops, marked) = (seconds.len(), stop_gears(seconds), first_marked(seconds));
    let mut row = [[0; LANES]; MOST_SECONDS];
    let row = &mut row[..n];
    let all = rows.chunks_mut(2 * n * LANES);
    for ((sheets, answers), rows) in sheets.chunks(LANES).zip(answers.as_chunks_mut().0.chunks_mut(LANES)).zip(all) {
        let mut tables = Tables::empty();
        for (lane, (&sheet, answer)) in sheets.iter().zip(&mut *answers).enumerate() {
            *answer = judge_lane(sheet, marked, |vehicle| tables.put(lane, vehicle, seconds));
        }
        first_rows(&tables, seconds, &stops, row);
        correct(seconds, row);
        smooth(seconds, row);
        set_clutch(&tables, seconds, row);
        for (lane, part) in rows.chunks_exact_mut(2 * n).take(sheets.len()).enumerate() {
            if answers[lane] == [0, 0] {
                put_row(row, lane, part);
            }
        }
    }
    Ok(())
}
