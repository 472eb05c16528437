//! The gear sheet, refusals 1 to 7, 20, 8 and 9; and the writer of traces, refusals 2, 4 and 8.

use ylhovesko::gear::Vehicle;
use ylhovesko::Refusal;

use crate::{at, check, nowhere};

pub(crate) const MOST_SECONDS: usize = 2000;

pub(crate) const STOP: u8 = 0;
pub(crate) const ACCELERATION: u8 = 1;
pub(crate) const DECELERATION: u8 = 3;

pub(crate) type Second = [u8; 4];

pub(crate) fn speed(second: Second) -> u32 {
    u32::from(u16::from_le_bytes([second[0], second[1]]))
}

pub(crate) fn phase(second: Second) -> u8 {
    second[2] & 3
}

pub(crate) fn is_stop(second: Second) -> bool {
    phase(second) == STOP
}

pub(crate) fn no_gear_shift(second: Second) -> bool {
    second[2] & 4 != 0
}

pub(crate) fn no_first_gear(second: Second) -> bool {
    second[2] & 8 != 0
}

pub(crate) fn is_marked(second: Second) -> bool {
    second[2] > DECELERATION
}

/// The greatest flags of a second: version 1 has the phase and two marks, version 2 the phase alone.
fn most_flags(trace: &[u8]) -> Option<u8> {
    match trace {
        [b'W', b'T', b'R', 0, 1, 0, _, _, ..] => Some(15),
        [b'W', b'T', b'R', 0, 2, 0, _, _, ..] => Some(DECELERATION),
        _ => None,
    }
}

pub(crate) fn judge_trace(trace: &[u8]) -> Result<&[Second], Refusal> {
    let most = most_flags(trace).ok_or(nowhere(1))?;
    let count = usize::from(u16::from_le_bytes([trace[6], trace[7]]));
    check((1..=MOST_SECONDS).contains(&count), nowhere(2))?;
    check(trace.len() == 8 + 4 * count, nowhere(3))?;
    let seconds = trace[8..].as_chunks().0;
    for (k, &second) in seconds.iter().enumerate() {
        check(speed(second) <= 2000 && second[2] <= most && second[3] == 0, at(4, k as u32 + 1))?;
    }
    Ok(seconds)
}

/// Rule set 2 takes no mark.
fn judge_marks(v: &Vehicle, seconds: &[Second]) -> Result<(), Refusal> {
    let marked = if v.rule_set == 2 { seconds.iter().position(|&second| is_marked(second)) } else { None };
    marked.map_or(Ok(()), |k| Err(at(20, k as u32 + 1)))
}

pub(crate) fn judge_vehicle(v: &Vehicle) -> Result<(), Refusal> {
    check((1..=3000).contains(&v.power), at(5, 1))?;
    check((30..=1000).contains(&v.mass), at(5, 2))?;
    check((1000..=20_000).contains(&v.rated), at(5, 3))?;
    check((300..=3000).contains(&v.idle) && v.idle <= v.rated - 500, at(5, 4))?;
    check((3..=8).contains(&v.gears), at(5, 5))?;
    let ndv = &v.ndv[..v.gears as usize];
    for (gear, each) in ndv.iter().enumerate() {
        check((1000..=100_000).contains(each), at(5, gear as u32 + 6))?;
    }
    check(v.rule_set == 1 || v.rule_set == 2, at(5, 14))?;
    for (gear, pair) in ndv.windows(2).enumerate() {
        check(pair[1] < pair[0], at(6, gear as u32 + 2))?;
    }
    check(19 * v.power <= 150 * (v.mass + 75), nowhere(7))
}

/// The ends of e to the power -x in units of 1/2^32.
fn exponential(v: &Vehicle) -> (i64, i64) {
    let over = 19 * i64::from(v.power);
    let under = 100 * (i64::from(v.mass) + 75);
    let (mut low, mut high) = (1_i64 << 32, 1_i64 << 32);
    let (mut lower, mut upper) = (low, high);
    for k in 1..=23 {
        let divisor = under * k;
        low = low * over / divisor;
        high = (high * over + divisor - 1) / divisor;
        if k % 2 == 0 {
            (lower, upper) = (lower + low, upper + high);
        } else {
            (lower, upper) = (lower - high, upper - low);
        }
    }
    let divisor = under * 24;
    (lower, upper + (high * over + divisor - 1) / divisor)
}

/// What a speed times a ratio is held against, for the first upshift, for the others, and for the downshift 2 to 1, which is 0 under rule set 1.
pub(crate) struct Shift<'a> {
    pub(crate) first: (i64, i64),
    pub(crate) higher: (i64, i64),
    pub(crate) to_first: u32,
    pub(crate) ndv: &'a [u32],
}

impl Shift<'_> {
    pub(crate) fn of(v: &Vehicle) -> Shift<'_> {
        let ends = exponential(v);
        let span = i64::from(v.rated - v.idle);
        let side = |e: i64, tenth: i64| (5753 * e - tenth) * span + (10_000_i64 << 32) * i64::from(v.idle);
        Shift {
            first: (side(ends.0, 1000 << 32), side(ends.1, 1000 << 32)),
            higher: (side(ends.0, 0), side(ends.1, 0)),
            to_first: if v.rule_set == 2 { three_per_cent(v) } else { 0 },
            ndv: &v.ndv[..v.gears as usize - 1],
        }
    }

    /// How many of the first `few` shift speeds the speed is above; nothing where one of them is too close to call.
    fn above(&self, few: usize, speed: u32) -> Option<u8> {
        let (mut above, mut close) = (0, false);
        for (i, &ndv) in self.ndv[..few].iter().enumerate() {
            let (lower, upper) = if i == 0 { self.first } else { self.higher };
            let engine = (10 << 32) * (i64::from(speed) * i64::from(ndv));
            above += u8::from(engine > upper);
            close |= engine >= lower && engine <= upper;
        }
        (!close).then_some(above)
    }

    /// The gear before corrections.
    pub(crate) fn own(&self, second: Second) -> Option<u8> {
        match phase(second) {
            STOP => Some(0),
            ACCELERATION => Some(1 + self.above(self.ndv.len(), speed(second))?),
            _ => {
                let above = self.above(self.ndv.len() - 1, speed(second))?;
                Some(if speed(second) * self.ndv[1] < self.to_first { 1 } else { 2 + above })
            }
        }
    }
}

fn stop_gears(seconds: &[Second], row: &mut [u8]) {
    let mut left = 0;
    for k in (0..seconds.len()).rev() {
        if is_stop(seconds[k]) {
            left += 1;
            row[k] = u8::from(left <= 5);
        } else {
            left = 0;
        }
    }
}

fn correction_1(seconds: &[Second], row: &mut [u8]) {
    let mut cap = None;
    for k in 0..seconds.len() {
        if phase(seconds[k]) == DECELERATION {
            row[k] = cap.map_or(row[k], |gear| row[k].min(gear));
        } else {
            cap = (phase(seconds[k]) == ACCELERATION).then_some(row[k]);
        }
    }
}

fn correction_2(seconds: &[Second], row: &mut [u8]) {
    for (gear, &second) in row.iter_mut().zip(seconds) {
        if !is_stop(second) && no_first_gear(second) && *gear == 1 {
            *gear = 2;
        }
    }
}

fn correction_3(seconds: &[Second], row: &mut [u8]) {
    for k in 1..seconds.len() {
        if !is_stop(seconds[k]) && no_gear_shift(seconds[k]) && !is_stop(seconds[k - 1]) {
            row[k] = if row[k - 1] == 1 && no_first_gear(seconds[k]) { 2 } else { row[k - 1] };
        }
    }
}

fn correction_4(seconds: &[Second], row: &mut [u8]) {
    for k in 1..seconds.len() {
        if phase(seconds[k - 1]) == ACCELERATION && phase(seconds[k]) == ACCELERATION {
            row[k] = row[k].max(row[k - 1]);
        }
    }
}

fn correction_5(seconds: &[Second], row: &mut [u8]) {
    for k in 1..seconds.len() {
        if !is_stop(seconds[k]) {
            row[k] = row[k].clamp(row[k - 1].saturating_sub(1), row[k - 1] + 1);
        }
    }
}

/// The first second past the run of one gear that starts at second k.
fn run_end(seconds: &[Second], row: &[u8], k: usize) -> usize {
    let mut end = k;
    while end < seconds.len() && !is_stop(seconds[end]) && row[end] == row[k] {
        end += 1;
    }
    end
}

fn correction_6(seconds: &[Second], row: &mut [u8]) {
    let mut first = 0;
    while first < seconds.len() {
        if is_stop(seconds[first]) {
            first += 1;
            continue;
        }
        let end = run_end(seconds, row, first);
        let between = first > 0 && !is_stop(seconds[first - 1]) && end < seconds.len() && !is_stop(seconds[end]);
        let takes = between && end - first <= 4 && row[first - 1] == row[end];
        if takes && (row[end] != 1 || !seconds[first..end].iter().any(|&second| no_first_gear(second))) {
            let other = row[end];
            row[first..end].fill(other);
            first = run_end(seconds, row, end);
        } else {
            first = end;
        }
    }
}

/// n + 0.03 (s - n) in 0.001 per minute.
pub(crate) fn three_per_cent(v: &Vehicle) -> u32 {
    1000 * v.idle + 30 * (v.rated - v.idle)
}

/// The clutch of a second with the ratio of its final gear, by the engine speed that it must reach.
pub(crate) fn clutch(second: Second, ndv: u32, least: u32) -> u8 {
    u8::from(is_stop(second) || speed(second) < 100 || speed(second) * ndv < least)
}

/// The gear and clutch of every second into the buffer from the start on; or the first refusal, and the buffer as it was lent.
pub fn write_gears(trace: &[u8], vehicle: &Vehicle, buffer: &mut [u8], start: usize) -> Result<(), Refusal> {
    let seconds = judge_trace(trace)?;
    judge_vehicle(vehicle)?;
    judge_marks(vehicle, seconds)?;
    let n = seconds.len();
    let part = buffer.get_mut(start..).and_then(|part| part.get_mut(..2 * n)).ok_or(nowhere(8))?;
    let shift = Shift::of(vehicle);
    let mut row = [0; MOST_SECONDS];
    let row = &mut row[..n];
    for (k, &second) in seconds.iter().enumerate() {
        row[k] = shift.own(second).ok_or(at(9, k as u32 + 1))?;
    }
    stop_gears(seconds, row);
    correction_1(seconds, row);
    correction_2(seconds, row);
    correction_3(seconds, row);
    correction_4(seconds, row);
    correction_5(seconds, row);
    correction_6(seconds, row);
    let least = three_per_cent(vehicle);
    for ((out, &gear), &second) in part.as_chunks_mut().0.iter_mut().zip(&*row).zip(seconds) {
        // neutral has no ratio, and stands at stops alone
        let ndv = vehicle.ndv[usize::from(gear.max(1)) - 1];
        *out = [gear, clutch(second, ndv, least)];
    }
    Ok(())
}

/// The trace of version 2 with these speeds and phases at the front of the buffer; or the first refusal, and the buffer as it was lent.
pub fn write_trace(numbers: &[u16], buffer: &mut [u8]) -> Result<(), Refusal> {
    let (seconds, alone) = numbers.as_chunks();
    let n = seconds.len();
    check(alone.is_empty() && (1..=MOST_SECONDS).contains(&n), nowhere(2))?;
    for (k, &[speed, phase]) in seconds.iter().enumerate() {
        check(speed <= 2000 && phase <= u16::from(DECELERATION), at(4, k as u32 + 1))?;
    }
    let (head, rest) = buffer.get_mut(..8 + 4 * n).ok_or(nowhere(8))?.split_at_mut(8);
    head[..6].copy_from_slice(b"WTR\0\x02\0");
    head[6..].copy_from_slice(&(n as u16).to_le_bytes());
    for (out, &[speed, phase]) in rest.as_chunks_mut().0.iter_mut().zip(seconds) {
        let [low, high] = speed.to_le_bytes();
        *out = [low, high, phase as u8, 0];
    }
    Ok(())
}
