//! The exact sums of M-107 beside the ends of e to the power -x, and beside what the core makes of them: rows, shift speeds and their tenths.

use plain::exact::upshift;
use plain::fraction::Fraction;
use plain::gear::exponential;
use plain::sums::{sum_to, write_gears};
use ylhovesko::gear::Vehicle;

use crate::gear::{by_way, plain_vehicle, Answer, Case};
use crate::{speeds, tenths};

/// Every P and m of an accepted sheet, which has "19 P <= 150 (m + 75)" (01).
pub fn powers_and_masses() -> impl Iterator<Item = (u32, u32)> {
    (30..=1000).flat_map(|m| (1..=3000).take_while(move |p| 19 * p <= 150 * (m + 75)).map(move |p| (p, m)))
}

/// Whether a fraction in the place of e to the power -x "lies between our two ends", which are "in units of 1/2^32".
pub fn between_ends(p: u32, m: u32, e: Fraction) -> bool {
    let (lower, upper) = exponential(p, m);
    e.times(Fraction::new(1 << 32, 1)).between(lower, upper)
}

/// What the second implementation says by the exact sum to `last`, and the buffer after it.
pub fn by_sum(case: &Case, last: u32) -> Answer {
    by_way(|file, vehicle, buffer, start| write_gears(last, file, vehicle, buffer, start), case)
}

/// Each upshift speed of a vehicle in 0.001 km/h by the exact sum to `last`, from gear 1 on.
fn upshifts(vehicle: &Vehicle, last: u32) -> Vec<Fraction> {
    let vehicle = plain_vehicle(vehicle);
    let sum = sum_to(vehicle.p, vehicle.m, last);
    (1..vehicle.ng as usize).map(|gear| upshift(&vehicle, gear, sum)).collect()
}

/// Whether the ends of each upshift speed of an accepted vehicle hold the one by the exact sum to `last`.
pub fn speeds_hold(vehicle: &Vehicle, answer: &speeds::Answer, last: u32) -> bool {
    let exact = upshifts(vehicle, last);
    exact.len() == answer.upshifts.len() && exact.iter().zip(&answer.upshifts).all(|(speed, ends)| speed.between(ends.0, ends.1))
}

/// Whether each upshift speed of an accepted vehicle by the exact sum to `last` is below every tenth from the least above on, and above every tenth before the
/// least not below.
pub fn tenths_hold(vehicle: &Vehicle, answer: &tenths::Answer, last: u32) -> bool {
    let exact = upshifts(vehicle, last);
    let holds = |speed: &Fraction, (above, not_below): tenths::Tenths| {
        speed.is_below(100 * i128::from(above)) && speed.is_above(100 * (i128::from(not_below) - 1))
    };
    exact.len() == answer.upshifts.len() && exact.iter().zip(&answer.upshifts).all(|(speed, tenths)| holds(speed, *tenths))
}
