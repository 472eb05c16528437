//! The shift speeds of a vehicle in whole tenths: as stored, what each implementation says of them, and the gears that they give.

use plain::exact::{self, upshift};
use plain::fraction::Fraction;
use plain::gear::exponential;
use ylhovesko::gear::{ShiftTenths, Vehicle};

use crate::gear::{plain_vehicle, vehicle_of};
use crate::{core_told, plain_told, Told};

/// The least tenth above an upshift speed, and the least that is not below it.
pub type Tenths = (u32, u32);

/// The outcome; and where it is none of the refusals each upshift speed from gear 1 on, and the least tenth at or above the downshift 2 to 1 that rule set 2
/// has.
#[derive(Clone, Debug, PartialEq, Eq)]
pub struct Answer {
    pub told: Told,
    pub upshifts: Vec<Tenths>,
    pub to_first: Option<u32>,
}

/// The vehicle and the answer of a line of vectors/directed_tenths.txt.
pub fn read(text: &str) -> (Vehicle, Answer) {
    let n: Vec<u32> = text.split(' ').map(|word| word.parse().unwrap()).collect();
    let (vehicle, answer) = n.split_at(14);
    let vehicle = vehicle_of(vehicle.try_into().unwrap());
    let [number, place, tenths @ ..] = answer else { panic!("no answer: {text}") };
    let pairs = tenths.chunks_exact(2);
    let to_first = pairs.remainder().first().copied();
    assert_eq!(to_first.is_some(), *number == 0 && vehicle.rule_set == 2, "half a speed: {text}");
    (vehicle, Answer { told: [*number, *place, 0, 0], upshifts: pairs.map(|pair| (pair[0], pair[1])).collect(), to_first })
}

/// The answer as a line of vectors/directed_tenths.txt has it after the vehicle.
pub fn answer_text(Answer { told: [number, place, ..], upshifts, to_first }: &Answer) -> String {
    let tenths: String =
        upshifts.iter().flat_map(|&(above, not_below)| [above, not_below]).chain(*to_first).map(|n| format!(" {n}")).collect();
    format!("{number} {place}{tenths}")
}

fn refused(told: Told) -> Answer {
    Answer { told, upshifts: Vec::new(), to_first: None }
}

/// What the proved core says. `ylhovesko` sees to it that what lies past the count is 65,535, and what a refusal or rule set 1 does not give 0.
pub fn by_core(vehicle: &Vehicle) -> Answer {
    match ylhovesko::gear::shift_tenths(*vehicle) {
        Err(refusal) => refused(core_told(Err(refusal))),
        Ok(tenths) => Answer {
            told: core_told(Ok(())),
            upshifts: tenths.upshifts().iter().map(|each| (each.above, each.not_below)).collect(),
            to_first: tenths.to_first(),
        },
    }
}

/// What the second implementation says.
pub fn by_plain(vehicle: &Vehicle) -> Answer {
    match plain::tenths::shift_tenths(&plain_vehicle(vehicle)) {
        Err(refusal) => refused(plain_told(Err(refusal))),
        Ok(tenths) => Answer {
            told: plain_told(Ok(())),
            upshifts: tenths.upshifts[..tenths.count].iter().map(|each| (each.above, each.not_below)).collect(),
            to_first: (vehicle.rule_set == 2).then_some(tenths.to_first),
        },
    }
}

/// Whether a tenth is above a speed of 0.001 km/h and the one before is not.
fn is_least_above(tenth: u32, speed: Fraction) -> bool {
    let [before, at] = [100 * (i128::from(tenth) - 1), 100 * i128::from(tenth)];
    speed.between(before, at) && !speed.between(at, at)
}

/// Whether a tenth is at or above a speed of 0.001 km/h and the one before is not.
fn is_least_not_below(tenth: u32, speed: Fraction) -> bool {
    let [before, at] = [100 * (i128::from(tenth) - 1), 100 * i128::from(tenth)];
    speed.between(before, at) && !speed.between(before, before)
}

/// Whether the tenths of an accepted vehicle are those of its speeds as fractions, by 001's equations with the upper and with the lower end of e to the power
/// -x, and by 004's for the downshift 2 to 1; and whether no upshift has more than one tenth that is too close.
pub fn hold_exact(vehicle: &Vehicle, answer: &Answer) -> bool {
    let vehicle = plain_vehicle(vehicle);
    let ends = exponential(vehicle.p, vehicle.m);
    let [lower, upper] = [ends.0, ends.1].map(|end| Fraction::new(end, 1 << 32));
    let holds = |gear: usize, (above, not_below): Tenths| {
        is_least_above(above, upshift(&vehicle, gear, upper))
            && is_least_not_below(not_below, upshift(&vehicle, gear, lower))
            && (above == not_below || above == not_below + 1)
    };
    let to_first = answer.to_first.is_none_or(|tenth| is_least_not_below(tenth, exact::to_first(&vehicle)));
    to_first && (1..).zip(&answer.upshifts).all(|(gear, tenths)| holds(gear, *tenths))
}

/// The gear before corrections of a second outside stop, as include/ylhovesko.h counts it; nothing where the speed is too close to call.
pub fn gear(tenths: &ShiftTenths, accelerates: bool, speed: u32) -> Option<u8> {
    let held = if accelerates { tenths.upshifts() } else { tenths.downshifts() };
    if held.iter().any(|each| each.not_below <= speed && speed < each.above) {
        return None;
    }
    let above = held.iter().filter(|each| speed >= each.above).count() as u8;
    let to_first = tenths.to_first().unwrap_or(0);
    Some(match accelerates {
        true => 1 + above,
        false if speed < to_first => 1,
        false => 2 + above,
    })
}
