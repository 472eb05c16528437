//! The shift speeds of a vehicle: as stored, and what each implementation says of them.

use plain::exact::{self, series, upshift};
use plain::figure::Figure;
use plain::fraction::Fraction;
use plain::gear::exponential;
use ylhovesko::gear::Vehicle;
use ylhovesko::Ends;

use crate::gear::{plain_vehicle, vehicle_of};
use crate::{core_told, plain_told, Told};

/// The lower and the upper end of a speed in 0.001 km/h.
pub type Speed = (i128, i128);

/// The outcome; and where it is none of the refusals each upshift speed from gear 1 on, and the downshift 2 to 1 that rule set 2 has.
#[derive(Clone, Debug, PartialEq, Eq)]
pub struct Answer {
    pub told: Told,
    pub upshifts: Vec<Speed>,
    pub to_first: Option<Speed>,
}

/// The vehicle and the answer of a line of vectors/directed_speeds.txt.
pub fn read(text: &str) -> (Vehicle, Answer) {
    let n: Vec<i128> = text.split(' ').map(|word| word.parse().unwrap()).collect();
    let (vehicle, answer) = n.split_at(14);
    let vehicle = vehicle_of(std::array::from_fn(|at| vehicle[at] as u32));
    let [number, place, ends @ ..] = answer else { panic!("no answer: {text}") };
    assert!(ends.len().is_multiple_of(2), "half a speed: {text}");
    let mut upshifts: Vec<Speed> = ends.chunks(2).map(|ends| (ends[0], ends[1])).collect();
    let to_first = if vehicle.rule_set == 2 { upshifts.pop() } else { None };
    (vehicle, Answer { told: [*number as u32, *place as u32, 0, 0], upshifts, to_first })
}

/// The answer as a line of vectors/directed_speeds.txt has it after the vehicle.
pub fn answer_text(Answer { told: [number, place, ..], upshifts, to_first }: &Answer) -> String {
    let ends: String = upshifts.iter().chain(to_first).map(|(lower, upper)| format!(" {lower} {upper}")).collect();
    format!("{number} {place}{ends}")
}

fn refused(told: Told) -> Answer {
    Answer { told, upshifts: Vec::new(), to_first: None }
}

/// What the proved core says. The count is that of the speeds; `ylhovesko` sees to it that what lies past it is 0.
pub fn by_core(vehicle: &Vehicle) -> Answer {
    let of = |ends: &Ends| (ends.lower.into(), ends.upper.into());
    match ylhovesko::gear::shift_speeds(*vehicle) {
        Err(refusal) => refused(core_told(Err(refusal))),
        Ok(speeds) => Answer {
            told: core_told(Ok(())),
            upshifts: speeds.upshifts().iter().map(of).collect(),
            to_first: speeds.to_first().as_ref().map(of),
        },
    }
}

/// What the second implementation says.
pub fn by_plain(vehicle: &Vehicle) -> Answer {
    let of = |figure: &Figure| (figure.lower, figure.upper);
    match plain::gear::shift_speeds(&plain_vehicle(vehicle)) {
        Err(refusal) => refused(plain_told(Err(refusal))),
        Ok(speeds) => Answer {
            told: plain_told(Ok(())),
            upshifts: speeds.upshifts.iter().map(of).collect(),
            to_first: speeds.to_first.as_ref().map(of),
        },
    }
}

/// Whether each speed of an accepted vehicle lies between its ends: an upshift with the lower and with the upper end of e to the power -x, and with the two
/// sums of the series that e to the power -x itself lies between; the downshift 2 to 1 by itself.
pub fn hold_exact(vehicle: &Vehicle, answer: &Answer) -> bool {
    let vehicle = plain_vehicle(vehicle);
    let ends = exponential(vehicle.p, vehicle.m);
    let powers = [Fraction::new(ends.0, 1 << 32), Fraction::new(ends.1, 1 << 32), series(&vehicle, 23), series(&vehicle, 24)];
    let holds = |gear: usize, ends: &Speed| powers.iter().all(|e| upshift(&vehicle, gear, *e).between(ends.0, ends.1));
    let to_first = answer.to_first.is_none_or(|ends| exact::to_first(&vehicle).between(ends.0, ends.1));
    to_first && (1..).zip(&answer.upshifts).all(|(gear, ends)| holds(gear, ends))
}
