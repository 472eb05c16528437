//! The emission sheet (01, Bag sheet and figures; 02, M-104 and M-108), refusals 10 to 14 and 19. Gases go HC, CO, NOx, CO2 and, where the test has it, NMHC.

use crate::figure::{combined, Figure};
use crate::{at, check, nowhere, Refusal};

/// "The record holds five gases throughout" (02, M-108).
pub const GASES: usize = 5;

pub(crate) const HC: usize = 0;
pub(crate) const CO: usize = 1;
pub(crate) const NOX: usize = 2;
pub(crate) const CO2: usize = 3;
/// Hydrocarbons without methane. Among the readings its place is the cutter's.
pub(crate) const NMHC: usize = 4;

/// "The analyser's message, which is ppm with a 32-bit float, percent with a 32-bit float, over range, or not fitted."
#[derive(Clone, Copy, Debug)]
pub enum Message {
    Ppm(f32),
    Percent(f32),
    OverRange,
    NotFitted,
}

/// Fields 1 to 9 of a part, in their order, and its readings.
#[derive(Clone, Copy, Debug)]
pub struct Part {
    pub pump: u32,
    pub revolutions: u32,
    pub pa: u32,
    pub pi: u32,
    pub t: i32,
    pub humidity: u32,
    pub saturation: u32,
    pub distance: u32,
    pub density: [u32; GASES],
    pub bag: [Message; GASES],
    pub air: [Message; GASES],
}

/// The class, the count of parts, and fields 10 to 13: the triple, the fuel sheet with its carbon factors f1 to f3, the limits, and the cutter's efficiencies.
#[derive(Clone, Copy, Debug)]
pub struct Sheet {
    pub class: u32,
    pub count: u32,
    pub d: u32,
    pub wc: u32,
    pub wh: u32,
    pub k: u32,
    pub f: [u32; 3],
    pub fuel_density: u32,
    pub limits: [u64; GASES],
    pub methane: u32,
    pub ethane: u32,
    pub parts: [Part; 3],
}

/// "The float's exact value in 1/256 ppm rounded down and up" (02, M-104), where `each` is what one of the float's measure has. Nothing where the message
/// is unusable by the float itself.
fn scaled_float(x: f32, each: i128) -> Option<Figure> {
    if !x.is_finite() || x < 0.0 {
        return None;
    }
    let bits = x.to_bits() & 0x7fff_ffff;
    let (exponent, fraction) = ((bits >> 23) as i32, i128::from(bits & 0x7f_ffff));
    let (mantissa, power) = if exponent == 0 { (fraction, -149) } else { (fraction + (1 << 23), exponent - 150) };
    let product = mantissa * each;
    // the product has under 46 bits: from 2^20 on it is over every limit, and from 2^-46 down between 0 and 1, so that 2^-100 does for all below it
    match power {
        20.. => None,
        0.. => Some(Figure::of(product << power, 1)),
        _ => Some(Figure::of(product, 1 << (-power).min(100))),
    }
}

/// "A converted reading becomes two ends" (02, M-104): a message in units of 1/256 ppm, or nothing where it is unusable. "Refusal 12's 16,777,216 units are
/// judged on the upper end, its 'below zero' still on the float itself."
///
/// ```
/// use plain::bags::{units, Message};
/// let ends = |message| units(message).map(|units| (units.lower, units.upper));
/// assert_eq!(ends(Message::Ppm(1.0 / 512.0)), Some((0, 1)));
/// assert_eq!(ends(Message::Ppm(1.0 / 256.0)), Some((1, 1)));
/// assert_eq!(ends(Message::Ppm(65536.0)), Some((16_777_216, 16_777_216)));
/// assert_eq!(ends(Message::Percent(-0.0)), Some((0, 0)));
/// assert_eq!(ends(Message::Percent(1.0e-45)), Some((0, 1)));
/// assert_eq!(ends(Message::OverRange), None);
/// ```
pub fn units(message: Message) -> Option<Figure> {
    let units = match message {
        Message::Ppm(x) => scaled_float(x, 256),
        Message::Percent(x) => scaled_float(x, 2_560_000),
        Message::OverRange | Message::NotFitted => None,
    };
    units.filter(|units| units.upper <= 16_777_216)
}

/// "Class 1, parts 50 and 50 percent; class 2, 30 and 70; class 3, 25, 50 and 25."
pub(crate) fn weights(class: u32) -> Option<&'static [u32]> {
    match class {
        1 => Some(&[50, 50]),
        2 => Some(&[30, 70]),
        3 => Some(&[25, 50, 25]),
        _ => None,
    }
}

fn field(part: u32, field: u32, holds: bool) -> Result<(), Refusal> {
    check(holds, Refusal { within: field, ..at(11, part) })
}

/// Refusal 11 of the test's own fields.
fn judge_test(s: &Sheet) -> Result<(), Refusal> {
    field(0, 10, (100..=200).contains(&s.d) && s.wc <= 20 && s.wh <= 20)?;
    let fuel = (1..=1500).contains(&s.k) && s.f.iter().all(|&f| f <= 1000) && (600..=1000).contains(&s.fuel_density);
    field(0, 11, fuel)?;
    field(0, 12, s.limits.iter().all(|&limit| limit <= 1_000_000_000_000))?;
    field(0, 13, s.methane <= 1000 && s.ethane <= 1000)
}

/// Refusal 11 of a part.
fn judge_part(place: u32, p: &Part) -> Result<(), Refusal> {
    field(place, 1, (100..=20_000).contains(&p.pump))?;
    field(place, 2, (1..=100_000).contains(&p.revolutions) && p.pump * p.revolutions <= 1_000_000_000)?;
    field(place, 3, (80_000..=110_000).contains(&p.pa))?;
    field(place, 4, p.pi <= 20_000)?;
    field(place, 5, (-400..=1500).contains(&p.t))?;
    field(place, 6, p.humidity <= 1000)?;
    field(place, 7, p.saturation <= 12_000)?;
    field(place, 8, (100..=100_000).contains(&p.distance))?;
    field(place, 9, p.density.iter().all(|density| (1..=2_100_000).contains(density)))
}

/// The parts that the class has, of a sheet that 10 accepts.
pub(crate) fn used_parts(s: &Sheet) -> &[Part] {
    &s.parts[..s.count as usize]
}

/// "'Not fitted' for the cutter reading of bag or air in any part leaves the fifth absent for the whole test" (02, M-108).
pub(crate) fn has_nmhc(s: &Sheet) -> bool {
    let fitted = |messages: &[Message; GASES]| !matches!(messages[NMHC], Message::NotFitted);
    used_parts(s).iter().all(|part| fitted(&part.bag) && fitted(&part.air))
}

/// The readings of a part in units, the cutter's last where it is fitted.
#[derive(Default)]
struct Readings {
    bag: Vec<Figure>,
    air: Vec<Figure>,
}

/// Refusal 12 of a part: gas by gas, the bag before the air. That the cutter is not fitted is no fault.
fn readings(place: u32, p: &Part) -> Result<Readings, Refusal> {
    let mut readings = Readings::default();
    for gas in 0..GASES {
        for (side, message, taken) in [(1, p.bag[gas], &mut readings.bag), (2, p.air[gas], &mut readings.air)] {
            let unusable = Refusal { within: gas as u32 + 1, side, ..at(12, place) };
            match message {
                Message::NotFitted if gas == NMHC => {}
                _ => taken.push(units(message).ok_or(unusable)?),
            }
        }
    }
    Ok(readings)
}

/// "G = 10 CO2 + wc CO + wh HC in bag units, Q = 2,560,000 D." Each end of G has that end of the three. It "stays on total HC" (02, M-108).
fn g_and_q(s: &Sheet, bag: &[Figure]) -> (Figure, i128) {
    (combined(&[(10, bag[CO2]), (s.wc, bag[CO]), (s.wh, bag[HC])], 1), 2_560_000 * i128::from(s.d))
}

/// "G must be below Q", and "13 is judged on the upper end of G" (02, M-104).
fn lean_enough(s: &Sheet, bag: &[Figure]) -> bool {
    let (g, q) = g_and_q(s, bag);
    g.upper < q
}

/// "g = fields 6 x 7, B = 1,000 Pa - g."
fn g_and_b(p: &Part) -> (i128, i128) {
    let g = i128::from(p.humidity) * i128::from(p.saturation);
    (g, 1000 * i128::from(p.pa) - g)
}

/// "H at most 30", with document 001's H = 6,211 g / (10 B).
fn dry_enough(p: &Part) -> bool {
    let (g, b) = g_and_b(p);
    6211 * g <= 300 * b
}

/// "Kh in 1/65,536", with document 001's H: 10^6 B / (1,352,030 B - 20,434,190 g).
fn kh(p: &Part) -> Figure {
    let (g, b) = g_and_b(p);
    Figure::of(65_536 * 1_000_000 * b, 1_352_030 * b - 20_434_190 * g)
}

/// "Volume, ml", with document 001's constants: fields 1 x 2 x (Pa - Pi) x 5,863 / (101,325 (2 T + 5,463)).
fn volume(p: &Part) -> Figure {
    let pumped = i128::from(p.pump) * i128::from(p.revolutions);
    let pressure = i128::from(p.pa) - i128::from(p.pi);
    Figure::of(pumped * pressure * 5863, 101_325 * (2 * i128::from(p.t) + 5463))
}

/// 19 is for "ethane efficiency .. under methane efficiency plus 500" (02, M-108).
fn cuts_enough(s: &Sheet) -> bool {
    s.ethane >= s.methane + 500
}

/// "(Reading without cutter x (1 - methane efficiency) - reading with cutter) / (ethane efficiency - methane efficiency)" (02, M-108), with both sides of the
/// fraction in thousandths; "signed and as ends in 1/256 ppm".
fn without_methane(s: &Sheet, without_cutter: Figure, with_cutter: Figure) -> Figure {
    let [methane, ethane] = [s.methane, s.ethane].map(i128::from);
    let outcomes = without_cutter.both().map(|without| with_cutter.both().map(|with| without * (1000 - methane) - with * 1000));
    Figure::outermost(outcomes.as_flattened(), ethane - methane)
}

/// What the bag or the air has of every gas of the test "before the dilution correction" (02, M-108).
fn undiluted(s: &Sheet, readings: &[Figure]) -> Vec<Figure> {
    let fifth = has_nmhc(s).then(|| without_methane(s, readings[HC], readings[NMHC]));
    readings[..NMHC].iter().copied().chain(fifth).collect()
}

/// "Corrected concentration, signed, 1/4,096 ppm: 16 (bag Q - air (Q - G)) / Q." Bag, air and G "take both, each at the choice that gives the outer result"
/// (02, M-104): each on its own, so that there are eight.
fn concentration(bag: Figure, air: Figure, g: Figure, q: i128) -> Figure {
    let outcomes = bag.both().map(|bag| air.both().map(|air| g.both().map(|g| 16 * (bag * q - air * (q - g)))));
    Figure::outermost(outcomes.as_flattened().as_flattened(), q)
}

/// "Gas volume, microlitres: volume x concentration / 4,096,000."
fn gas_volume(volume: Figure, concentration: Figure) -> Figure {
    volume.times(concentration, 4_096_000)
}

/// "Mass, micrograms: gas volume x density / 10^6."
fn mass(gas_volume: Figure, density: u32) -> Figure {
    gas_volume.scaled(density, 1_000_000)
}

/// "Rate, micrograms/km: 1,000 x mass / distance."
fn rate(mass: Figure, distance: u32) -> Figure {
    mass.scaled(1000, i128::from(distance))
}

/// The volume in ml, and of every gas of the test the corrected concentration in 1/4,096 ppm, the mass in micrograms and the rate in micrograms/km.
#[derive(Clone, Debug)]
pub struct PartResult {
    pub volume: Figure,
    pub concentration: Vec<Figure>,
    pub mass: Vec<Figure>,
    pub rate: Vec<Figure>,
}

fn part_result(s: &Sheet, p: &Part, r: &Readings) -> PartResult {
    let volume = volume(p);
    let (g, q) = g_and_q(s, &r.bag);
    let sides = undiluted(s, &r.bag).into_iter().zip(undiluted(s, &r.air));
    let concentration: Vec<Figure> = sides.map(|(bag, air)| concentration(bag, air, g, q)).collect();
    let weigh = |(concentration, density): (&Figure, &u32)| mass(gas_volume(volume, *concentration), *density);
    let mut mass: Vec<Figure> = concentration.iter().zip(&p.density).map(weigh).collect();
    mass[NOX] = mass[NOX].times(kh(p), 65_536);
    let rate = mass.iter().map(|mass| rate(*mass, p.distance)).collect();
    PartResult { volume, concentration, mass, rate }
}

#[derive(Clone, Copy, Debug, PartialEq, Eq)]
pub enum Verdict {
    Pass,
    Fail,
    Undecided,
}

/// "Pass, upper end at or below the limit; fail, lower end above; else undecided."
fn verdict(weighted: &Figure, limit: u64) -> Verdict {
    let limit = i128::from(limit);
    if weighted.upper <= limit {
        Verdict::Pass
    } else if weighted.lower > limit {
        Verdict::Fail
    } else {
        Verdict::Undecided
    }
}

/// Of every gas of the test the weighted result in micrograms/km and its verdict, the fuel in microlitres per 100 km, and as many parts as the class has.
#[derive(Clone, Debug)]
pub struct TestResult {
    pub parts: Vec<PartResult>,
    pub weighted: Vec<Figure>,
    pub verdicts: Vec<Verdict>,
    pub fuel: Figure,
}

/// The readings of every part of the class, or the first of the refusals 10 to 14 and 19. Parts past the class's number are not read.
fn judge(s: &Sheet) -> Result<Vec<Readings>, Refusal> {
    check(weights(s.class).is_some_and(|weights| weights.len() == s.count as usize), nowhere(10))?;
    let parts = || (1..).zip(used_parts(s));
    judge_test(s)?;
    parts().try_for_each(|(place, part)| judge_part(place, part))?;
    let readings = parts().map(|(place, part)| readings(place, part)).collect::<Result<Vec<Readings>, Refusal>>()?;
    (1..).zip(&readings).try_for_each(|(place, readings)| check(lean_enough(s, &readings.bag), at(13, place)))?;
    parts().try_for_each(|(place, part)| check(dry_enough(part), at(14, place)))?;
    check(!has_nmhc(s) || cuts_enough(s), nowhere(19))?;
    Ok(readings)
}

/// The full result of a test, or the first of the refusals 10 to 14 and 19.
pub fn test(s: &Sheet) -> Result<TestResult, Refusal> {
    let readings = judge(s)?;
    let parts: Vec<PartResult> = used_parts(s).iter().zip(&readings).map(|(part, readings)| part_result(s, part, readings)).collect();
    let gases = if has_nmhc(s) { GASES } else { NMHC };
    let weighted: Vec<Figure> = (0..gases).map(|gas| weighted(s.class, parts.iter().map(|part| part.rate[gas]))).collect();
    let verdicts = weighted.iter().zip(s.limits).map(|(weighted, limit)| verdict(weighted, limit)).collect();
    let fuel = fuel(s, &weighted);
    Ok(TestResult { parts, weighted, verdicts, fuel })
}

/// The parts' rates of one gas by the weights of a class that there is.
fn weighted(class: u32, rates: impl Iterator<Item = Figure>) -> Figure {
    let weights = weights(class).unwrap().iter().copied();
    combined(&weights.zip(rates).collect::<Vec<_>>(), 100)
}

/// "k (f1 HC + f2 CO + f3 CO2) / (10,000 x fuel density), from the weighted ends." It "stays on total HC" (02, M-108).
fn fuel(s: &Sheet, weighted: &[Figure]) -> Figure {
    let [f1, f2, f3] = s.f.map(|f| s.k * f);
    combined(&[(f1, weighted[HC]), (f2, weighted[CO]), (f3, weighted[CO2])], 10_000 * i128::from(s.fuel_density))
}

#[cfg(test)]
mod known_figures {
    //! 01's known figures; where document 001's constants decide, as docs/DECISIONS.md has them.

    use super::*;

    fn ends(figure: Figure) -> (i128, i128) {
        (figure.lower, figure.upper)
    }

    fn exactly(n: i128) -> Figure {
        Figure { lower: n, upper: n }
    }

    fn part() -> Part {
        let nothing = [Message::Ppm(0.0); GASES];
        let density = [2_050_000; GASES];
        let (pump, revolutions, pa, pi, t) = (5000, 10_000, 101_300, 0, 0);
        Part { pump, revolutions, pa, pi, t, humidity: 0, saturation: 0, distance: 4000, density, bag: nothing, air: nothing }
    }

    fn sheet(d: u32, wc: u32, wh: u32) -> Sheet {
        let (k, f, fuel_density, limits, methane, ethane) = (1154, [0, 0, 273], 750, [0; GASES], 0, 1000);
        Sheet { class: 1, count: 2, d, wc, wh, k, f, fuel_density, limits, methane, ethane, parts: [part(); 3] }
    }

    #[test]
    fn volumes_and_masses() {
        assert_eq!(ends(volume(&part())), (53_647_752, 53_647_753));
        let cold = volume(&Part { t: -300, ..part() });
        assert_eq!(ends(cold), (60_266_845, 60_266_846));
        let (sheet, ppm) = (sheet(145, 0, 0), |x| units(Message::Ppm(x)).unwrap());
        let [bag, air] = [[0.0, 0.0, 10.0, 14_500.0], [0.0, 0.0, 20.0, 0.0]].map(|side| side.map(ppm));
        let (g, q) = g_and_q(&sheet, &bag);
        let below_zero = concentration(bag[NOX], air[NOX], g, q);
        assert_eq!(ends(below_zero), (-32_768, -32_768));
        assert_eq!(ends(gas_volume(cold, below_zero)), (-482_135, -482_134));
        assert_eq!(ends(mass(gas_volume(cold, below_zero), 2_050_000)), (-988_377, -988_374));
    }

    #[test]
    fn humidity() {
        assert_eq!(ends(kh(&part())), (48_472, 48_473));
        assert_eq!(ends(kh(&Part { humidity: 500, saturation: 3169, pa: 101_325, ..part() })), (63_787, 63_788));
    }

    #[test]
    fn results() {
        assert_eq!(ends(rate(exactly(1_000_001), 4000)), (250_000, 250_001));
        let both = weighted(2, [exactly(100), exactly(201)].into_iter());
        assert_eq!(ends(both), (170, 171));
        assert_eq!([169, 170, 171].map(|limit| verdict(&both, limit)), [Verdict::Fail, Verdict::Undecided, Verdict::Pass]);
        let co2 = [exactly(0), exactly(0), exactly(0), exactly(50_000_000)];
        assert_eq!(ends(fuel(&sheet(134, 10, 10), &co2)), (2_100_280, 2_100_280));
    }

    /// 01's, with "1/512 ppm is 0 and 1" of 02, M-104.
    #[test]
    fn readings_and_dilution() {
        let ppm = |x| units(Message::Ppm(x)).map(ends);
        assert_eq!([512.0, 1024.0].map(|part| ppm(1.0 / part)), [Some((0, 1)); 2]);
        let full = |co| {
            let bag = [65_536.0, co, 0.0, 65_536.0, 0.0].map(Message::Ppm);
            let mut sheet = sheet(145, 5, 10);
            sheet.parts[1] = Part { bag, ..part() };
            test(&sheet)
        };
        assert_eq!(full(27_856.0).unwrap_err(), at(13, 2));
        assert!(full(27_855.0).is_ok());
        // half a unit below 27,856 ppm is that at its upper end
        assert_eq!(full(27_856.0_f32.next_down()).unwrap_err(), at(13, 2));
    }

    /// "Refusal 12's 16,777,216 units are judged on the upper end, its 'below zero' still on the float itself, so that no reading's lower end is negative."
    #[test]
    fn unusable() {
        let [ppm, percent] = [Message::Ppm, Message::Percent].map(|measure| move |x| units(measure(x)).map(ends));
        assert_eq!([ppm(65_536.0), ppm(65_536.0_f32.next_up())], [Some((16_777_216, 16_777_216)), None]);
        // 6.5536 is no float: the one before it has 16,777,215.58 units, the one after it 16,777,216.80
        assert_eq!([percent(6.5536), percent(6.5536_f32.next_up())], [Some((16_777_215, 16_777_216)), None]);
        assert_eq!([ppm(-0.0), ppm(0.0), ppm(0.0_f32.next_up())], [Some((0, 0)), Some((0, 0)), Some((0, 1))]);
        assert_eq!([ppm(0.0_f32.next_down()), percent(-1.0e-30), ppm(f32::NAN), percent(f32::INFINITY), ppm(f32::MAX)], [None; 5]);
    }

    /// "Each at the choice that gives the outer result": the least of the bag and of G and the most of the air, and the other way round.
    #[test]
    fn outer_results() {
        let figure = |lower, upper| Figure { lower, upper };
        // of G half of Q, a unit of air is half a unit
        assert_eq!(ends(concentration(figure(1000, 1001), figure(1, 2), exactly(128), 256)), (15_984, 16_008));
        // with 16 for Q it is bag Q - air (Q - G): 32 - 7 x 15, and 48 - 5 x 13
        assert_eq!(ends(concentration(figure(2, 3), figure(5, 7), figure(1, 3), 16)), (-73, -17));
        let bag = [figure(1, 2), figure(3, 4), figure(5, 6), figure(7, 8)];
        assert_eq!(ends(g_and_q(&sheet(100, 2, 3), &bag).0), (79, 94));
    }

    /// "13 is judged on the upper end of G": 10 x 16,777,216 + 20 x 4,411,391 is 20 short of Q.
    #[test]
    fn upper_end_of_g() {
        let nothing = exactly(0);
        let lean = |co: Figure| lean_enough(&sheet(100, 1, 20), &[exactly(4_411_391), co, nothing, exactly(16_777_216)]);
        let between = |lower| Figure { lower, upper: lower + 1 };
        assert_eq!([exactly(19), between(18), between(19), exactly(20)].map(lean), [true, true, false, false]);
    }
}

#[cfg(test)]
mod without_methane {
    //! 02's sentences on the fifth gas (M-108), worked by hand.

    use super::*;

    fn figure(lower: i128, upper: i128) -> Figure {
        Figure { lower, upper }
    }

    /// Class 1, with 10 ppm of HC in every bag, of which 4 pass the cutter, and clean air.
    fn sheet(methane: u32, ethane: u32) -> Sheet {
        let (pump, revolutions, pa, pi, t, humidity, saturation, distance) = (2048, 100_000, 101_325, 0, 200, 0, 0, 1000);
        let [bag, air] = [[10.0, 0.0, 0.0, 0.0, 4.0], [0.0; GASES]].map(|ppm| ppm.map(Message::Ppm));
        let density = [20_000; GASES];
        let part = Part { pump, revolutions, pa, pi, t, humidity, saturation, distance, density, bag, air };
        let (d, wc, wh, k, f, fuel_density, limits) = (100, 0, 0, 1000, [1000, 0, 0], 1000, [0; GASES]);
        Sheet { class: 1, count: 2, d, wc, wh, k, f, fuel_density, limits, methane, ethane, parts: [part; 3] }
    }

    fn with(change: impl Fn(&mut Sheet)) -> Result<TestResult, Refusal> {
        let mut sheet = sheet(200, 1000);
        change(&mut sheet);
        test(&sheet)
    }

    #[test]
    fn by_two_readings() {
        let units = |methane, ethane, hc, cutter| super::without_methane(&sheet(methane, ethane), hc, cutter);
        // document 003's example: 27.0 and 18.0 ppm with 0.04 and 0.98 make 8.4 ppm
        assert_eq!(units(40, 980, figure(6912, 6912), figure(4608, 4608)), figure(2156, 2157));
        // (10 x 800 - 4 x 1,000) / 800
        assert_eq!(units(200, 1000, figure(10, 10), figure(4, 4)), figure(5, 5));
        // 1,000 / 999, and below zero
        assert_eq!(units(1, 1000, figure(0, 0), figure(1, 1)), figure(-2, -1));
        assert_eq!(units(0, 999, figure(1, 1), figure(0, 0)), figure(1, 2));
        // from (500 - 2,000) / 500 to (1,000 - 1,000) / 500
        assert_eq!(units(500, 1000, figure(1, 2), figure(1, 2)), figure(-3, 0));
        let most = figure(16_777_216, 16_777_216);
        assert_eq!(units(0, 500, most, figure(0, 0)), figure(33_554_432, 33_554_432));
        assert_eq!(units(0, 500, figure(0, 0), most), figure(-33_554_432, -33_554_432));
    }

    /// "The correction then takes these ends and those of G each on its own": with 16 for Q it is bag Q - air (Q - G).
    #[test]
    fn air_below_zero() {
        // -32 + 5 x 13, and -16 + 7 x 15
        assert_eq!(concentration(figure(-2, -1), figure(-7, -5), figure(1, 3), 16), figure(33, 89));
        // of G at most half of Q, on both sides of zero
        assert_eq!(concentration(figure(0, 0), figure(-1, 1), figure(127, 128), 256), figure(-9, 9));
    }

    /// 4,096 micrograms/km are one ppm: of HC 10, without methane 5. The fuel is a tenth of HC.
    #[test]
    fn five_gases() {
        let result = with(|_| {}).unwrap();
        let exactly = |n| figure(n, n);
        assert_eq!(result.weighted, [40_960, 0, 0, 0, 20_480].map(exactly));
        assert_eq!(result.verdicts, [Verdict::Fail, Verdict::Pass, Verdict::Pass, Verdict::Pass, Verdict::Fail]);
        assert_eq!((result.parts[1].mass[NMHC], result.fuel), (exactly(20_480), exactly(4096)));
    }

    #[test]
    fn absent() {
        let gases = |change: &dyn Fn(&mut Sheet)| with(change).unwrap().weighted.len();
        assert_eq!(gases(&|s| s.parts[0].bag[NMHC] = Message::NotFitted), 4);
        assert_eq!(gases(&|s| s.parts[1].air[NMHC] = Message::NotFitted), 4);
        assert_eq!(gases(&|s| s.parts[2].air[NMHC] = Message::NotFitted), 5);
        let result = with(|s| s.parts[1].bag[NMHC] = Message::NotFitted).unwrap();
        assert!(result.parts.iter().all(|part| [&part.concentration, &part.mass, &part.rate].iter().all(|gases| gases.len() == 4)));
        assert_eq!(result.verdicts.len(), 4);
    }

    #[test]
    fn refusals() {
        let refused = |change: &dyn Fn(&mut Sheet)| with(change).unwrap_err();
        let unusable = |place, gas, side| Refusal { within: gas, side, ..at(12, place) };
        let out_of_range = |field| Refusal { within: field, ..at(11, 0) };
        assert_eq!(refused(&|s| s.methane = 1001), out_of_range(13));
        assert_eq!(refused(&|s| (s.ethane, s.limits[NMHC]) = (1001, 1_000_000_000_001)), out_of_range(12));
        assert_eq!(refused(&|s| s.parts[1].air[NMHC] = Message::OverRange), unusable(2, 5, 2));
        assert_eq!(
            refused(&|s| (s.parts[0].bag[NMHC], s.parts[1].bag[NMHC]) = (Message::NotFitted, Message::Ppm(-1.0))),
            unusable(2, 5, 1)
        );
        assert_eq!(refused(&|s| (s.parts[0].bag[NMHC], s.parts[0].air[CO2]) = (Message::OverRange, Message::OverRange)), unusable(1, 4, 2));
        assert_eq!(refused(&|s| s.parts[0].air[HC] = Message::NotFitted), unusable(1, 1, 2));
        assert_eq!(refused(&|s| s.ethane = 699), nowhere(19));
        assert_eq!(refused(&|s| (s.methane, s.ethane) = (1000, 0)), nowhere(19));
        assert!(with(|s| s.ethane = 700).is_ok());
        assert!(with(|s| (s.ethane, s.parts[0].bag[NMHC]) = (699, Message::NotFitted)).is_ok());
    }
}
