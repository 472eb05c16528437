//! Directed cases of readings as two ends (02, M-104).

use ylhovesko::bags::{Bag, Efficiencies, Gases, Reading, Sheet, Triple};

use super::bags::{of_part, reading, reading_words, readings, units, Cases};
use crate::bags::place;

pub(super) const GROUPS: [fn(&mut Cases); 11] =
    [messages, air_and_bag, air_and_g, volumes, nox, weights, verdicts, dilution, order, widest, uneven];

/// 204.8 cubic metres at the reference state, 20,000 mg per cubic metre and a kilometre: each 1/4,096 ppm is a microgram and a microgram/km, with nothing to
/// round, so a unit is 16. Every reading is zero, Q is 256,000,000, and CO and HC count for nothing in G. The cutter takes away all but methane, so that the fifth
/// gas is HC less what is read behind the cutter.
pub(super) fn weigh(s: &mut Sheet) {
    s.triple = Triple { d: 100, wc: 0, wh: 0 };
    s.efficiencies = Efficiencies { methane: 0, ethane: 1000 };
    for part in &mut s.parts {
        (part.pump, part.revolutions, part.distance, part.density) = (2048, 100_000, 1000, Gases::of([20_000; 5]));
        (part.barometer, part.depression, part.temperature, part.humidity) = (101_325, 0, 200, 0);
        (part.bag, part.air) = (Bag::of([Reading::ppm(0.0); 5]), Bag::of([Reading::ppm(0.0); 5]));
    }
}

impl Cases {
    /// A sheet that weighs, changed, with the ends of the mass and the rate of a gas in a part.
    pub(super) fn weighed(&mut self, words: &str, [part, gas]: [u32; 2], [lower, upper]: [i128; 2], change: impl Fn(&mut Sheet)) {
        let [mass, rate] = [place::mass(part, gas), place::rate(part, gas)];
        let known = [(mass, lower), (mass + 1, upper), (rate, lower), (rate + 1, upper)];
        let weighed = |s: &mut Sheet| {
            weigh(s);
            change(s);
        };
        self.figures(&format!("{words}: {lower} and {upper}"), weighed, &known);
    }
}

/// 1/512 ppm, which is 0 and 1.
pub(super) const HALF: Reading = Reading { kind: 0, bits: 0x3b00_0000 };

/// Messages that are usable, at the limit, at and beside a whole unit, at a half of one and at zero, and the two ends that they have.
pub(super) const USABLE: [(&str, u32, u32, [i128; 2]); 31] = [
    ("65,536 ppm", 0, 0x4780_0000, [16_777_216, 16_777_216]),
    ("the float before 65,536 ppm", 0, 0x477f_ffff, [16_777_215, 16_777_215]),
    ("the last float to 6.5536 percent", 1, 0x40d1_b717, [16_777_215, 16_777_216]),
    ("the float before that", 1, 0x40d1_b716, [16_777_214, 16_777_215]),
    ("1/512 ppm", 0, 0x3b00_0000, [0, 1]),
    ("the float before 1/512 ppm", 0, 0x3aff_ffff, [0, 1]),
    ("the float after 1/512 ppm", 0, 0x3b00_0001, [0, 1]),
    ("1/1,024 ppm", 0, 0x3a80_0000, [0, 1]),
    ("3/512 ppm", 0, 0x3bc0_0000, [1, 2]),
    ("1/256 ppm", 0, 0x3b80_0000, [1, 1]),
    ("the float before 1/256 ppm", 0, 0x3b7f_ffff, [0, 1]),
    ("the float after 1/256 ppm", 0, 0x3b80_0001, [1, 2]),
    ("32,768 ppm", 0, 0x4700_0000, [8_388_608, 8_388_608]),
    ("the float before 32,768 ppm, the last between two units", 0, 0x46ff_ffff, [8_388_607, 8_388_608]),
    ("the float after 32,768 ppm", 0, 0x4700_0001, [8_388_609, 8_388_609]),
    ("1/8,192 percent", 1, 0x3900_0000, [312, 313]),
    ("1/4,096 percent", 1, 0x3980_0000, [625, 625]),
    ("the float before 1/4,096 percent", 1, 0x397f_ffff, [624, 625]),
    ("the float after 1/4,096 percent", 1, 0x3980_0001, [625, 626]),
    ("201/4,096 percent, less in 64-bit floats by way of 1/100", 1, 0x3d49_0000, [125_625, 125_625]),
    ("403/4,096 percent, more in 64-bit floats by way of 1/100", 1, 0x3dc9_8000, [251_875, 251_875]),
    ("1 percent", 1, 0x3f80_0000, [2_560_000, 2_560_000]),
    ("the float before 1 percent", 1, 0x3f7f_ffff, [2_559_999, 2_560_000]),
    ("the float after 1 percent", 1, 0x3f80_0001, [2_560_000, 2_560_001]),
    ("zero ppm", 0, 0, [0, 0]),
    ("minus zero ppm", 0, 0x8000_0000, [0, 0]),
    ("minus zero percent", 1, 0x8000_0000, [0, 0]),
    ("the least float, in ppm", 0, 1, [0, 1]),
    ("the least float, in percent", 1, 1, [0, 1]),
    ("the last float without a leading bit, in ppm", 0, 0x7f_ffff, [0, 1]),
    ("the first float with a leading bit, in ppm", 0, 0x80_0000, [0, 1]),
];

/// "The float's exact value in 1/256 ppm rounded down and up", in the bag; and in the air, where it is taken from nothing.
fn messages(cases: &mut Cases) {
    for (words, kind, bits, [lower, upper]) in USABLE {
        let message = Reading { kind, bits };
        let [bag, air] = [[1, 1, 1], [3, 2, 2]];
        let words = |at| format!("{words} is {lower} and {upper} units, {}", reading_words(at));
        cases.weighed(&words(bag), [1, 1], [16 * lower, 16 * upper], |s| *reading(s, bag) = message);
        cases.weighed(&words(air), [3, 2], [-16 * upper, -16 * lower], |s| *reading(s, air) = message);
    }
}

/// The lower concentration is of the bag's lower end and the air's upper, the upper one of the others. CO2 is in G too: where a unit is taken from a unit, ten
/// of Q's are left.
fn air_and_bag(cases: &mut Cases) {
    for (place, gas, left) in [(1, 1, 0), (2, 2, 0), (3, 4, 1)] {
        let [bag, air] = [1, 2].map(|side| [place, gas, side]);
        let put = |in_bag: Reading, in_air: Reading| move |s: &mut Sheet| (*reading(s, bag), *reading(s, air)) = (in_bag, in_air);
        let more = Reading::ppm(3.0 / 512.0);
        cases.weighed("1/512 ppm in bag and air", [place, gas], [-16, 16], put(HALF, HALF));
        cases.weighed("3/512 ppm in the bag, 1/512 in the air", [place, gas], [0, 32], put(more, HALF));
        cases.weighed("1/512 ppm in the bag, 3/512 in the air", [place, gas], [-32, left], put(HALF, more));
    }
    // G is half of Q, and so half of the air counts: 1,000 or 1,001 less 2 / 2 or 1 / 2
    cases.weighed("2,001/512 ppm in the bag, 3/512 in the air, and CO2 for half of Q", [2, 2], [15_984, 16_008], |s| {
        (s.parts[1].bag.co, s.parts[1].air.co) = (Reading::ppm(2001.0 / 512.0), Reading::ppm(3.0 / 512.0));
        s.parts[1].bag.co2 = Reading::ppm(50_000.0);
    });
    cases.weighed("2,001/512 ppm in the bag and clean air, and 1/512 of CO2 in G", [2, 1], [16_000, 16_016], |s| {
        (s.parts[1].bag.hc, s.parts[1].bag.co2) = (Reading::ppm(2001.0 / 512.0), HALF);
    });
}

/// The more G, the less air is taken off: the lower concentration is of the lower end of G, the upper one of the upper. 62,500 ppm in the air are 16,000,000
/// units, and of clean bags the concentration is G - Q.
fn air_and_g(cases: &mut Cases) {
    for (words, [wc, wh], bag, air, upper) in [
        ("CO2", [0, 0], vec![4], 1, -255_999_990),
        ("CO at 2.0", [20, 0], vec![2], 1, -255_999_980),
        ("HC at 2.0", [0, 20], vec![1], 2, -255_999_980),
        ("CO2, CO at 1.8 and HC at 1.9, with CO's own", [18, 19], vec![1, 2, 4], 2, -255_999_953 + 16),
    ] {
        for place in 1..=3 {
            let words = format!("1/512 ppm of {words} in the bag, and 62,500 ppm in the air");
            cases.weighed(&words, [place, air], [-256_000_000, upper], |s| {
                (s.triple.wc, s.triple.wh) = (wc, wh);
                bag.iter().for_each(|&gas| *reading(s, [place, gas, 1]) = HALF);
                *reading(s, [place, air, 2]) = Reading::ppm(62_500.0);
            });
        }
    }
    // - 8,000,001 (Q - 30) / 16,000,000 is -128,000,000.999998; - 8,000,000 (Q - 40) / 16,000,000 is whole
    cases.weighed("G is 30 and 40, the air 8,000,000 and 8,000,001 units", [1, 1], [-128_000_001, -127_999_980], |s| {
        (s.parts[0].bag.co2, s.parts[0].air.hc) = (Reading::ppm(7.0 / 512.0), Reading::ppm(31_250.0 + 1.0 / 512.0));
    });
    // - 16,000,002 Q / 16,000,000; - 16,000,001 (Q - 10) / 16,000,000 is -256,000,005.999999
    cases.weighed("G is 0 and 10, the air 16,000,001 and 16,000,002 units", [2, 2], [-256_000_032, -256_000_005], |s| {
        (s.parts[1].bag.co2, s.parts[1].air.co) = (HALF, Reading { kind: 1, bits: 0x40c8_0001 });
    });
}

/// 16 of 105,728,000 ml is 413 microlitres, and of a millilitre more, which is the upper volume, more than that. Both ends on either side of zero have it.
fn volumes(cases: &mut Cases) {
    let nothing = Reading::ppm(0.0);
    for (words, bag, air, ends) in
        [("the bag", HALF, nothing, [0, 414]), ("the air", nothing, HALF, [-414, 0]), ("both", HALF, HALF, [-414, 414])]
    {
        cases.weighed(&format!("105,728,000 and 105,728,001 ml, 1/512 ppm in {words}"), [2, 1], ends, |s| {
            let part = &mut s.parts[1];
            (part.pump, part.revolutions, part.barometer, part.temperature) = (3000, 35_600, 100_000, 191);
            (part.density.hc, part.bag.hc, part.air.hc) = (1_000_000, bag, air);
        });
    }
}

/// Kh of dry air is 48,472 and 48,473, of 65,536. A lower mass below zero has the upper of them, and so has an upper mass above zero.
fn nox(cases: &mut Cases) {
    let put = |bag: Reading, air: Reading| move |s: &mut Sheet| (s.parts[0].bag.nox, s.parts[0].air.nox) = (bag, air);
    let nothing = Reading::ppm(0.0);
    cases.weighed("1/512 ppm of NOx in the bag", [1, 3], [0, 12], put(HALF, nothing));
    cases.weighed("1/512 ppm of NOx in the air", [1, 3], [-12, 0], put(nothing, HALF));
    cases.weighed("1/512 ppm of NOx in bag and air", [1, 3], [-12, 12], put(HALF, HALF));
    // before Kh -1,663 and 1,663: with 48,472 it would be 1,230
    cases.weighed("1/512 ppm of NOx in bag and air, of 2,078,750 mg per cubic metre", [1, 3], [-1231, 1231], |s| {
        put(HALF, HALF)(s);
        s.parts[0].density.nox = 2_078_750;
    });
    let much = Reading::ppm(31_250.0 + 1.0 / 512.0);
    cases.weighed("8,000,000 and 8,000,001 units of NOx in the bag", [1, 3], [94_671_875, 94_673_840], put(much, nothing));
    cases.weighed("8,000,000 and 8,000,001 units of NOx in the air", [1, 3], [-94_673_840, -94_671_875], put(nothing, much));
}

/// Every stage after the mass has the ends too: 1/512 ppm of HC is a rate of 0 and 16, and so is it without methane.
fn weights(cases: &mut Cases) {
    for (class, place, upper) in [(1, 1, 8), (1, 2, 8), (2, 1, 5), (2, 2, 12), (3, 1, 4), (3, 2, 8), (3, 3, 4)] {
        let put = |side: u32| {
            move |s: &mut Sheet| {
                weigh(s);
                (s.class, s.count) = (class, if class == 3 { 3 } else { 2 });
                *reading(s, [place, 1, side]) = HALF;
            }
        };
        let words = format!("1/512 ppm of HC in part {place} of class {class}");
        let both = |lower, upper| [1, 5].map(place::weighted).map(|at| [(at, lower), (at + 1, upper)]);
        cases.figures(&format!("{words}, bag: 0 and {upper}"), put(1), both(0, upper).as_flattened());
        cases.figures(&format!("{words}, air: -{upper} and 0"), put(2), both(-upper, 0).as_flattened());
    }
    for (side, fuel) in [(1, [0, 4]), (2, [-4, 0])] {
        let put = |s: &mut Sheet| {
            weigh(s);
            (s.fuel.k, s.fuel.hc, s.fuel.density) = (1500, 1000, 600);
            (1..=3).for_each(|place| *reading(s, [place, 1, side]) = HALF);
        };
        let words = format!("fuel of 1/512 ppm of HC in each {}: {} and {}", ["bag", "air"][side as usize - 1], fuel[0], fuel[1]);
        cases.figures(&words, put, &[(place::FUEL, fuel[0]), (place::FUEL + 1, fuel[1])]);
    }
}

/// The reading's own rounding is inside the ends: 0 pass, 1 fail, 2 undecided. To the nearest unit 1/1,024 ppm was 0, and passed, and
/// 1/512 ppm 16, and failed below it.
fn verdicts(cases: &mut Cases) {
    for (words, each, limits) in [
        ("1/1,024 ppm", 1.0 / 1024.0, [(0, 2), (15, 2), (16, 0)].as_slice()),
        ("1/512 ppm", 1.0 / 512.0, &[(0, 2), (15, 2), (16, 0)]),
        ("1/256 ppm", 1.0 / 256.0, &[(0, 1), (15, 1), (16, 0)]),
        ("3/512 ppm", 3.0 / 512.0, &[(15, 1), (16, 2), (31, 2), (32, 0)]),
    ] {
        for &(limit, verdict) in limits {
            let put = |s: &mut Sheet| {
                weigh(s);
                s.limits = Gases::of([limit, limit, 0, limit, limit]);
                let [gas, nothing] = [Reading::ppm(each), Reading::ppm(0.0)];
                s.parts.iter_mut().for_each(|part| part.bag = Bag::of([gas, gas, nothing, gas, nothing]));
            };
            cases.figures(&format!("{words} in every bag, limit {limit}"), put, &[1, 2, 4, 5].map(|gas| (place::verdict(gas), verdict)));
        }
    }
    for (limit, verdict) in [(0, 2), (11, 2), (12, 0)] {
        let put = |s: &mut Sheet| {
            weigh(s);
            s.limits.nox = limit;
            s.parts.iter_mut().for_each(|part| part.bag.nox = HALF);
        };
        cases.figures(&format!("1/512 ppm of NOx in every bag, limit {limit}"), put, &[(place::verdict(3), verdict)]);
    }
}

/// "13 is judged on the upper end of G": 10 CO2 + 20 HC + CO against 256,000,000. To the nearest unit all that are refused here but 20 1/4 of CO were below it.
fn dilution(cases: &mut Cases) {
    let full = Reading::ppm(65_536.0);
    let percent = |bits| Reading { kind: 1, bits };
    let (hc, co2) = (units(4_411_391), percent(0x40d1_b716));
    for place in 1..=3 {
        let put = |hc: Reading, co: Reading, co2: Reading| {
            move |s: &mut Sheet| {
                s.triple = Triple { d: 100, wc: 1, wh: 20 };
                let bag = &mut of_part(s, place).bag;
                (bag.hc, bag.co, bag.co2) = (hc, co, co2);
            }
        };
        let co = |quarters: u32| Reading::ppm(quarters as f32 / 1024.0);
        cases.taken(&format!("18 1/4 units of CO, G is up to Q - 1 in part {place}"), put(hc, co(73), full));
        cases.taken(&format!("18 3/4 units of CO, G is up to Q - 1 in part {place}"), put(hc, co(75), full));
        cases.refused([13, place, 0, 0], "19 1/4 units of CO, G is Q - 1 and Q", put(hc, co(77), full));
        cases.refused([13, place, 0, 0], "20 1/4 units of CO, G is Q and Q + 1", put(hc, co(81), full));
        cases.taken(&format!("4,411,390.99 units of HC, G is up to Q - 20 in part {place}"), put(percent(0x3fdc_91ce), co(0), full));
        cases.refused([13, place, 0, 0], "4,411,391.30 units of HC, G is Q - 20 and Q", put(percent(0x3fdc_91cf), co(0), full));
        cases.taken(&format!("16,777,214.36 units of CO2, G is up to Q - 1 in part {place}"), put(units(4_411_392), units(9), co2));
        cases.refused([13, place, 0, 0], "16,777,214.36 units of CO2, G is Q - 10 and Q", put(units(4_411_392), units(10), co2));
        cases.refused([13, place, 0, 0], "4,411,391.30 units of HC, G is Q - 10 and Q + 10", put(percent(0x3fdc_91cf), units(10), full));
        cases.refused([13, place, 0, 0], "all three, G is Q - 31 and Q", put(percent(0x3fdc_91cf), co(37), co2));
        cases.refused([13, place, 0, 0], "all three, G is Q - 30 and Q + 1", put(percent(0x3fdc_91cf), co(41), co2));
    }
}

/// 13 by the upper end of G alone, before and after other faults.
fn order(cases: &mut Cases) {
    let close = |place: u32, quarters: u32| {
        move |s: &mut Sheet| {
            s.triple = Triple { d: 100, wc: 1, wh: 20 };
            let bag = &mut of_part(s, place).bag;
            (bag.hc, bag.co, bag.co2) = (units(4_411_391), Reading::ppm(quarters as f32 / 1024.0), Reading::ppm(65_536.0));
        }
    };
    let humid = |s: &mut Sheet| (s.parts[0].humidity, s.parts[0].saturation) = (1000, 12_000);
    cases.refused([13, 1, 0, 0], "G is Q - 1 and Q, before G over Q in part 2", |s| {
        close(1, 77)(s);
        s.parts[1].bag = Bag::of([Reading::ppm(65_536.0); 5]);
    });
    cases.refused([13, 2, 0, 0], "G is Q - 1 and Q, before H above 30 in part 1", |s| {
        close(2, 77)(s);
        humid(s);
    });
    cases.refused([14, 1, 0, 0], "H above 30, and G is up to Q - 1", |s| {
        close(1, 75)(s);
        humid(s);
    });
    cases.refused([12, 3, 4, 2], "the first float over 6.5536 percent, and G is Q - 1 and Q in part 1", |s| {
        close(1, 77)(s);
        s.parts[2].air.co2 = Reading { kind: 1, bits: 0x40d1_b718 };
    });
}

/// The widest that was found of the tests for which demand 3 has 10,000 and 30,000: 200 cubic metres, a kilometre, the greatest density, 1/512 ppm in every bag
/// at 2.0, and 16,777,215 and 16,777,216 units in every air; of NOx 16,711,682 and 16,711,683 units in the bag, and H 30.
fn widest(cases: &mut Cases) {
    let put = |s: &mut Sheet| {
        s.triple = Triple { d: 100, wc: 20, wh: 20 };
        for part in &mut s.parts {
            (part.pump, part.revolutions, part.barometer, part.depression) = (20_000, 11_293, 84_643, 0);
            (part.temperature, part.humidity, part.saturation) = (34, 1000, 3900);
            (part.distance, part.density) = (1000, Gases::of([2_100_000; 5]));
            part.bag = Bag { nox: Reading { kind: 1, bits: 0x40d0_e562 }, ..Bag::of([HALF; 5]) };
            part.air = Bag::of([Reading { kind: 1, bits: 0x40d1_b717 }; 5]);
        }
    };
    let [hc, nox] = [[-27_525_120_000, -27_525_111_146], [-294_542_265, -294_516_735]];
    let gases = [(1, hc), (2, hc), (3, nox)].map(|(gas, ends)| (place::weighted(gas), ends));
    let known = gases.map(|(at, [lower, upper])| [(at, lower), (at + 1, upper)]);
    cases.figures("ends of HC that are 8,854 apart, and of NOx that are 25,530 apart", put, known.as_flattened());
}

/// Every reading a few floats off a whole number of units, no two as many, above and below it; with more in the bag, and with more in the air.
fn uneven(cases: &mut Cases) {
    for class in 1..=3 {
        for (words, below) in [("above", false), ("below", true)] {
            let off = move |s: &mut Sheet| {
                (s.class, s.count) = (class, if class == 3 { 3 } else { 2 });
                for (floats, at) in (1..).zip(readings()) {
                    let bits = &mut reading(s, at).bits;
                    *bits = if below { *bits - floats } else { *bits + floats };
                }
            };
            let swapped = move |s: &mut Sheet| {
                off(s);
                s.parts.iter_mut().for_each(|part| std::mem::swap(&mut part.bag, &mut part.air));
            };
            cases.taken(&format!("class {class}, every reading just {words} a whole number of units"), off);
            cases.taken(&format!("class {class}, every reading just {words} a whole number of units, more in the air"), swapped);
        }
    }
}
