//! Readings, bit pattern by bit pattern: what the core converts each to.
//!
//! No call tells the units of a reading, but on the sheet that is used here a mass does: 256 cubic metres at the reference state, clean air and a
//! density of 1,000 mg per cubic metre make one microgram of each unit of 1/256 ppm, and no stage has anything to round. So the ends of the mass are
//! those of the reading. NOx has its humidity correction besides, so its readings are used for refusals alone. The cutter lets all methane pass and nothing else:
//! the fifth gas is the reading of HC less the cutter's.

use plain::bags::units;
use plain::figure::Figure;
use ylhovesko::bags::{result, Bag, Efficiencies, Ends, Fuel, Gases, Part, Reading, Sheet, Triple};

use crate::bags::{of_gas, plain_message, reading_of};
use crate::core_told;

/// The kinds with a float, ppm and percent, and how many units one of each is.
pub const MEASURES: [(u32, u64); 2] = [(0, 256), (1, 2_560_000)];

/// The most units that a reading may have.
pub const MOST: u64 = 16_777_216;

/// The gases whose mass is their reading, and the fifth, whose mass is that of HC less its reading.
pub const WEIGHED: [u32; 4] = [1, 2, 4, 5];

/// The sheet on which a mass is its reading, with every reading zero. A rate is its mass.
pub fn sheet() -> Sheet {
    let zeros = Bag::of([Reading::ppm(0.0); 5]);
    let part = Part {
        pump: 2560,
        revolutions: 100_000,
        barometer: 101_325,
        temperature: 200,
        distance: 1000,
        density: Gases::of([1000; 5]),
        bag: zeros,
        air: zeros,
        ..Part::default()
    };
    Sheet {
        class: 3,
        count: 3,
        triple: Triple { d: 200, wc: 0, wh: 0 },
        fuel: Fuel { k: 1155, hc: 866, co: 429, co2: 273, density: 750 },
        limits: Gases::default(),
        efficiencies: Efficiencies { methane: 0, ethane: 1000 },
        parts: [part; 3],
    }
}

/// Holds the core to the second implementation, pattern by pattern.
pub struct Sweep {
    kind: u32,
    waiting: Vec<(u32, Figure)>,
    pub usable: u64,
    pub unusable: u64,
}

impl Sweep {
    pub fn new(kind: u32) -> Sweep {
        Sweep { kind, waiting: Vec::new(), usable: 0, unusable: 0 }
    }

    /// Compares the two on a pattern, at once where it is unusable, else with others on one sheet.
    pub fn see(&mut self, bits: u32) {
        match units(plain_message(self.reading(bits))) {
            Some(units) => {
                self.waiting.push((bits, units));
                self.usable += 1;
                if self.waiting.len() == 3 * WEIGHED.len() {
                    self.weigh();
                }
            }
            None => {
                self.refuse(bits);
                self.unusable += 1;
            }
        }
    }

    /// Compares what still waits.
    pub fn end(mut self) -> Sweep {
        self.weigh();
        self
    }

    fn reading(&self, bits: u32) -> Reading {
        Reading { kind: self.kind, bits }
    }

    fn weigh(&mut self) {
        let mut sheet = sheet();
        for (place, &(bits, _)) in self.waiting.iter().enumerate() {
            *reading_of(&mut sheet.parts[place / WEIGHED.len()].bag, WEIGHED[place % WEIGHED.len()]) = self.reading(bits);
        }
        let mut told = result(sheet).unwrap_or_else(|refusal| panic!("{refusal:?} with {:08x?} of kind {}", self.waiting, self.kind));
        for (part, readings) in told.parts.iter_mut().zip(self.waiting.chunks(WEIGHED.len())) {
            let hc = readings[0].1;
            for (gas, &(bits, units)) in WEIGHED.into_iter().zip(readings) {
                let weight = if gas == 5 { [hc.lower - units.upper, hc.upper - units.lower] } else { [units.lower, units.upper] };
                let Ends { lower, upper } = *of_gas(&mut part.mass, gas);
                assert_eq!([lower, upper].map(i128::from), weight, "units of {bits:08x}, kind {}, gas {gas}", self.kind);
            }
        }
        self.waiting.clear();
    }

    /// At another place for each such pattern.
    fn refuse(&self, bits: u32) {
        let place = (self.unusable % 30) as u32;
        let [part, gas, side] = [place / 10 + 1, place / 2 % 5 + 1, place % 2 + 1];
        let mut sheet = sheet();
        let Part { bag, air, .. } = &mut sheet.parts[part as usize - 1];
        *reading_of(if side == 1 { bag } else { air }, gas) = self.reading(bits);
        assert_eq!(core_told(result(sheet).map(|_| ())), [12, part, gas, side], "{bits:08x}, kind {}", self.kind);
    }
}

/// Every exponent with both signs, and the significands at both ends and in the middle.
pub fn ends_of_exponents() -> impl Iterator<Item = u32> {
    let significands = (0..4).chain(0x3f_fffe..=0x40_0001).chain(0x7f_fffc..=0x7f_ffff);
    (0..512).flat_map(move |field: u32| significands.clone().map(move |significand| (field << 23) + significand))
}

/// Where the ends turn, from zero up past the most: the least float at or above each whole number of units, and whether it is that number. It is worked out
/// from whole numbers alone, with no float converted.
pub fn turns(each: u64) -> impl Iterator<Item = (u32, bool)> {
    let mut places = 47;
    let above_zero = (1..=MOST + 4).map(move |units| {
        let significand = |places: u64| (units << places).div_ceil(each);
        while significand(places) > 1 << 24 {
            places -= 1;
        }
        // a significand of 2^24 is the least of the next exponent
        let bits = ((150 - places) << 23) + significand(places) - (1 << 23);
        (bits as u32, (units << places).is_multiple_of(each))
    });
    std::iter::once((0, true)).chain(above_zero)
}
