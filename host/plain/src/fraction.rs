//! Fractions of whole numbers that are wide enough for every figure of the sheets.

use std::cmp::Ordering;

use crate::figure::Figure;

/// A fraction that nothing reduces: the numerator, halved so many times, over the denominator. Halvings stand apart, so that a sum has the more of its
/// terms' and not both: a float has up to 149. A weighted NOx over three parts takes about 1,100 bits, and the widest, a shift speed by the sum of 65 terms,
/// about 1,420; a product that does not fit stops the run.
#[derive(Clone, Copy, Debug)]
pub struct Fraction {
    numerator: Wide,
    /// Above zero.
    denominator: Wide,
    halvings: u32,
}

impl Fraction {
    pub fn new(numerator: i128, denominator: i128) -> Fraction {
        assert!(denominator > 0);
        Fraction { numerator: Wide::from(numerator), denominator: Wide::from(denominator), halvings: 0 }
    }

    /// A half of it, so many times.
    ///
    /// ```
    /// use plain::fraction::Fraction;
    /// let least = Fraction::new(1, 1).halved(101);
    /// assert!(Fraction::new(3, 2).halved(100).minus(least).over(least).between(2, 2));
    /// ```
    pub fn halved(self, times: u32) -> Fraction {
        Fraction { halvings: self.halvings + times, ..self }
    }

    /// ```
    /// use plain::fraction::Fraction;
    /// let sixth = Fraction::new(-1, 2).plus(Fraction::new(1, 3));
    /// assert!(sixth.between(-1, 0) && !sixth.between(0, 1));
    /// ```
    pub fn plus(self, other: Fraction) -> Fraction {
        let halvings = self.halvings.max(other.halvings);
        let [one, two] = [self, other].map(|term| term.numerator.doubled(halvings - term.halvings));
        if self.denominator == other.denominator {
            return Fraction { numerator: one.plus(two), denominator: self.denominator, halvings };
        }
        let numerator = one.times(other.denominator).plus(two.times(self.denominator));
        Fraction { numerator, denominator: self.denominator.times(other.denominator), halvings }
    }

    pub fn times(self, other: Fraction) -> Fraction {
        Fraction {
            numerator: self.numerator.times(other.numerator),
            denominator: self.denominator.times(other.denominator),
            halvings: self.halvings + other.halvings,
        }
    }

    pub fn minus(self, other: Fraction) -> Fraction {
        self.plus(other.times(Fraction::new(-1, 1)))
    }

    /// For a divisor above zero.
    pub fn over(self, divisor: Fraction) -> Fraction {
        assert!(divisor.numerator.cmp(Wide::from(0)) == Ordering::Greater);
        self.times(Fraction { numerator: divisor.denominator.doubled(divisor.halvings), denominator: divisor.numerator, halvings: 0 })
    }

    /// How it compares with a whole number.
    fn cmp(self, n: i128) -> Ordering {
        self.numerator.cmp(Wide::from(n).times(self.denominator).doubled(self.halvings))
    }

    /// Whether it is less than a whole number.
    pub fn is_below(self, n: i128) -> bool {
        self.cmp(n) == Ordering::Less
    }

    /// Whether it is more than a whole number.
    ///
    /// ```
    /// use plain::fraction::Fraction;
    /// let (half, two) = (Fraction::new(-1, 2), Fraction::new(6, 3));
    /// assert!(half.is_above(-1) && !half.is_below(-1) && half.is_below(0) && !half.is_above(0));
    /// assert!(!two.is_above(2) && !two.is_below(2));
    /// ```
    pub fn is_above(self, n: i128) -> bool {
        self.cmp(n) == Ordering::Greater
    }

    /// Whether it is at least the one and at most the other.
    pub fn between(self, lower: i128, upper: i128) -> bool {
        !self.is_below(lower) && !self.is_above(upper)
    }

    /// Whether it is the one where it is rounded down and the other where it is rounded up: it lies between them, and between no nearer two.
    ///
    /// ```
    /// use plain::fraction::Fraction;
    /// let (half, two) = (Fraction::new(1, 2), Fraction::new(6, 3));
    /// assert!(half.rounds_to(0, 1) && !half.rounds_to(0, 2) && !half.rounds_to(1, 1));
    /// assert!(two.rounds_to(2, 2) && !two.rounds_to(1, 2) && !two.rounds_to(2, 3));
    /// ```
    pub fn rounds_to(self, lower: i128, upper: i128) -> bool {
        self.between(lower, upper) && !self.between(lower + 1, upper) && !self.between(lower, upper - 1)
    }

    /// What [`Fraction::rounds_to`] asks for, of a fraction that lies between the two.
    ///
    /// ```
    /// use plain::figure::Figure;
    /// use plain::fraction::Fraction;
    /// assert_eq!(Fraction::new(-7, 2).rounded(-100, 100), Figure { lower: -4, upper: -3 });
    /// assert_eq!(Fraction::new(-8, 2).rounded(-4, 100), Figure { lower: -4, upper: -4 });
    /// ```
    pub fn rounded(self, mut lower: i128, mut upper: i128) -> Figure {
        assert!(self.between(lower, upper), "a fraction that does not lie between {lower} and {upper}");
        while upper - lower > 1 {
            let middle = (lower + upper) / 2;
            if self.between(middle, upper) {
                lower = middle;
            } else {
                upper = middle;
            }
        }
        match [lower, upper].into_iter().find(|&end| self.between(end, end)) {
            Some(end) => Figure { lower: end, upper: end },
            None => Figure { lower, upper },
        }
    }
}

/// A decimal as a paper prints it.
///
/// ```
/// let printed = plain::fraction::decimal("0.0329");
/// assert!(printed.times(plain::fraction::decimal("10000")).between(329, 329));
/// ```
pub fn decimal(text: &str) -> Fraction {
    let (whole, places) = text.split_once('.').unwrap_or((text, ""));
    Fraction::new(format!("{whole}{places}").parse().unwrap(), 10_i128.pow(places.len() as u32))
}

const WORDS: usize = 24;

/// A whole number: its sign, and its magnitude in words, the lowest first. Zero is not negative.
#[derive(Clone, Copy, Debug, PartialEq, Eq)]
struct Wide {
    negative: bool,
    words: [u64; WORDS],
}

impl Wide {
    fn from(n: i128) -> Wide {
        let magnitude = n.unsigned_abs();
        let mut words = [0; WORDS];
        words[0] = magnitude as u64;
        words[1] = (magnitude >> 64) as u64;
        Wide { negative: n < 0, words }
    }

    fn new(negative: bool, words: [u64; WORDS]) -> Wide {
        Wide { negative: negative && words != [0; WORDS], words }
    }

    fn times(self, other: Wide) -> Wide {
        let used = |words: &[u64; WORDS]| WORDS - words.iter().rev().take_while(|&&word| word == 0).count();
        let (few, many) = (used(&self.words), used(&other.words));
        assert!(few + many <= WORDS, "a product that does not fit");
        let mut words = [0; WORDS];
        for i in 0..few {
            let mut carry = 0;
            for j in 0..many {
                let sum = u128::from(self.words[i]) * u128::from(other.words[j]) + u128::from(words[i + j]) + carry;
                words[i + j] = sum as u64;
                carry = sum >> 64;
            }
            if many > 0 {
                words[i + many] = carry as u64;
            }
        }
        Wide::new(self.negative != other.negative, words)
    }

    /// Doubled so many times.
    fn doubled(self, times: u32) -> Wide {
        let mut words = [0; WORDS];
        words[times as usize / 64] = 1 << (times % 64);
        self.times(Wide::new(false, words))
    }

    fn plus(self, other: Wide) -> Wide {
        if self.negative == other.negative {
            return Wide::new(self.negative, sum(&self.words, &other.words));
        }
        match by_size(&self.words, &other.words) {
            Ordering::Less => Wide::new(other.negative, difference(&other.words, &self.words)),
            _ => Wide::new(self.negative, difference(&self.words, &other.words)),
        }
    }

    fn cmp(self, other: Wide) -> Ordering {
        match (self.negative, other.negative) {
            (true, false) => Ordering::Less,
            (false, true) => Ordering::Greater,
            (false, false) => by_size(&self.words, &other.words),
            (true, true) => by_size(&other.words, &self.words),
        }
    }
}

fn by_size(a: &[u64; WORDS], b: &[u64; WORDS]) -> Ordering {
    a.iter().rev().cmp(b.iter().rev())
}

fn sum(a: &[u64; WORDS], b: &[u64; WORDS]) -> [u64; WORDS] {
    let mut carry = 0;
    let words = std::array::from_fn(|i| {
        let sum = u128::from(a[i]) + u128::from(b[i]) + carry;
        carry = sum >> 64;
        sum as u64
    });
    assert!(carry == 0, "a sum that does not fit");
    words
}

/// Of a larger number and a smaller one.
fn difference(a: &[u64; WORDS], b: &[u64; WORDS]) -> [u64; WORDS] {
    let mut borrow = false;
    std::array::from_fn(|i| {
        let (word, under) = a[i].overflowing_sub(b[i]);
        let (word, again) = word.overflowing_sub(u64::from(borrow));
        borrow = under || again;
        word
    })
}
