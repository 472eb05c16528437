//! Cases of mending (02, M-112): as stored, as made at random, and what each implementation says of one.

use std::fmt;

use ylhovesko::draft::{write_mended, Counts, Mended};

use crate::draft::{draft, room};
use crate::random::Random;
use crate::{core_told, hex, plain_told, unhex, Told};

/// What is lent beside a draft: the buffer and the two lists. Before the call they are noise.
#[derive(Clone, Debug, PartialEq, Eq)]
pub struct Lent {
    pub buffer: Vec<u8>,
    pub changed: Vec<u16>,
    pub open: Vec<u16>,
}

impl Lent {
    /// Noise in so many bytes and entries.
    pub fn noise(random: &mut Random, [buffer, changed, open]: [usize; 3]) -> Lent {
        let mut list = |room: usize| (0..room).map(|_| random.word() as u16).collect();
        let (changed, open) = (list(changed), list(open));
        Lent { buffer: random.bytes(buffer), changed, open }
    }

    pub fn rooms(&self) -> [usize; 3] {
        [self.buffer.len(), self.changed.len(), self.open.len()]
    }

    /// Puts an answer to the front of all three.
    fn put(&mut self, Mended { bytes, changed, open }: &Mended) {
        self.buffer[..bytes.len()].copy_from_slice(bytes);
        self.changed[..changed.len()].copy_from_slice(changed);
        self.open[..open.len()].copy_from_slice(open);
    }
}

/// A call of mending.
#[derive(Clone, Debug, PartialEq, Eq)]
pub struct Case {
    pub draft: Vec<u8>,
    pub lent: Lent,
}

/// The case as a line of vectors/M-112-mend.txt has it, up to its answer.
impl fmt::Display for Case {
    fn fmt(&self, f: &mut fmt::Formatter) -> fmt::Result {
        let [buffer, changed, open] = self.lent.rooms();
        write!(f, "{} {buffer} {changed} {open}", hex(&self.draft))
    }
}

/// The outcome, the two counts, and what was lent as it is after the call.
#[derive(Clone, Debug, PartialEq, Eq)]
pub struct Answer {
    pub told: Told,
    pub counts: [u32; 2],
    pub lent: Lent,
}

impl Answer {
    /// The refusal of a case, which leaves all as it was lent.
    pub fn refused(case: &Case, number: u32, at: u32) -> Answer {
        Answer { told: [number, at, 0, 0], counts: [0; 2], lent: case.lent.clone() }
    }

    /// What a case is answered where this is written.
    pub fn written(case: &Case, mended: &Mended) -> Answer {
        let mut lent = case.lent.clone();
        lent.put(mended);
        Answer { told: [0; 4], counts: [mended.changed.len() as u32, mended.open.len() as u32], lent }
    }

    /// What was written to the front of what was lent with a case; nothing where it is refused.
    pub fn mended(&self, case: &Case) -> Option<Mended> {
        let [changed, open] = self.counts.map(|count| count as usize);
        let of = |lent: &Lent| Mended {
            bytes: lent.buffer[..case.draft.len()].to_vec(),
            changed: lent.changed[..changed].to_vec(),
            open: lent.open[..open].to_vec(),
        };
        (self.told[0] == 0).then(|| of(&self.lent))
    }
}

/// A list as a line has it: its length and its entries.
fn list_text(list: &[u16]) -> String {
    let entries: String = list.iter().map(|entry| format!(" {entry}")).collect();
    format!("{}{entries}", list.len())
}

/// The answer as a line of vectors/M-112-mend.txt has it after the case.
pub fn answer_text(case: &Case, answer: &Answer) -> String {
    let written = answer.mended(case).map_or("- - -".to_string(), |Mended { bytes, changed, open }| {
        format!("{} {} {}", hex(&bytes), list_text(&changed), list_text(&open))
    });
    format!("{} {} {written}", answer.told[0], answer.told[1])
}

/// Takes the list at the front of the words of a line.
fn take_list(words: &mut impl Iterator<Item = u16>) -> Vec<u16> {
    let length = words.next().unwrap();
    words.take(length.into()).collect()
}

/// The case and the answer of a line of vectors/M-112-mend.txt or vectors/directed_mend.txt. The line's number is the seed of the noise.
pub fn read(line: u64, text: &str) -> (Case, Answer) {
    let words: Vec<&str> = text.split(' ').collect();
    let [draft, buffer, changed, open, number, at, written @ ..] = words.as_slice() else { panic!("line {line}") };
    let rooms = [buffer, changed, open].map(|room| room.parse().unwrap());
    let case = Case { draft: unhex(draft), lent: Lent::noise(&mut Random::new(line), rooms) };
    let answer = match (*number, written) {
        ("0", [mended, lists @ ..]) => {
            let mut words = lists.iter().map(|word| word.parse().unwrap());
            let mended = Mended { bytes: unhex(mended), changed: take_list(&mut words), open: take_list(&mut words) };
            assert!(*at == "0" && words.next().is_none(), "line {line}");
            Answer::written(&case, &mended)
        }
        (_, ["-", "-", "-"]) => Answer::refused(&case, number.parse().unwrap(), at.parse().unwrap()),
        _ => panic!("line {line}: {written:?}"),
    };
    (case, answer)
}

/// What the proved core says.
pub fn by_core(case: &Case) -> Answer {
    let mut lent = case.lent.clone();
    let told = write_mended(&case.draft, &mut lent.buffer, &mut lent.changed, &mut lent.open);
    let counts = told.map_or([0; 2], |Counts { changed, open }| [changed, open]);
    Answer { told: core_told(told.map(|_| ())), counts, lent }
}

/// What the second implementation says.
pub fn by_plain(case: &Case) -> Answer {
    let mut lent = case.lent.clone();
    let told = plain::draft::mend(&case.draft, &mut lent.buffer, &mut lent.changed, &mut lent.open);
    Answer { told: plain_told(told.map(|_| ())), counts: told.unwrap_or([0; 2]), lent }
}

/// The random case of a seed, with rooms about those that its answer takes.
pub fn case(seed: u64) -> Case {
    let mut random = Random::new(seed);
    let random = &mut random;
    let draft = draft(random);
    let taken = plain::draft::mended(&draft).map_or([3; 2], |mended| [mended.changed.len(), mended.open.len()]);
    let exact = [(draft.len(), 8008), (taken[0], 2000), (taken[1], 2000)];
    let rooms = exact.map(|(exact, most)| room(random, exact, most));
    Case { draft, lent: Lent::noise(random, rooms) }
}
