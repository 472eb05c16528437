//! The bytes of a house file, to be made and to be shown: the core alone judges them.

use crate::files::LONGEST;
use crate::numbers::{decimal, grouped};
use crate::refusals::Found;
use std::ops::Range;
use std::path::PathBuf;
use ylhovesko::gear::{judge_trace, write_trace};
use ylhovesko::{live, Refusal};

/// The mark and the zero byte after it.
pub const MARK: [u8; 4] = [b'W', b'T', b'R', 0];
/// Where the version and the count of seconds stand.
const VERSION: Range<usize> = 4..6;
const COUNT: Range<usize> = 6..8;
/// What stands before the seconds.
const HEAD: usize = COUNT.end;

/// The versions of a house file.
#[derive(Clone, Copy, PartialEq, Eq)]
pub enum Version {
    /// A second has its phase and the marks.
    One,
    /// A second has its phase alone.
    Two,
    /// A draft, and no trace: a second has the marks, and its phase may be missing.
    Three,
}

impl Version {
    /// That of a house file; none where the core reads no such version.
    pub fn of(file: &[u8]) -> Option<Version> {
        [Version::One, Version::Two, Version::Three].into_iter().find(|version| version.number() == number(file, VERSION))
    }

    /// The one that is made or read of a table. Columns for marks do not ask for version 1.
    pub fn of_table(marks_asked_for: bool) -> Version {
        if marks_asked_for {
            Version::One
        } else {
            Version::Two
        }
    }

    pub fn number(self) -> u16 {
        match self {
            Version::One => 1,
            Version::Two => 2,
            Version::Three => 3,
        }
    }

    /// The flags that a second may have: the phases with every mark, or the phases; "phase missing" has none beside it but the marks.
    fn flags(self) -> &'static str {
        match self {
            Version::One => "0 to 15",
            Version::Two => "0 to 3",
            Version::Three => "0 to 15 or 16, 20, 24, 28",
        }
    }

    /// What may stand in a second.
    fn range(self) -> String {
        format!("0 to 2,000 in 0.1 km/h, {}, 0", self.flags())
    }
}

/// A trace or a draft that was read, with a line for each note on its file.
pub struct Trace {
    pub path: PathBuf,
    pub bytes: Vec<u8>,
    pub notes: String,
}

/// The phases as they are printed, in the order of the flags.
const PHASES: [&str; 4] = ["stop", "acceleration", "cruise", "deceleration"];

/// Among the flags of a draft's second.
const PHASE_MISSING: u8 = 16;

/// One second of a trace or of a draft.
#[derive(Clone, Copy)]
pub struct Second {
    /// In 0.1 km/h.
    pub speed: u16,
    flags: u8,
    fourth: u8,
}

impl Second {
    /// No phase is one that is missing.
    pub fn of(speed: u16, phase: Option<usize>, no_shift: bool, no_first: bool) -> Second {
        let phase = phase.map_or(PHASE_MISSING, |phase| phase as u8 & 3);
        Second { speed, flags: phase | u8::from(no_shift) << 2 | u8::from(no_first) << 3, fourth: 0 }
    }

    /// As the live engine takes it.
    pub fn handed_over(self) -> live::Second {
        let Second { speed, flags, fourth } = self;
        live::Second { speed, flags, fourth }
    }

    /// 0 stop, 1 acceleration, 2 cruise, 3 deceleration.
    pub fn phase(self) -> usize {
        usize::from(self.flags & 3)
    }

    pub fn phase_name(self) -> &'static str {
        PHASES[self.phase()]
    }

    /// Whether its phase is missing.
    pub fn is_open(self) -> bool {
        self.flags & PHASE_MISSING != 0
    }

    pub fn no_shift(self) -> bool {
        self.flags & 4 != 0
    }

    pub fn no_first(self) -> bool {
        self.flags & 8 != 0
    }

    /// `no gear-shift and no 1. gear`; none where neither mark is set.
    pub fn marks(self) -> Option<String> {
        let marks = [("no gear-shift", self.no_shift()), ("no 1. gear", self.no_first())];
        let set: Vec<&str> = marks.into_iter().filter(|(_, is_set)| *is_set).map(|(name, _)| name).collect();
        (!set.is_empty()).then(|| set.join(" and "))
    }

    /// What stands in it, and what may stand there.
    fn told(self, version: Version) -> String {
        let Second { speed, flags, fourth } = self;
        let found = format!("speed {}, flags {flags}, fourth byte {fourth}", grouped(speed.into()));
        let told = format!("{found}; {}", version.range());
        match self.marks() {
            Some(marks) if version == Version::Two => format!("{told}; it is marked {marks}, and version 2 has no marks"),
            _ => told,
        }
    }
}

/// What the live engine gets where no second could be read: no version takes it.
pub const NO_SECOND: live::Second = live::Second { speed: u16::MAX, flags: u8::MAX, fourth: u8::MAX };

pub fn seconds(trace: &[u8]) -> Vec<Second> {
    let of = |bytes: &[u8]| Second { speed: u16::from_le_bytes([bytes[0], bytes[1]]), flags: bytes[2], fourth: bytes[3] };
    trace.get(HEAD..).unwrap_or(&[]).chunks_exact(4).map(of).collect()
}

/// The house file of these seconds, which are no more than it can count; or why the core takes none of this version.
pub fn house_file(seconds: &[Second], version: Version) -> Result<Vec<u8>, Refusal> {
    match version {
        Version::One => with_marks(seconds),
        Version::Two => with_phases_alone(seconds),
        Version::Three => Ok(draft_of(seconds)),
    }
}

/// The draft of these seconds, which are no more than it can count. The core judges it when it is mended or turned.
pub fn draft_of(seconds: &[Second]) -> Vec<u8> {
    bytes_of(seconds, Version::Three)
}

/// The core has no writer of versions 1 and 3.
fn bytes_of(seconds: &[Second], version: Version) -> Vec<u8> {
    let mut file = MARK.to_vec();
    file.extend(version.number().to_le_bytes());
    file.extend((seconds.len() as u16).to_le_bytes());
    for Second { speed, flags, fourth } in seconds {
        file.extend(speed.to_le_bytes());
        file.extend([flags, fourth]);
    }
    file
}

/// The core judges what is made here.
fn with_marks(seconds: &[Second]) -> Result<Vec<u8>, Refusal> {
    let file = bytes_of(seconds, Version::One);
    judge_trace(&file)?;
    Ok(file)
}

/// A mark is handed over with the phase, so that the core refuses it: no phase is above 3.
fn with_phases_alone(seconds: &[Second]) -> Result<Vec<u8>, Refusal> {
    let numbers: Vec<[u16; 2]> = seconds.iter().map(|second| [second.speed, second.flags.into()]).collect();
    let mut file = vec![0; HEAD + 4 * seconds.len()];
    write_trace(&numbers, &mut file)?;
    Ok(file)
}

/// A number of the head; 0 where the trace ends before it.
fn number(trace: &[u8], at: Range<usize>) -> u16 {
    trace.get(at).map_or(0, |bytes| u16::from_le_bytes([bytes[0], bytes[1]]))
}

/// The count that a trace names, which may not be that of its seconds.
fn count(trace: &[u8]) -> String {
    grouped(number(trace, COUNT).into())
}

/// A speed of 0.1 km/h in km/h.
pub fn kilometres_an_hour(tenths: u16) -> String {
    decimal(tenths.into(), 1)
}

fn hexadecimal(bytes: &[u8]) -> String {
    bytes.iter().map(|byte| format!("{byte:02x}")).collect::<Vec<_>>().join(" ")
}

/// What stands at the start of a file, of which one of these versions is expected.
fn start(trace: &[u8], versions: &str) -> String {
    if trace.len() < HEAD {
        return format!("{} bytes; at least {HEAD}", trace.len());
    }
    if !trace.starts_with(&MARK) {
        return format!("begins with {}; {}", hexadecimal(&trace[..MARK.len()]), hexadecimal(&MARK));
    }
    format!("version {}; {versions}", grouped(number(trace, VERSION).into()))
}

fn length(trace: &[u8]) -> String {
    if trace.len() as u64 > LONGEST {
        return format!("over {} bytes, with count {}", grouped(LONGEST.into()), count(trace));
    }
    format!("{} bytes, with count {}", grouped(trace.len() as i128), count(trace))
}

/// Where a refusal of a trace lies, and what stands there.
pub fn found(trace: &[u8], refusal: Refusal) -> Found {
    found_in(trace, "1 or 2", refusal)
}

/// The same of a draft.
pub fn found_in_draft(draft: &[u8], refusal: Refusal) -> Found {
    found_in(draft, "3", refusal)
}

fn found_in(trace: &[u8], versions: &str, refusal: Refusal) -> Found {
    let value = match (refusal.number, Version::of(trace)) {
        (1, _) => start(trace, versions),
        (2, _) => count(trace),
        (3, _) => length(trace),
        (_, Some(version)) => return found_in_second(&seconds(trace), version, refusal),
        (_, None) => String::new(),
    };
    Found { place: String::new(), value }
}

/// The second that a refusal names, and what stands in it.
fn found_in_second(seconds: &[Second], version: Version, refusal: Refusal) -> Found {
    let named = (refusal.at as usize).checked_sub(1).and_then(|at| seconds.get(at).copied());
    named.map_or(Found::default(), |second| found_at(Some(second), version, refusal))
}

/// What stands in the second that a refusal names; there is none where it could not be read.
fn found_at(second: Option<Second>, version: Version, refusal: Refusal) -> Found {
    let value = match (refusal.number, second) {
        (4, None) => format!("no value; {}", version.range()),
        (4, Some(second)) => second.told(version),
        (9, Some(second)) => format!("{} km/h", kilometres_an_hour(second.speed)),
        (20, Some(second)) => second.marks().unwrap_or_default(),
        _ => String::new(),
    };
    Found { place: format!("second {}", refusal.at), value }
}

/// A count that is refused.
fn found_count(count: usize) -> Found {
    Found { place: String::new(), value: grouped(count as i128) }
}

/// Where a refusal of seconds lies of which a trace of this version was to be made, and what stands there.
pub fn found_in_making(seconds: &[Second], version: Version, refusal: Refusal) -> Found {
    match refusal.number {
        2 => found_count(seconds.len()),
        _ => found_in_second(seconds, version, refusal),
    }
}

/// Where a refusal of the live engine lies and what stands there: it received so many seconds, and this one last.
pub fn found_live(received: usize, last: Option<Second>, version: Version, refusal: Refusal) -> Found {
    match refusal.number {
        2 => found_count(received),
        _ => found_at(last, version, refusal),
    }
}

/// What stands in two traces that differ in count.
pub fn found_in_pair(normal: &[u8], reduced: &[u8]) -> Found {
    Found { place: String::new(), value: format!("{} and {}", count(normal), count(reduced)) }
}
