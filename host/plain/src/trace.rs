//! The house file of a trace (01, Trace; 02, M-109), refusals 1 to 4, and 15 of a pair; and the writer of version 2, refusals 2, 4 and 8.

use crate::{at, check, nowhere, Refusal};

#[derive(Clone, Copy, Debug, PartialEq, Eq)]
pub enum Phase {
    Stop,
    Acceleration,
    Cruise,
    Deceleration,
}

/// One second of a trace that was accepted.
#[derive(Clone, Copy, Debug, PartialEq, Eq)]
pub struct Second {
    /// In 0.1 km/h.
    pub speed: u32,
    pub phase: Phase,
    pub no_gear_shift: bool,
    pub no_first_gear: bool,
}

impl Second {
    pub fn is_stop(&self) -> bool {
        self.phase == Phase::Stop
    }

    /// Whether it has either of "the two bench marks", which version 1 alone can hold.
    pub fn is_marked(&self) -> bool {
        self.no_gear_shift || self.no_first_gear
    }
}

/// "Bytes W T R, one zero byte": how a house file of every version begins.
const HEAD: [u8; 4] = *b"WTR\0";

/// "Speed in 0.1 km/h (.. 0 to 2,000)".
pub(crate) const MOST_SPEED: u16 = 2000;

/// "Bits 0-1 phase".
pub(crate) const PHASE: u8 = 3;
/// "Bit 2 'no gear-shift'".
pub(crate) const NO_GEAR_SHIFT: u8 = 4;
/// "Bit 3 'no 1. gear'".
pub(crate) const NO_FIRST_GEAR: u8 = 8;

/// The flags that a second may have in a version, if there is such a version: "trace version 2 has only the phase", and "version 1 is still read with its
/// marks" (02, M-109). "The core itself refuses version 3" (02, M-112).
pub(crate) fn flags_of(version: u16) -> Option<u8> {
    match version {
        1 => Some(PHASE | NO_GEAR_SHIFT | NO_FIRST_GEAR),
        2 => Some(PHASE),
        _ => None,
    }
}

/// "16 bits, little-endian".
pub(crate) fn sixteen(low: u8, high: u8) -> u16 {
    u16::from_le_bytes([low, high])
}

/// "Count of seconds (1 to 2,000)".
fn judge_count(count: usize) -> Result<(), Refusal> {
    check((1..=2000).contains(&count), nowhere(2))
}

/// How many bytes a house file has.
fn length(count: usize) -> usize {
    8 + 4 * count
}

/// The version that a house file names, or refusal 1 where it has no whole head.
pub(crate) fn version(file: &[u8]) -> Result<u16, Refusal> {
    check(file.len() >= 8 && file[..4] == HEAD, nowhere(1))?;
    Ok(sixteen(file[4], file[5]))
}

/// The bytes of each second of a house file that has a whole head, or the first of the refusals 2 and 3.
pub(crate) fn in_fours(file: &[u8]) -> Result<&[[u8; 4]], Refusal> {
    let count = usize::from(sixteen(file[6], file[7]));
    judge_count(count)?;
    check(file.len() == length(count), nowhere(3))?;
    Ok(file[8..].as_chunks().0)
}

/// The seconds of a house file by its own version, or the first of the refusals 1 to 4.
///
/// ```
/// let marked = [b'W', b'T', b'R', 0, 1, 0, 1, 0, 23, 0, 4, 0];
/// let [second] = plain::trace::read(&marked).unwrap()[..] else { panic!() };
/// assert!(second.speed == 23 && second.is_marked());
/// assert_eq!(plain::trace::read(&marked[..11]).unwrap_err().number, 3);
/// let in_version_2 = [b'W', b'T', b'R', 0, 2, 0, 1, 0, 23, 0, 4, 0];
/// assert_eq!(plain::trace::read(&in_version_2).unwrap_err().number, 4);
/// ```
pub fn read(file: &[u8]) -> Result<Vec<Second>, Refusal> {
    let flags = flags_of(version(file)?).ok_or(nowhere(1))?;
    (1..).zip(in_fours(file)?).map(|(place, bytes)| second(bytes, flags).ok_or(at(4, place))).collect()
}

/// A second that has no other flags than these.
pub(crate) fn second([low, high, flags, fourth]: &[u8; 4], may_have: u8) -> Option<Second> {
    let speed = sixteen(*low, *high);
    if speed > MOST_SPEED || flags & !may_have != 0 || *fourth != 0 {
        return None;
    }
    let phase = match flags & PHASE {
        0 => Phase::Stop,
        1 => Phase::Acceleration,
        2 => Phase::Cruise,
        _ => Phase::Deceleration,
    };
    Some(Second { speed: speed.into(), phase, no_gear_shift: flags & NO_GEAR_SHIFT != 0, no_first_gear: flags & NO_FIRST_GEAR != 0 })
}

/// "The writer for version 2" (02, M-109): the house file of the seconds at the front of the buffer; or the first refusal, "2, then 4 with the second, then 8"
/// (readings), and the buffer as it was lent. As include/ylhovesko.h says, "the seconds are lent as pairs in one list, of each its speed in 0.1 km/h and then
/// its phase", and 2 is also for "a speed without its phase".
///
/// ```
/// let mut buffer = [7; 17];
/// plain::trace::write(&[0, 0, 300, 1], &mut buffer).unwrap();
/// assert_eq!(buffer, [b'W', b'T', b'R', 0, 2, 0, 2, 0, 0, 0, 0, 0, 44, 1, 1, 0, 7]);
/// assert_eq!(plain::trace::write(&[0, 0, 300], &mut buffer).unwrap_err().number, 2);
/// assert_eq!(plain::trace::write(&[0, 0, 300, 4], &mut buffer).unwrap_err().at, 2);
/// ```
pub fn write(numbers: &[u16], buffer: &mut [u8]) -> Result<(), Refusal> {
    let (seconds, alone) = numbers.as_chunks::<2>();
    check(alone.is_empty(), nowhere(2))?;
    judge_count(seconds.len())?;
    for (place, [speed, phase]) in (1..).zip(seconds) {
        check(*speed <= MOST_SPEED && *phase <= 3, at(4, place))?;
    }
    // the flags of version 2 are the phase
    let file = file_of(2, seconds);
    check(buffer.len() >= file.len(), nowhere(8))?;
    buffer[..file.len()].copy_from_slice(&file);
    Ok(())
}

/// A house file: the head, the version, the count, "then 4 bytes a second: speed .., flags, zero".
pub(crate) fn file_of(version: u16, seconds: &[[u16; 2]]) -> Vec<u8> {
    let mut file = HEAD.to_vec();
    file.extend(version.to_le_bytes());
    file.extend((seconds.len() as u16).to_le_bytes());
    for [speed, flags] in seconds {
        file.extend(speed.to_le_bytes());
        file.extend([*flags as u8, 0]);
    }
    file
}

/// "For a pair of traces, 1 to 4 of the normal, then of the reduced, then 15."
pub fn judge_pair(normal: &[u8], reduced: &[u8]) -> Result<(), Refusal> {
    let seconds = read(normal)?.len();
    check(read(reduced)?.len() == seconds, nowhere(15))
}

/// The lent trace that the switch names; "on a refusal .. the empty first part of the normal trace".
pub fn choose<'a>(normal: &'a [u8], reduced: &'a [u8], switch: bool) -> &'a [u8] {
    match judge_pair(normal, reduced) {
        Err(_) => &normal[..0],
        Ok(()) if switch => reduced,
        Ok(()) => normal,
    }
}

#[cfg(test)]
mod versions {
    //! 02's sentences on the two versions, and that "reading what it wrote gives the same seconds".

    use super::*;

    /// A file of one second.
    fn one(version: u16, flags: u8) -> Vec<u8> {
        let [low, high] = version.to_le_bytes();
        [&HEAD[..], &[low, high, 1, 0, 100, 0, flags, 0]].concat()
    }

    fn number(file: &[u8]) -> u32 {
        read(file).map_or_else(|refusal| refusal.number, |_| 0)
    }

    #[test]
    fn two_versions_are_read() {
        for version in 0..=u16::MAX {
            let refused = !(1..=2).contains(&version);
            assert_eq!(number(&one(version, 0)), u32::from(refused), "version {version}");
        }
    }

    #[test]
    fn flags_by_version() {
        for flags in 0..=u8::MAX {
            assert_eq!([1, 2].map(|version| number(&one(version, flags)) == 0), [flags < 16, flags < 4], "flags {flags}");
        }
        let marks = [0, 4, 8, 12].map(|flags| read(&one(1, flags)).unwrap()[0].is_marked());
        assert_eq!(marks, [false, true, true, true]);
    }

    /// Every speed with every phase; what is behind the file stays.
    #[test]
    fn what_is_written_is_read() {
        const PHASES: [Phase; 4] = [Phase::Stop, Phase::Acceleration, Phase::Cruise, Phase::Deceleration];
        for (phase, named) in (0..).zip(PHASES) {
            let numbers: Vec<u16> = (1..=2000).flat_map(|speed| [speed, phase]).collect();
            let mut buffer = [7; 8009];
            write(&numbers, &mut buffer).unwrap();
            assert_eq!(buffer[8008], 7);
            let same = (1..=2000).map(|speed| Second { speed, phase: named, no_gear_shift: false, no_first_gear: false });
            assert!(read(&buffer[..8008]).unwrap().into_iter().eq(same));
        }
    }

    /// The refusal of a list with some room, and that the buffer stays.
    fn refused(numbers: &[u16], room: usize) -> (u32, u32) {
        let mut buffer = vec![7; room];
        let refusal = write(numbers, &mut buffer).unwrap_err();
        assert!(buffer.iter().all(|byte| *byte == 7));
        (refusal.number, refusal.at)
    }

    #[test]
    fn the_writer_refuses_in_order() {
        for numbers in [&[][..], &[5], &[5, 1, 2001], &[2001, 4, 5], &[5; 4002], &[5; 4003]] {
            assert_eq!(refused(numbers, 0), (2, 0), "{} numbers", numbers.len());
        }
        for (numbers, at) in [([2001, 0, 5, 4], 1), ([2000, 3, 5, 4], 2), ([5, 259, 2001, 0], 1), ([0, 0, 65_535, 0], 2)] {
            assert_eq!(refused(&numbers, 15), (4, at), "{numbers:?}");
        }
        assert_eq!([0, 8, 15].map(|room| refused(&[2000, 3, 0, 0], room)), [(8, 0); 3]);
        assert!(write(&[2000, 3, 0, 0], &mut [7; 16]).is_ok());
    }
}
