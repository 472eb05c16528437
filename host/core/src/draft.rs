//! Drafts: traces in which phases may be missing, as they are typed from scans. Mending one, and turning one with nothing open into a trace.

use crate::{agreed, calls, Outcome, Refusal};

/// The most seconds of a draft, and so the most entries that either list of [`write_mended`] can take.
pub const MOST_SECONDS: usize = 2000;

/// How many seconds were changed, and how many are left open.
#[repr(C)]
#[derive(Clone, Copy, Debug, Default, PartialEq, Eq)]
pub struct Counts {
    pub changed: u32,
    pub open: u32,
}

/// What crosses the boundary in place of a `Result`; `ylhovesko_mended` of include/ylhovesko.h.
#[repr(C)]
pub(crate) struct MendedOutcome {
    pub outcome: Outcome,
    pub counts: Counts,
}

/// Writes the mended draft to the front of the buffer, and the seconds that were changed and those that are left open to the front of the two lists, from 1 and
/// rising. Gives how many there are of each; or the first of the refusals 1 to 4 and 8, and all three stay as they were. A list may be shorter than
/// [`MOST_SECONDS`]: 8 is for this answer.
///
/// ```
/// use ylhovesko::draft::{write_mended, Counts};
/// // 30.0 km/h in cruise, then with the phase missing and marked "no gear-shift", in cruise again, and missing at the end
/// let draft = [b'W', b'T', b'R', 0, 3, 0, 4, 0, 44, 1, 2, 0, 44, 1, 20, 0, 44, 1, 2, 0, 44, 1, 16, 0];
/// let (mut buffer, mut changed, mut open) = ([7; 25], [7; 2], [7; 1]);
/// assert_eq!(write_mended(&draft, &mut buffer, &mut changed, &mut open), Ok(Counts { changed: 1, open: 1 }));
/// assert_eq!(buffer, [b'W', b'T', b'R', 0, 3, 0, 4, 0, 44, 1, 2, 0, 44, 1, 6, 0, 44, 1, 2, 0, 44, 1, 16, 0, 7]);
/// assert_eq!((changed, open), ([2, 7], [4]));
/// assert_eq!(write_mended(&draft, &mut buffer, &mut changed, &mut []).unwrap_err().number, 8);
/// ```
pub fn write_mended(draft: &[u8], buffer: &mut [u8], changed: &mut [u16], open: &mut [u16]) -> Result<Counts, Refusal> {
    agreed();
    let MendedOutcome { outcome, counts } = calls::mend(draft, buffer, changed, open);
    outcome.beside(counts)
}

/// A mended draft, with the seconds that were changed and those that are left open, from 1 and rising.
#[derive(Clone, Debug, PartialEq, Eq)]
pub struct Mended {
    pub bytes: Vec<u8>,
    pub changed: Vec<u16>,
    pub open: Vec<u16>,
}

/// What [`write_mended`] writes, as one; or the first of the refusals 1 to 4.
///
/// ```
/// use ylhovesko::draft::mend;
/// use ylhovesko::gear::judge_trace;
/// let stop = [b'W', b'T', b'R', 0, 3, 0, 3, 0, 0, 0, 0, 0, 0, 0, 16, 0, 0, 0, 0, 0];
/// let mended = mend(&stop).unwrap();
/// assert_eq!((mended.bytes[14], &mended.changed[..], &mended.open[..]), (0, &[2][..], &[][..]));
/// assert!(mend(&mended.bytes).unwrap().changed.is_empty());
/// // it is a draft still
/// assert_eq!(judge_trace(&mended.bytes).unwrap_err().number, 1);
/// assert_eq!(mend(&stop[..19]).unwrap_err().number, 3);
/// ```
pub fn mend(draft: &[u8]) -> Result<Mended, Refusal> {
    let (mut bytes, mut changed, mut open) = (vec![0; draft.len()], vec![0; MOST_SECONDS], vec![0; MOST_SECONDS]);
    let counts = write_mended(draft, &mut bytes, &mut changed, &mut open)?;
    changed.truncate(counts.changed as usize);
    open.truncate(counts.open as usize);
    Ok(Mended { bytes, changed, open })
}

/// Writes the trace of version 1 with the seconds and marks of a draft that has nothing open to the front of the buffer, as many bytes as the draft has; or
/// gives the first of the refusals 1 to 4 and 8, and the buffer stays as it was. 4 is for an open second too.
///
/// ```
/// use ylhovesko::draft::write_turned;
/// let stop = [b'W', b'T', b'R', 0, 3, 0, 1, 0, 23, 0, 4, 0];
/// let mut buffer = [7; 13];
/// write_turned(&stop, &mut buffer).unwrap();
/// assert_eq!(buffer, [b'W', b'T', b'R', 0, 1, 0, 1, 0, 23, 0, 4, 0, 7]);
/// assert_eq!(write_turned(&stop, &mut buffer[..11]).unwrap_err().number, 8);
/// ```
pub fn write_turned(draft: &[u8], buffer: &mut [u8]) -> Result<(), Refusal> {
    agreed();
    calls::turn(draft, buffer).told()
}

/// What [`write_turned`] writes; or the first of the refusals 1 to 4.
///
/// ```
/// use ylhovesko::draft::turn;
/// use ylhovesko::gear::judge_trace;
/// let mut stops = [b'W', b'T', b'R', 0, 3, 0, 2, 0, 0, 0, 0, 0, 0, 0, 0, 0];
/// assert!(judge_trace(&turn(&stops).unwrap()).is_ok());
/// stops[14] = 16;
/// let refusal = turn(&stops).unwrap_err();
/// assert_eq!((refusal.number, refusal.at), (4, 2));
/// ```
pub fn turn(draft: &[u8]) -> Result<Vec<u8>, Refusal> {
    let mut trace = vec![0; draft.len()];
    write_turned(draft, &mut trace)?;
    Ok(trace)
}
