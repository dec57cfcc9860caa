//! Dates inside lines.

use std::ffi::c_void;
use std::fmt;
use std::ptr::{self, NonNull};

use instants_sys::{reason, Above, LinesHandle, OK, REFUSED};

use crate::{joined, most_lines, sentence_by, Fault, Moment};

/// Words of the program `instants-lines` in its modes `key` and `carry`, read once: dates inside lines are found by them until it is
/// dropped, by several threads at once too.
///
/// ```
/// let lines = instants::Lines::new(&["key", "rfc3339", "access-log"], &[])?;
/// let keyed = lines.keyed(b"up at 2021-01-02T04:04:05+01:00\nno date\n");
/// assert_eq!(keyed, b"2021-01-02T03:04:05.000000000Z\tup at 2021-01-02T04:04:05+01:00\n! none\tno date\n");
/// # Ok::<(), instants::Fault>(())
/// ```
pub struct Lines {
    /// What the library keeps of an open handle.
    at: NonNull<c_void>,
    /// Their text, which the handle reads, stays where it is as the `String` moves.
    words: String,
}

/// Where the date of a line is: its moment, and the bytes of the line that say it.
#[derive(Clone, Copy, Debug, PartialEq, Eq)]
pub struct LineDate {
    /// The moment.
    pub moment: Moment,
    /// The place of the first byte that says something of it.
    pub start: usize,
    /// The place after the last such byte.
    pub end: usize,
}

/// Why a line has no date; the place is that of the date in doubt.
#[derive(Clone, Copy, Debug, PartialEq, Eq)]
pub struct NoDate {
    /// The number of the reason, of `instants_sys::reason`.
    pub reason: u32,
    /// The place of the first byte that says something of a date in doubt, or 0.
    pub start: usize,
    /// The place after the last such byte, or 0.
    pub end: usize,
}

/// In the words of mode `locate`.
impl fmt::Display for NoDate {
    fn fmt(&self, f: &mut fmt::Formatter<'_>) -> fmt::Result {
        f.write_str(match self.reason {
            reason::NONE => "none",
            reason::GOES_ON => "goes on",
            reason::CLOCK_IN_FRONT => "clock in front",
            reason::SKIPPED => "skipped by the clock",
            reason::REPEATED => "twice by the clock",
            reason::ANOTHER_OFFSET => "another offset",
            reason::ANOTHER_TIME => "another time",
            reason::ANOTHER_YEAR => "another year",
            reason::ESCAPE => "escape",
            reason::YEAR => "year",
            _ => "doubt",
        })
    }
}

impl std::error::Error for NoDate {}

/// What lines take of those above them in mode `carry`, from block to block.
#[derive(Clone, Copy, Debug)]
pub struct LinesAbove(Above);

impl Default for LinesAbove {
    /// The beginning: no line is above.
    fn default() -> LinesAbove {
        LinesAbove(Above { indent: 0, state: 0, len: 0, key: [0; 64] })
    }
}

// What is open may be another thread's, and several threads may ask it at once: no call but `drop` changes it.
unsafe impl Send for Lines {}
unsafe impl Sync for Lines {}

impl Lines {
    /// Reads the words, and keeps a text of its own of them; with the bytes of the file of the zone that they name, or none.
    ///
    /// ```
    /// let fault = instants::Lines::new(&["replace", "rfc3339"], &[]).err().unwrap();
    /// assert_eq!(fault.to_string(), "instants-lines: the calls have modes key and carry");
    /// ```
    pub fn new<W: AsRef<str>>(words: &[W], zone: &[u8]) -> Result<Lines, Fault> {
        let words = joined(words)?;
        let mut handle = LinesHandle { at: ptr::null_mut() };
        // Slices are never null, and the text of a `String` stays with the handle; the handle is not open yet.
        let status = unsafe {
            instants_sys::instants_lines_open(words.as_ptr().cast(), words.len(), zone.as_ptr().cast(), zone.len(), &mut handle)
        };
        match (status, NonNull::new(handle.at)) {
            (OK, Some(at)) => Ok(Lines { at, words }),
            (REFUSED, _) => Err(Fault::Refused(refused(&words, zone)?)),
            _ => Err(Fault::Memory),
        }
    }

    /// Each line of the input after its key, as the program writes it.
    pub fn keyed(&self, input: &[u8]) -> Vec<u8> {
        self.keyed_below(&mut LinesAbove::default(), input)
    }

    /// The same of a block of lines, below those above it, of which `above` tells what lines take.
    ///
    /// ```
    /// let lines = instants::Lines::new(&["carry", "rfc3339"], &[])?;
    /// let mut above = instants::LinesAbove::default();
    /// lines.keyed_below(&mut above, b"2021-01-02T03:04:05Z up\n");
    /// assert_eq!(lines.keyed_below(&mut above, b"  trace\n"), b"2021-01-02T03:04:05.000000000Z\t  trace\n");
    /// # Ok::<(), instants::Fault>(())
    /// ```
    pub fn keyed_below(&self, above: &mut LinesAbove, input: &[u8]) -> Vec<u8> {
        let mut output = Vec::new();
        let mut room = input.len() + 128 * most_lines(input);
        loop {
            output.reserve_exact(room);
            let mut written = 0;
            // There is room for so many bytes, which nobody else uses, and as many as `written` says are written.
            unsafe {
                let status = instants_sys::instants_lines_keys(
                    self.at.as_ptr(),
                    input.as_ptr().cast(),
                    input.len(),
                    output.as_mut_ptr() as *mut c_void,
                    room,
                    &mut written,
                    &mut above.0,
                );
                if status == OK {
                    output.set_len(written);
                    return output;
                }
            }
            // (a label is longer than was thought; nothing is kept of the call)
            room *= 2;
        }
    }

    /// The date of each line of the input, or why it has none.
    ///
    /// ```
    /// let lines = instants::Lines::new(&["key", "rfc3339"], &[])?;
    /// let dates = lines.dates(b"at 1970-01-01T01:00:00.25+01:00\nnone\n");
    /// let moment = instants::Moment { seconds: 0, nanoseconds: 250_000_000 };
    /// assert_eq!(dates[0], Ok(instants::LineDate { moment, start: 3, end: 31 }));
    /// assert_eq!(dates[1].unwrap_err().to_string(), "none");
    /// # Ok::<(), instants::Fault>(())
    /// ```
    pub fn dates(&self, input: &[u8]) -> Vec<Result<LineDate, NoDate>> {
        let most = most_lines(input);
        let mut entries = Vec::<instants_sys::LineDate>::with_capacity(most);
        let mut written = 0;
        // There is room for an entry a line, which nobody else uses, and as many entries as `written` says are written.
        unsafe {
            instants_sys::instants_lines_dates(
                self.at.as_ptr(),
                input.as_ptr().cast(),
                input.len(),
                entries.as_mut_ptr(),
                most,
                &mut written,
            );
            entries.set_len(written);
        }
        entries.into_iter().map(of_entry).collect()
    }
}

impl Drop for Lines {
    fn drop(&mut self) {
        // It is open, and all calls have returned, since none can have a reference to it; the words are still there.
        unsafe { instants_sys::instants_lines_close(self.at.as_ptr()) }
    }
}

impl fmt::Debug for Lines {
    fn fmt(&self, f: &mut fmt::Formatter<'_>) -> fmt::Result {
        f.debug_struct("Lines").field("words", &self.words).finish_non_exhaustive()
    }
}

/// The date of an entry.
fn of_entry(entry: instants_sys::LineDate) -> Result<LineDate, NoDate> {
    let (start, end) = (entry.start, entry.end);
    match entry.reason {
        0 => Ok(LineDate { moment: Moment { seconds: entry.seconds, nanoseconds: entry.nanoseconds }, start, end }),
        reason => Err(NoDate { reason, start, end }),
    }
}

/// What is refused of the words and the zone.
fn refused(words: &str, zone: &[u8]) -> Result<String, Fault> {
    // Slices are never null, and the sentence is borrowed mutably.
    sentence_by(|sentence, len| unsafe {
        instants_sys::instants_lines_sentence(
            words.as_ptr().cast(),
            words.len(),
            zone.as_ptr().cast(),
            zone.len(),
            sentence.as_mut_ptr().cast(),
            sentence.len(),
            len,
        )
    })
}
