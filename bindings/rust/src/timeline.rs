//! Words that are read once.

use std::ffi::c_void;
use std::fmt;
use std::ptr::{self, NonNull};

use instants_sys::{Handle, OK, REFUSED};

use crate::moment::of_entry;
use crate::{joined, most_lines, room, sentence, Fault, LineFault, Moment};

/// The program's words, read once: lines are answered by them until it is dropped, by several threads at once too. A call looks
/// at no words and takes no memory, but for its answers.
///
/// ```
/// let timeline = instants::Timeline::new(&["+00:00", "-", "100", "rfc3339"])?;
/// let mut answers = Vec::new();
/// for line in ["2021-01-02T04:04:05+01:00", "yesterday"] {
///     timeline.append_to(line.as_bytes(), &mut answers);
/// }
/// assert_eq!(answers, b"2021-01-02T03:04:05.000000000Z\n! component year\n");
/// # Ok::<(), instants::Fault>(())
/// ```
pub struct Timeline {
    /// What the library keeps of an open handle.
    at: NonNull<c_void>,
    /// Their text, which the handle reads, stays where it is as the `String` moves.
    words: String,
}

// What is open may be another thread's, and several threads may answer by it at once: no call but `drop` changes it.
unsafe impl Send for Timeline {}
unsafe impl Sync for Timeline {}

impl Timeline {
    /// Reads the words, and keeps a text of its own of them.
    ///
    /// ```
    /// let fault = instants::Timeline::new(&["+25:00", "-", "100", "rfc3339"]).unwrap_err();
    /// assert_eq!(fault.to_string(), "instants: the target offset must be +HH:MM or -HH:MM");
    /// ```
    pub fn new<W: AsRef<str>>(words: &[W]) -> Result<Timeline, Fault> {
        let words = joined(words)?;
        let mut handle = Handle { at: ptr::null_mut() };
        // The text of a `String` is never null, and stays with the handle; the handle is not open yet.
        let status = unsafe { instants_sys::instants_open(words.as_ptr().cast(), words.len(), &mut handle) };
        match (status, NonNull::new(handle.at)) {
            (OK, Some(at)) => Ok(Timeline { at, words }),
            (REFUSED, _) => Err(Fault::Refused(sentence(&words)?)),
            _ => Err(Fault::Memory),
        }
    }

    /// Answers each line of the input, each answer followed by a line feed.
    ///
    /// ```
    /// let timeline = instants::Timeline::new(&["+00:00", "-", "100", "rfc3339"])?;
    /// assert_eq!(timeline.answers(b"2021-01-02T03:04:05Z\n\n"), b"2021-01-02T03:04:05.000000000Z\n! component year\n");
    /// # Ok::<(), instants::Fault>(())
    /// ```
    pub fn answers(&self, input: &[u8]) -> Vec<u8> {
        let mut output = Vec::new();
        self.append_to(input, &mut output);
        output
    }

    /// The same after what the output has.
    pub fn append_to(&self, input: &[u8], output: &mut Vec<u8>) {
        let room = room(input);
        output.reserve(room);
        let start = output.len();
        let spare = &mut output.spare_capacity_mut()[..room];
        // As many bytes as `written` says are written after the start, and no more than there is room for.
        unsafe {
            let (_, written) = self.answer(input, spare.as_mut_ptr().cast(), spare.len());
            output.set_len(start + written);
        }
    }

    /// The same into the start of the output. How many bytes the answers have, or `Fault::NoRoom`.
    ///
    /// ```
    /// let timeline = instants::Timeline::new(&["+00:00", "-", "100", "rfc3339"])?;
    /// let mut output = [0; instants::LINE_ROOM];
    /// let len = timeline.answer_into(b"2021-01-02T03:04:05Z", &mut output)?;
    /// assert_eq!(&output[..len], b"2021-01-02T03:04:05.000000000Z\n");
    /// # Ok::<(), instants::Fault>(())
    /// ```
    pub fn answer_into(&self, input: &[u8], output: &mut [u8]) -> Result<usize, Fault> {
        // The output is a slice that is borrowed mutably.
        match unsafe { self.answer(input, output.as_mut_ptr(), output.len()) } {
            (OK, written) => Ok(written),
            _ => Err(Fault::NoRoom),
        }
    }

    /// The moment of each line of the input, or its fault: of the same lines and faults as the answers.
    ///
    /// ```
    /// let timeline = instants::Timeline::new(&["+00:00", "-", "100", "rfc3339"])?;
    /// let moments = timeline.moments(b"1970-01-01T01:00:00.25+01:00\nyesterday\n");
    /// assert_eq!(moments[0], Ok(instants::Moment { seconds: 0, nanoseconds: 250_000_000 }));
    /// assert_eq!(moments[1].unwrap_err().to_string(), "component year");
    /// # Ok::<(), instants::Fault>(())
    /// ```
    pub fn moments(&self, input: &[u8]) -> Vec<Result<Moment, LineFault>> {
        let most = most_lines(input);
        let mut entries = Vec::<instants_sys::Moment>::with_capacity(most);
        let mut written = 0;
        // There is room for an entry a line, which nobody else uses, and as many entries as `written` says are written.
        unsafe {
            instants_sys::instants_answer_moments(
                self.at.as_ptr(),
                input.as_ptr().cast(),
                input.len(),
                entries.as_mut_ptr(),
                most,
                &mut written,
            );
            entries.set_len(written);
        }
        entries.into_iter().map(of_entry).collect()
    }

    /// The status of a call, and how many bytes are written to the output.
    ///
    /// # Safety
    ///
    /// There is room for so many bytes, which nobody else uses meanwhile.
    unsafe fn answer(&self, input: &[u8], output: *mut u8, output_len: usize) -> (u8, usize) {
        let mut written = 0;
        let status = instants_sys::instants_answer(
            self.at.as_ptr(),
            input.as_ptr().cast(),
            input.len(),
            output.cast(),
            output_len,
            &mut written,
        );
        (status, written)
    }
}

impl Drop for Timeline {
    fn drop(&mut self) {
        // It is open, and all calls have returned, since none can have a reference to it; the words are still there.
        unsafe { instants_sys::instants_close(self.at.as_ptr()) }
    }
}

impl fmt::Debug for Timeline {
    fn fmt(&self, f: &mut fmt::Formatter<'_>) -> fmt::Result {
        f.debug_struct("Timeline").field("words", &self.words).finish_non_exhaustive()
    }
}
