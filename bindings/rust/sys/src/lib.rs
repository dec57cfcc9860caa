// (the page of the crate is its README)
#![doc = include_str!("../README.md")]
#![deny(missing_docs)]
#![no_std]

use core::ffi::c_void;

/// The version that this crate is of: ten thousand times the major one, a hundred times the minor one, and the patch.
pub const VERSION: u32 = 100;

/// All lines are answered, or the words are accepted.
pub const OK: u8 = 0;
/// There is too little room, or no memory, or the words are not UTF-8.
pub const FAILED: u8 = 1;
/// The words are wrong, or a source among them is no description.
pub const REFUSED: u8 = 2;

/// The greatest limit that words can name: how many bytes a line has at most that is not too long.
pub const GREATEST_LIMIT: usize = 1_048_576;
/// Bytes that always suffice for a line's answer and its line feed.
pub const LINE_ROOM: usize = 36;

/// Faults as numbers: the constants `COMPONENT` and `RANGE` come with the number of a component added, whose names, in their
/// order from 1 on, are `NAMES`.
pub mod fault {
    /// A required text is missing.
    pub const LITERAL: u32 = 100;
    /// A component can't be read.
    pub const COMPONENT: u32 = 200;
    /// Something follows what was read.
    pub const TRAILING: u32 = 300;
    /// What was read is not enough for a moment.
    pub const INSUFFICIENT: u32 = 400;
    /// A component is out of range.
    pub const RANGE: u32 = 500;
    /// The year at the target offset is not 0 to 9999.
    pub const YEAR: u32 = 600;
    /// The line is longer than the limit.
    pub const LONG: u32 = 700;
    /// The names of components as the texts of faults have them; that of number 1 is the first.
    pub const NAMES: [&str; 26] = [
        "year", "month", "day", "ordinal", "week", "week number", "weekday", "hour", "minute", "second", "subsecond", "period",
        "offset hour", "offset minute", "offset second", "unix_timestamp", "ignore", "separator", "julian_day", "millisecond",
        "microsecond", "nanosecond", "hours", "minutes", "seconds", "timestamp",
    ];
}

/// Why a line has no date, as numbers.
pub mod reason {
    /// No source reads a date in the line.
    pub const NONE: u32 = 100;
    /// The date is in doubt; this number, if no source says why.
    pub const DOUBT: u32 = 200;
    /// A word or a clock goes on after it.
    pub const GOES_ON: u32 = 201;
    /// A clock with seconds stands before it.
    pub const CLOCK_IN_FRONT: u32 = 202;
    /// The clock of the zone was put forward over it.
    pub const SKIPPED: u32 = 203;
    /// The clock of the zone was put back over it.
    pub const REPEATED: u32 = 204;
    /// The line says another offset than the one that was given for it.
    pub const ANOTHER_OFFSET: u32 = 205;
    /// The line says another time of day.
    pub const ANOTHER_TIME: u32 = 206;
    /// The line says another year.
    pub const ANOTHER_YEAR: u32 = 207;
    /// In a member of an object in JSON an escape stands in it or near behind it.
    pub const ESCAPE: u32 = 208;
    /// The year at the target offset is not 0 to 9999.
    pub const YEAR: u32 = 600;
}

/// What a line names: a moment, or a fault.
#[repr(C)]
#[derive(Clone, Copy, Debug, PartialEq, Eq)]
pub struct Moment {
    /// The seconds since 1970 began in UTC, rounded down; 0 where there is a fault.
    pub seconds: i64,
    /// The nanoseconds after them, below 1,000,000,000; 0 where there is a fault.
    pub nanoseconds: u32,
    /// 0 for a moment, otherwise the number of the fault (`fault`).
    pub fault: u32,
}

/// A handle: `at` is null where it is not open. What it points to is the library's.
#[repr(C)]
#[derive(Debug)]
pub struct Handle {
    /// What the calls by the handle take.
    pub at: *mut c_void,
}

/// The date inside a line, or why it has none.
#[repr(C)]
#[derive(Clone, Copy, Debug, PartialEq, Eq)]
pub struct LineDate {
    /// The seconds since 1970 began in UTC, rounded down; 0 where there is no moment.
    pub seconds: i64,
    /// The nanoseconds after them, below 1,000,000,000; 0 where there is no moment.
    pub nanoseconds: u32,
    /// 0 for a moment, otherwise the number of the reason (`reason`).
    pub reason: u32,
    /// The place of the first byte that says something of the date, also of one in doubt; 0 where none is read.
    pub start: usize,
    /// The place after the last such byte; 0 where none is read.
    pub end: usize,
}

/// What lines take of those above them: all is 0 at the beginning.
#[repr(C)]
#[derive(Clone, Copy, Debug)]
pub struct Above {
    /// How deep the last line with a date begins, if one is above.
    pub indent: usize,
    /// 0 at the beginning, 1 below lines without a date, 2 below a line with one.
    pub state: u32,
    /// How many bytes the key has, at most 63.
    pub len: u32,
    /// The key that a line without a date takes.
    pub key: [u8; 64],
}

/// A handle for lines: `at` is null where it is not open. What it points to is the library's.
#[repr(C)]
#[derive(Debug)]
pub struct LinesHandle {
    /// What the calls by the handle take.
    pub at: *mut c_void,
}

extern "C" {
    /// Answers each line of the input as the words say, each answer followed by a line feed, into the start of the output.
    ///
    /// # Safety
    ///
    /// No pointer is null, also where its length is 0, and as many bytes as the length says lie after each; the output and
    /// `written` overlap with nothing else; while the call runs nobody else writes what it reads, or uses what it writes.
    pub fn instants_answer_lines(
        words: *const c_void,
        words_len: usize,
        input: *const c_void,
        input_len: usize,
        output: *mut c_void,
        output_len: usize,
        written: *mut usize,
    ) -> u8;

    /// Looks at the words alone, and writes the sentence of what is refused to the output, cut to the room.
    ///
    /// # Safety
    ///
    /// As for `instants_answer_lines`, with `sentence_len` in the place of `written`.
    pub fn instants_sentence(
        words: *const c_void,
        words_len: usize,
        output: *mut c_void,
        output_len: usize,
        sentence_len: *mut usize,
    ) -> u8;

    /// Opens a handle on what the words ask for.
    ///
    /// # Safety
    ///
    /// As for `instants_sentence`, with `handle` in the place of `sentence_len`. The handle is not open. The text of the words
    /// stays where and as it is until the handle is closed.
    pub fn instants_open(words: *const c_void, words_len: usize, handle: *mut Handle) -> u8;

    /// Answers each line of the input by an open handle, whose `at` it is.
    ///
    /// # Safety
    ///
    /// As for `instants_answer_lines`. The handle was opened, by this thread or before this call, and is not closed.
    pub fn instants_answer(
        at: *const c_void,
        input: *const c_void,
        input_len: usize,
        output: *mut c_void,
        output_len: usize,
        written: *mut usize,
    ) -> u8;

    /// Writes the moment or the fault of each line of the input, one entry a line, by an open handle, whose `at` it is.
    ///
    /// # Safety
    ///
    /// As for `instants_answer`. `moments_len` counts entries, and `moments` is aligned as an entry is, also where the length is 0.
    pub fn instants_answer_moments(
        at: *const c_void,
        input: *const c_void,
        input_len: usize,
        moments: *mut Moment,
        moments_len: usize,
        written: *mut usize,
    ) -> u8;

    /// Closes an open handle, whose `at` it is.
    ///
    /// # Safety
    ///
    /// The handle is open, no call by it runs, and neither it nor a copy of it is used from now on.
    pub fn instants_close(at: *mut c_void);

    /// Opens a handle for lines on what the words of `instants-lines` ask for, with the bytes of the file of a zone, or none.
    ///
    /// # Safety
    ///
    /// As for `instants_open`; the bytes of the zone are not used after the call.
    pub fn instants_lines_open(
        words: *const c_void,
        words_len: usize,
        zone: *const c_void,
        zone_len: usize,
        handle: *mut LinesHandle,
    ) -> u8;

    /// Writes each line of the input after its key, each with a line feed, by an open handle for lines, whose `at` it is.
    ///
    /// # Safety
    ///
    /// As for `instants_answer`, of a handle for lines; `above` is as a call has left it, or all is 0.
    pub fn instants_lines_keys(
        at: *const c_void,
        input: *const c_void,
        input_len: usize,
        output: *mut c_void,
        output_len: usize,
        written: *mut usize,
        above: *mut Above,
    ) -> u8;

    /// Writes the date of each line of the input, one entry a line, by an open handle for lines, whose `at` it is.
    ///
    /// # Safety
    ///
    /// As for `instants_answer_moments`, of a handle for lines.
    pub fn instants_lines_dates(
        at: *const c_void,
        input: *const c_void,
        input_len: usize,
        dates: *mut LineDate,
        dates_len: usize,
        written: *mut usize,
    ) -> u8;

    /// Closes an open handle for lines, whose `at` it is.
    ///
    /// # Safety
    ///
    /// As for `instants_close`, of a handle for lines.
    pub fn instants_lines_close(at: *mut c_void);

    /// Looks at the words and the zone alone, and writes the sentence of what is refused to the output, cut to the room.
    ///
    /// # Safety
    ///
    /// As for `instants_sentence`.
    pub fn instants_lines_sentence(
        words: *const c_void,
        words_len: usize,
        zone: *const c_void,
        zone_len: usize,
        output: *mut c_void,
        output_len: usize,
        sentence_len: *mut usize,
    ) -> u8;

    /// The version of the library, as `VERSION` is that of this crate.
    ///
    /// # Safety
    ///
    /// It asks for nothing.
    pub fn instants_version() -> u32;
}
