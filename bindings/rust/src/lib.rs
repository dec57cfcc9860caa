// (the page of the crate is its README)
#![doc = include_str!("../README.md")]
#![deny(missing_docs)]

mod lines;
mod moment;
mod timeline;

use std::fmt;

pub use instants_sys::{GREATEST_LIMIT, LINE_ROOM};
use instants_sys::{OK, REFUSED};
pub use lines::{LineDate, Lines, LinesAbove, NoDate};
pub use moment::{LineFault, Moment, NoSystemTime};
pub use timeline::Timeline;

/// Why lines are not answered. Later versions may have more reasons, so a `match` needs an arm for others:
///
/// ```compile_fail,E0004
/// fn is_of_words(fault: instants::Fault) -> bool {
///     match fault {
///         instants::Fault::Refused(_) => true,
///         instants::Fault::NoRoom | instants::Fault::Memory => false,
///     }
/// }
/// ```
#[derive(Clone, Debug, PartialEq, Eq)]
#[non_exhaustive]
pub enum Fault {
    /// The words are wrong, or a source among them is no description; with the program's sentence.
    Refused(String),
    /// The output is too short. It is full of the beginning of the answers.
    NoRoom,
    /// Memory ran out.
    Memory,
}

impl fmt::Display for Fault {
    fn fmt(&self, f: &mut fmt::Formatter<'_>) -> fmt::Result {
        match self {
            Fault::Refused(sentence) => f.write_str(sentence),
            Fault::NoRoom => f.write_str("instants: the output is too short"),
            Fault::Memory => f.write_str("instants: out of memory"),
        }
    }
}

impl std::error::Error for Fault {}

/// The version of the library: ten thousand times the major one, a hundred times the minor one, and the patch.
///
/// ```
/// assert_eq!(instants::version() / 10_000, 0);
/// ```
pub fn version() -> u32 {
    // It takes nothing.
    unsafe { instants_sys::instants_version() }
}

/// Bytes that always suffice for the answers to an input.
///
/// ```
/// assert_eq!(instants::room(b"2021-01-02T04:04:05Z"), instants::LINE_ROOM);
/// ```
pub fn room(input: &[u8]) -> usize {
    LINE_ROOM * most_lines(input)
}

/// So many lines an input has at most: one for each line feed, and one more.
fn most_lines(input: &[u8]) -> usize {
    input.chunks(255).map(line_feeds).sum::<usize>() + 1
}

/// How many line feeds there are among at most 255 bytes: counted in a byte, of which the processor adds many at once.
fn line_feeds(bytes: &[u8]) -> usize {
    usize::from(bytes.iter().map(|byte| u8::from(*byte == b'\n')).sum::<u8>())
}

/// Answers each line of the input as the words say, each answer followed by a line feed. A word is a `&str`, a `String`, or what
/// else is one text.
///
/// ```
/// let fault = instants::answers(&["+25:00", "-", "100", "rfc3339"], b"").unwrap_err();
/// assert_eq!(fault.to_string(), "instants: the target offset must be +HH:MM or -HH:MM");
/// ```
pub fn answers<W: AsRef<str>>(words: &[W], input: &[u8]) -> Result<Vec<u8>, Fault> {
    let mut output = vec![0; room(input)];
    let len = answer_into(words, input, &mut output)?;
    output.truncate(len);
    Ok(output)
}

/// The same into the start of the output. How many bytes the answers have.
///
/// ```
/// let mut output = [0; instants::LINE_ROOM];
/// let len = instants::answer_into(&["+00:00", "-", "100", "rfc3339"], b"2021-01-02T03:04:05Z", &mut output)?;
/// assert_eq!(&output[..len], b"2021-01-02T03:04:05.000000000Z\n");
/// # Ok::<(), instants::Fault>(())
/// ```
pub fn answer_into<W: AsRef<str>>(words: &[W], input: &[u8], output: &mut [u8]) -> Result<usize, Fault> {
    answer_by(&joined(words)?, input, output)
}

/// The same by the words in one text.
fn answer_by(words: &str, input: &[u8], output: &mut [u8]) -> Result<usize, Fault> {
    let mut written = 0;
    // Slices are never null, and an output that is borrowed mutably overlaps with nothing.
    let status = unsafe {
        instants_sys::instants_answer_lines(
            words.as_ptr().cast(),
            words.len(),
            input.as_ptr().cast(),
            input.len(),
            output.as_mut_ptr().cast(),
            output.len(),
            &mut written,
        )
    };
    match status {
        OK => Ok(written),
        REFUSED => Err(Fault::Refused(sentence(words)?)),
        _ if written > 0 || output.is_empty() => Err(Fault::NoRoom),
        _ => Err(Fault::Memory),
    }
}

/// The words in one text. A word with a line feed would be two.
fn joined<W: AsRef<str>>(words: &[W]) -> Result<String, Fault> {
    let words: Vec<&str> = words.iter().map(AsRef::as_ref).collect();
    match words.iter().position(|word| word.contains('\n')) {
        Some(at) => Err(Fault::Refused(format!("instants: word {} has a line feed", at + 1))),
        None => Ok(words.join("\n")),
    }
}

/// What is refused of the words.
fn sentence(words: &str) -> Result<String, Fault> {
    // As in `answer_into`.
    sentence_by(|sentence, len| unsafe {
        instants_sys::instants_sentence(
            words.as_ptr().cast(),
            words.len(),
            sentence.as_mut_ptr().cast(),
            sentence.len(),
            len,
        )
    })
}

/// The sentence that a call writes to an output, with its length, and a status.
fn sentence_by(call: impl Fn(&mut [u8], &mut usize) -> u8) -> Result<String, Fault> {
    let mut sentence = vec![0; 128];
    loop {
        let mut len = 0;
        if call(&mut sentence, &mut len) != REFUSED {
            return Err(Fault::Memory);
        }
        if len <= sentence.len() {
            sentence.truncate(len);
            return Ok(String::from_utf8_lossy(&sentence).into_owned());
        }
        sentence.resize(len, 0);
    }
}
