//! `time_peer TARGET - LIMIT SOURCE..`, by the crate `time`: each line is read by the first source that takes it, and
//! written at the target offset with nine digits of a fraction, by `parse`, `to_offset` and `format_into`. A line that
//! no source takes is answered by `! invalid`.
//!
//! A source is `rfc3339`, `rfc2822`, `iso8601`, `%d/%b/%Y:%H:%M:%S %z`, or one of the names of `local`, which are read as
//! UTC, or `unix` or `unix_ms`. For ISO 8601, the logs and Unix time the crate's release 0.3.9 has no format of its own;
//! they are descriptions here, ISO 8601 one for each form of a date, and Unix time is a number and
//! `from_unix_timestamp_nanos`.

use std::io::{self, BufRead, BufReader, BufWriter, Write};
use time::format_description::well_known::{Rfc2822, Rfc3339};
use time::format_description::FormatItem;
use time::macros::format_description;
use time::{OffsetDateTime, PrimitiveDateTime, UtcOffset};

const BLOCK: usize = 1 << 16;

const UTC_LINE: &[FormatItem<'static>] =
    format_description!("[year]-[month]-[day]T[hour]:[minute]:[second].[subsecond digits:9]Z");
const OFFSET_LINE: &[FormatItem<'static>] = format_description!(
    "[year]-[month]-[day]T[hour]:[minute]:[second].[subsecond digits:9][offset_hour sign:mandatory]:[offset_minute]"
);

const LOG: &[FormatItem<'static>] = format_description!(
    "[day]/[month repr:short]/[year]:[hour]:[minute]:[second] [offset_hour sign:mandatory][offset_minute]"
);

const POSTGRES: &[FormatItem<'static>] =
    format_description!("[year]-[month]-[day] [hour]:[minute]:[second].[subsecond] UTC");
const PYTHON: &[FormatItem<'static>] =
    format_description!("[year]-[month]-[day] [hour]:[minute]:[second],[subsecond]");
const SYSLOG: &[FormatItem<'static>] = format_description!(
    "[year] [month repr:short] [day padding:space] [hour]:[minute]:[second]"
);
const ASCTIME: &[FormatItem<'static>] = format_description!(
    "[weekday repr:short] [month repr:short] [day padding:space] [hour]:[minute]:[second] [year]"
);

const OFFSET_WORD: &[FormatItem<'static>] =
    format_description!("[offset_hour sign:mandatory]:[offset_minute]");

// The parts of ISO 8601, extended and basic.
const FRACTION: FormatItem =
    FormatItem::Optional(&FormatItem::Compound(format_description!(".[subsecond]")));
const OFFSET: FormatItem = FormatItem::Compound(OFFSET_WORD);
const BASIC_OFFSET: FormatItem = FormatItem::Compound(format_description!(
    "[offset_hour sign:mandatory][offset_minute]"
));
const CLOCK: FormatItem = FormatItem::Compound(format_description!("T[hour]:[minute]:[second]"));
const BASIC_CLOCK: FormatItem =
    FormatItem::Compound(format_description!("T[hour][minute][second]"));
const CALENDAR: FormatItem = FormatItem::Compound(format_description!("[year]-[month]-[day]"));
const WEEK: FormatItem = FormatItem::Compound(format_description!(
    "[year base:iso_week]-W[week_number]-[weekday repr:monday]"
));
const ORDINAL: FormatItem = FormatItem::Compound(format_description!("[year]-[ordinal]"));
const BASIC_CALENDAR: FormatItem = FormatItem::Compound(format_description!("[year][month][day]"));
const BASIC_WEEK: FormatItem = FormatItem::Compound(format_description!(
    "[year base:iso_week]W[week_number][weekday repr:monday]"
));
const BASIC_ORDINAL: FormatItem = FormatItem::Compound(format_description!("[year][ordinal]"));

const ISO: [&[FormatItem<'static>]; 6] = [
    &[CALENDAR, CLOCK, FRACTION, OFFSET],
    &[WEEK, CLOCK, FRACTION, OFFSET],
    &[ORDINAL, CLOCK, FRACTION, OFFSET],
    &[BASIC_CALENDAR, BASIC_CLOCK, FRACTION, BASIC_OFFSET],
    &[BASIC_WEEK, BASIC_CLOCK, FRACTION, BASIC_OFFSET],
    &[BASIC_ORDINAL, BASIC_CLOCK, FRACTION, BASIC_OFFSET],
];

// A description has no item that reads `Z`: it is cut off first.
const ISO_BEFORE_Z: [&[FormatItem<'static>]; 6] = [
    &[CALENDAR, CLOCK, FRACTION],
    &[WEEK, CLOCK, FRACTION],
    &[ORDINAL, CLOCK, FRACTION],
    &[BASIC_CALENDAR, BASIC_CLOCK, FRACTION],
    &[BASIC_WEEK, BASIC_CLOCK, FRACTION],
    &[BASIC_ORDINAL, BASIC_CLOCK, FRACTION],
];

enum Source {
    Rfc3339,
    Rfc2822,
    Iso8601,
    Log,
    Local(&'static [FormatItem<'static>]),
    // So many nanoseconds are one of its units.
    Unix(i128),
}

fn local(word: &str) -> Option<&'static [FormatItem<'static>]> {
    match word {
        "postgres" => Some(POSTGRES),
        "python" => Some(PYTHON),
        "syslog" => Some(SYSLOG),
        "asctime" => Some(ASCTIME),
        _ => None,
    }
}

fn source(word: &str) -> Source {
    match word {
        "rfc3339" => Source::Rfc3339,
        "rfc2822" => Source::Rfc2822,
        "iso8601" => Source::Iso8601,
        "%d/%b/%Y:%H:%M:%S %z" => Source::Log,
        "unix" => Source::Unix(1_000_000_000),
        "unix_ms" => Source::Unix(1_000_000),
        _ => Source::Local(local(word).unwrap_or_else(|| panic!("no source: {word}"))),
    }
}

fn parse_iso(text: &str) -> Option<OffsetDateTime> {
    match text.strip_suffix('Z') {
        Some(local) => ISO_BEFORE_Z
            .iter()
            .find_map(|items| PrimitiveDateTime::parse(local, items).ok())
            .map(PrimitiveDateTime::assume_utc),
        None => ISO
            .iter()
            .find_map(|items| OffsetDateTime::parse(text, items).ok()),
    }
}

fn parse(source: &Source, text: &str) -> Option<OffsetDateTime> {
    match source {
        Source::Rfc3339 => OffsetDateTime::parse(text, &Rfc3339).ok(),
        Source::Rfc2822 => OffsetDateTime::parse(text, &Rfc2822).ok(),
        Source::Iso8601 => parse_iso(text),
        Source::Log => OffsetDateTime::parse(text, LOG).ok(),
        Source::Local(items) => PrimitiveDateTime::parse(text, items)
            .ok()
            .map(PrimitiveDateTime::assume_utc),
        Source::Unix(unit) => {
            let count: i128 = text.parse().ok()?;
            OffsetDateTime::from_unix_timestamp_nanos(count * unit).ok()
        }
    }
}

fn parse_line(sources: &[Source], line: &[u8], limit: usize) -> Option<OffsetDateTime> {
    if line.len() > limit {
        return None;
    }
    let text = std::str::from_utf8(line).ok()?;
    sources.iter().find_map(|source| parse(source, text))
}

fn main() -> io::Result<()> {
    let words: Vec<String> = std::env::args().skip(1).collect();
    let target = UtcOffset::parse(&words[0], OFFSET_WORD).expect("an offset");
    let limit: usize = words[2].parse().expect("a limit");
    let sources: Vec<Source> = words[3..].iter().map(|word| source(word)).collect();
    let items = if target.is_utc() {
        UTC_LINE
    } else {
        OFFSET_LINE
    };

    let mut input = BufReader::with_capacity(BLOCK, io::stdin().lock());
    let mut output = BufWriter::with_capacity(BLOCK, io::stdout().lock());
    let mut line = Vec::new();
    while input.read_until(b'\n', &mut line)? != 0 {
        let text = line.strip_suffix(b"\n").unwrap_or(&line);
        let moment = parse_line(&sources, text, limit).map(|moment| moment.to_offset(target));
        match moment.filter(|moment| (0..=9999).contains(&moment.year())) {
            None => output.write_all(b"! invalid\n")?,
            Some(moment) => {
                moment
                    .format_into(&mut output, items)
                    .map_err(|error| io::Error::new(io::ErrorKind::Other, error))?;
                output.write_all(b"\n")?;
            }
        }
        line.clear();
    }
    output.flush()
}
