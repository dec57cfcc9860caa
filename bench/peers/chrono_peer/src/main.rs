//! `chrono_peer TARGET - LIMIT SOURCE..`, by the crate `chrono`: each line is read by the first source that takes it,
//! and written at the target offset with nine digits of a fraction. A line that no source takes is answered by
//! `! invalid`.
//!
//! A source is `rfc3339`, `rfc2822`, `iso8601` or a description in strftime; for ISO 8601 there is one for each form
//! of a date.

use chrono::format::{Item, Parsed, StrftimeItems};
use chrono::{DateTime, Datelike, FixedOffset};
use std::io::{self, BufRead, BufReader, BufWriter, Write};

const BLOCK: usize = 1 << 16;

const ISO: [&str; 6] = [
    "%Y-%m-%dT%H:%M:%S%.f%#z",
    "%G-W%V-%uT%H:%M:%S%.f%#z",
    "%Y-%jT%H:%M:%S%.f%#z",
    // The basic ordinal date first, since %m and %d take one digit too.
    "%Y%jT%H%M%S%.f%#z",
    "%Y%m%dT%H%M%S%.f%#z",
    "%GW%V%uT%H%M%S%.f%#z",
];

enum Source<'a> {
    Rfc3339,
    Rfc2822,
    Items(Vec<Item<'a>>),
}

fn items(description: &str) -> Source<'_> {
    Source::Items(StrftimeItems::new(description).collect())
}

fn sources(words: &[String]) -> Vec<Source<'_>> {
    let mut sources = Vec::new();
    for word in words {
        match word.as_str() {
            "rfc3339" => sources.push(Source::Rfc3339),
            "rfc2822" => sources.push(Source::Rfc2822),
            "iso8601" => sources.extend(ISO.iter().map(|description| items(description))),
            description => sources.push(items(description)),
        }
    }
    sources
}

fn parse_by_items(text: &str, items: &[Item]) -> Option<DateTime<FixedOffset>> {
    let mut parsed = Parsed::new();
    chrono::format::parse(&mut parsed, text, items.iter()).ok()?;
    parsed.to_datetime().ok()
}

fn parse(source: &Source, text: &str) -> Option<DateTime<FixedOffset>> {
    match source {
        Source::Rfc3339 => DateTime::parse_from_rfc3339(text).ok(),
        Source::Rfc2822 => DateTime::parse_from_rfc2822(text).ok(),
        Source::Items(items) => parse_by_items(text, items),
    }
}

fn parse_line(sources: &[Source], line: &[u8], limit: usize) -> Option<DateTime<FixedOffset>> {
    if line.len() > limit {
        return None;
    }
    let text = std::str::from_utf8(line).ok()?;
    sources.iter().find_map(|source| parse(source, text))
}

/// The offset of a word `+HH:MM` or `-HH:MM`.
fn offset(word: &str) -> FixedOffset {
    let number = |from: usize, to: usize| word[from..to].parse::<i32>().expect("an offset");
    let east = number(1, 3) * 3600 + number(4, 6) * 60;
    FixedOffset::east_opt(if word.starts_with('-') { -east } else { east }).expect("an offset")
}

fn main() -> io::Result<()> {
    let words: Vec<String> = std::env::args().skip(1).collect();
    let target = offset(&words[0]);
    let limit: usize = words[2].parse().expect("a limit");
    let sources = sources(&words[3..]);
    let form = if target.local_minus_utc() == 0 {
        "%Y-%m-%dT%H:%M:%S.%9fZ"
    } else {
        "%Y-%m-%dT%H:%M:%S.%9f%:z"
    };
    let items: Vec<Item> = StrftimeItems::new(form).collect();

    let mut input = BufReader::with_capacity(BLOCK, io::stdin().lock());
    let mut output = BufWriter::with_capacity(BLOCK, io::stdout().lock());
    let mut line = Vec::new();
    while input.read_until(b'\n', &mut line)? != 0 {
        let text = line.strip_suffix(b"\n").unwrap_or(&line);
        let moment = parse_line(&sources, text, limit).map(|moment| moment.with_timezone(&target));
        match moment.filter(|moment| (0..=9999).contains(&moment.year())) {
            None => output.write_all(b"! invalid\n")?,
            Some(moment) => writeln!(output, "{}", moment.format_with_items(items.iter()))?,
        }
        line.clear();
    }
    output.flush()
}
