//! `calls time FILE`: answers a file of lines of RFC 3339 again and again by the crate `time`, line by line: `parse`,
//! `to_offset`, `format_into`. `calls LINES FILE`: by a `Timeline`, so many lines a call; `calls LINES FILE moments`: their moments
//! as numbers. Prints the nanoseconds that a line takes, the least of the rounds.

use instants::Timeline;
use std::time::Instant;
use time::format_description::well_known::Rfc3339;
use time::format_description::FormatItem;
use time::macros::format_description;
use time::{OffsetDateTime, UtcOffset};

const ROUNDS: u32 = 200;

const LINE: &[FormatItem<'static>] =
    format_description!("[year]-[month]-[day]T[hour]:[minute]:[second].[subsecond digits:9]Z");

fn answer(line: &str, output: &mut Vec<u8>) {
    match OffsetDateTime::parse(line, &Rfc3339) {
        Ok(moment) => {
            let written = moment.to_offset(UtcOffset::UTC).format_into(output, LINE);
            written.expect("memory takes all that is written");
            output.push(b'\n');
        }
        Err(_) => output.extend_from_slice(b"! invalid\n"),
    }
}

/// The lines of a text in pieces of so many, each with its line feeds.
fn pieces(text: &str, count: usize) -> Vec<String> {
    let lines: Vec<&str> = text.split_inclusive('\n').collect();
    lines.chunks(count).map(<[&str]>::concat).collect()
}

/// The nanoseconds of the quickest round, each of which answers all pieces into the output.
fn least(pieces: &[String], answer: impl Fn(&str, &mut Vec<u8>)) -> f64 {
    let (mut output, mut least) = (Vec::new(), f64::INFINITY);
    for _ in 0..ROUNDS {
        output.clear();
        let began = Instant::now();
        pieces.iter().for_each(|piece| answer(piece, &mut output));
        least = least.min(began.elapsed().as_nanos() as f64);
    }
    least
}

fn main() {
    let words: Vec<String> = std::env::args().skip(1).collect();
    let [how, file, wanted @ ..] = &words[..] else { panic!("calls time FILE, or calls LINES FILE, or calls LINES FILE moments") };
    let text = std::fs::read_to_string(file).expect("lines");
    let taken = match how.parse() {
        Ok(count) => {
            let timeline = Timeline::new(&["+00:00", "-", "100", "rfc3339"]).expect("these are words");
            if wanted.is_empty() {
                least(&pieces(&text, count), |piece, output| timeline.append_to(piece.as_bytes(), output))
            } else {
                least(&pieces(&text, count), |piece, _| drop(std::hint::black_box(timeline.moments(piece.as_bytes()))))
            }
        }
        Err(_) => least(&pieces(&text, 1), |line, output| answer(line.trim_end(), output)),
    };
    println!("{:.1}", taken / text.lines().count() as f64);
}
