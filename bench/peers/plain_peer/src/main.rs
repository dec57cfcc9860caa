//! `plain_peer TARGET - LIMIT SOURCE..`: plain safe Rust by hand, with no crate, as straightforward code for these
//! lines looks. Each line is read by the first source that takes it, by slices, and written at the target offset with
//! nine digits of a fraction. A line that no source takes is answered by `! invalid`.
//!
//! A source is `rfc3339`, `rfc2822` or `%d/%b/%Y:%H:%M:%S %z`.

use std::io::{self, BufRead, BufReader, BufWriter, Write};

const BLOCK: usize = 1 << 16;

/// What a line says: a wall clock and an offset.
#[derive(Clone, Copy)]
struct Moment {
    year: u16,
    month: u8,
    day: u8,
    hour: u8,
    minute: u8,
    second: u8,
    nanosecond: u32,
    offset_minutes: i16,
}

#[derive(Clone, Copy)]
enum Source {
    Rfc3339,
    Rfc2822,
    Log,
}

// Digits and names

fn digit(byte: u8) -> Option<u8> {
    let value = byte.wrapping_sub(b'0');
    (value < 10).then_some(value)
}

fn two(text: &[u8], at: usize) -> Option<u8> {
    let tens = digit(*text.get(at)?)?;
    let ones = digit(*text.get(at + 1)?)?;
    Some(tens * 10 + ones)
}

fn four(text: &[u8], at: usize) -> Option<u16> {
    Some(u16::from(two(text, at)?) * 100 + u16::from(two(text, at + 2)?))
}

fn sign(byte: u8) -> Option<i16> {
    match byte {
        b'+' => Some(1),
        b'-' => Some(-1),
        _ => None,
    }
}

fn month(name: &[u8]) -> Option<u8> {
    Some(match name {
        b"Jan" => 1,
        b"Feb" => 2,
        b"Mar" => 3,
        b"Apr" => 4,
        b"May" => 5,
        b"Jun" => 6,
        b"Jul" => 7,
        b"Aug" => 8,
        b"Sep" => 9,
        b"Oct" => 10,
        b"Nov" => 11,
        b"Dec" => 12,
        _ => return None,
    })
}

fn is_weekday(name: &[u8]) -> bool {
    matches!(
        name,
        b"Mon" | b"Tue" | b"Wed" | b"Thu" | b"Fri" | b"Sat" | b"Sun"
    )
}

// The calendar

fn is_leap(year: u16) -> bool {
    year % 4 == 0 && (year % 100 != 0 || year % 400 == 0)
}

fn days_in(year: u16, month: u8) -> u8 {
    match month {
        2 => 28 + u8::from(is_leap(year)),
        4 | 6 | 9 | 11 => 30,
        _ => 31,
    }
}

/// The days from 0000-03-01 to a date.
fn days_to(year: u16, month: u8, day: u8) -> i64 {
    let year = i64::from(year) - i64::from(month <= 2);
    let era = year.div_euclid(400);
    let year_of_era = year.rem_euclid(400);
    let from_march = (i64::from(month) + 9) % 12;
    let day_of_year = (153 * from_march + 2) / 5 + i64::from(day) - 1;
    era * 146_097 + year_of_era * 365 + year_of_era / 4 - year_of_era / 100 + day_of_year
}

/// The year, month and day so many days after 0000-03-01.
fn date_after(days: i64) -> (i64, u8, u8) {
    let era = days.div_euclid(146_097);
    let day_of_era = days.rem_euclid(146_097);
    let year = (day_of_era - day_of_era / 1460 + day_of_era / 36_524 - day_of_era / 146_096) / 365;
    let day_of_year = day_of_era - (365 * year + year / 4 - year / 100);
    let from_march = (5 * day_of_year + 2) / 153;
    let day = day_of_year - (153 * from_march + 2) / 5 + 1;
    let month = if from_march < 10 {
        from_march + 3
    } else {
        from_march - 9
    };
    (
        era * 400 + year + i64::from(month <= 2),
        month as u8,
        day as u8,
    )
}

/// The moment, where its numbers are in range.
fn checked(moment: Moment) -> Option<Moment> {
    let good = (1..=12).contains(&moment.month)
        && moment.day >= 1
        && moment.day <= days_in(moment.year, moment.month)
        && moment.hour < 24
        && moment.minute < 60
        && moment.second < 60;
    good.then_some(moment)
}

// The sources

/// The minutes of an offset, its hours and minutes in range.
fn offset(signed: u8, hours: u8, minutes: u8) -> Option<i16> {
    if hours > 23 || minutes > 59 {
        return None;
    }
    Some(sign(signed)? * (i16::from(hours) * 60 + i16::from(minutes)))
}

/// The nanoseconds of a fraction whose digits begin here, and the place behind them.
fn fraction(text: &[u8], start: usize) -> Option<(u32, usize)> {
    let (mut at, mut nanosecond, mut scale) = (start, 0, 100_000_000);
    while at < text.len() {
        let value = match digit(text[at]) {
            Some(value) => value,
            None => break,
        };
        nanosecond += u32::from(value) * scale;
        scale /= 10;
        at += 1;
    }
    (at > start).then_some((nanosecond, at))
}

fn rfc3339(text: &[u8]) -> Option<Moment> {
    if text.len() < 20
        || (text[4], text[7], text[10] | 32, text[13], text[16]) != (b'-', b'-', b't', b':', b':')
    {
        return None;
    }
    let (nanosecond, at) = if text[19] == b'.' {
        fraction(text, 20)?
    } else {
        (0, 19)
    };
    let offset_minutes = match &text[at..] {
        [b'Z' | b'z'] => 0,
        [signed, _, _, b':', _, _] => offset(*signed, two(text, at + 1)?, two(text, at + 4)?)?,
        _ => return None,
    };
    checked(Moment {
        year: four(text, 0)?,
        month: two(text, 5)?,
        day: two(text, 8)?,
        hour: two(text, 11)?,
        minute: two(text, 14)?,
        second: two(text, 17)?,
        nanosecond,
        offset_minutes,
    })
}

/// The moment of a date and of `HH:MM:SS +HHMM`, which is all of the text.
fn clock_and_offset(text: &[u8], year: u16, month: u8, day: u8) -> Option<Moment> {
    if text.len() != 14 || (text[2], text[5], text[8]) != (b':', b':', b' ') {
        return None;
    }
    checked(Moment {
        year,
        month,
        day,
        hour: two(text, 0)?,
        minute: two(text, 3)?,
        second: two(text, 6)?,
        nanosecond: 0,
        offset_minutes: offset(text[9], two(text, 10)?, two(text, 12)?)?,
    })
}

fn rfc2822(text: &[u8]) -> Option<Moment> {
    if text.len() < 30 || (text[3], text[4]) != (b',', b' ') || !is_weekday(&text[..3]) {
        return None;
    }
    let tens = digit(text[5])?;
    let (day, rest) = match digit(text[6]) {
        Some(ones) => (tens * 10 + ones, &text[7..]),
        None => (tens, &text[6..]),
    };
    if rest.len() < 10 || (rest[0], rest[4], rest[9]) != (b' ', b' ', b' ') {
        return None;
    }
    clock_and_offset(&rest[10..], four(rest, 5)?, month(&rest[1..4])?, day)
}

fn log(text: &[u8]) -> Option<Moment> {
    if text.len() != 26 || (text[2], text[6], text[11]) != (b'/', b'/', b':') {
        return None;
    }
    clock_and_offset(
        &text[12..],
        four(text, 7)?,
        month(&text[3..6])?,
        two(text, 0)?,
    )
}

fn parse_line(sources: &[Source], text: &[u8]) -> Option<Moment> {
    sources.iter().find_map(|source| match source {
        Source::Rfc3339 => rfc3339(text),
        Source::Rfc2822 => rfc2822(text),
        Source::Log => log(text),
    })
}

// The program

fn put(out: &mut [u8], mut number: u32) {
    for byte in out.iter_mut().rev() {
        *byte = b'0' + (number % 10) as u8;
        number /= 10;
    }
}

/// Puts the digits of a moment at the target into their places, where its year has four digits there.
fn show(moment: Moment, target: i16, text: &mut [u8; 29]) -> Option<()> {
    let minutes = days_to(moment.year, moment.month, moment.day) * 1440
        + i64::from(moment.hour) * 60
        + i64::from(moment.minute)
        - i64::from(moment.offset_minutes)
        + i64::from(target);
    let (year, month, day) = date_after(minutes.div_euclid(1440));
    if !(0..=9999).contains(&year) {
        return None;
    }
    let of_day = minutes.rem_euclid(1440) as u32;
    put(&mut text[0..4], year as u32);
    put(&mut text[5..7], month.into());
    put(&mut text[8..10], day.into());
    put(&mut text[11..13], of_day / 60);
    put(&mut text[14..16], of_day % 60);
    put(&mut text[17..19], moment.second.into());
    put(&mut text[20..29], moment.nanosecond);
    Some(())
}

fn source(word: &str) -> Source {
    match word {
        "rfc3339" => Source::Rfc3339,
        "rfc2822" => Source::Rfc2822,
        "%d/%b/%Y:%H:%M:%S %z" => Source::Log,
        _ => panic!("no source: {word}"),
    }
}

/// The minutes of a word `+HH:MM` or `-HH:MM`.
fn target_minutes(word: &[u8]) -> Option<i16> {
    offset(*word.first()?, two(word, 1)?, two(word, 4)?)
}

fn main() -> io::Result<()> {
    let words: Vec<String> = std::env::args().skip(1).collect();
    let target = target_minutes(words[0].as_bytes()).expect("an offset");
    let limit: usize = words[2].parse().expect("a limit");
    let sources: Vec<Source> = words[3..].iter().map(|word| source(word)).collect();
    let end = if target == 0 {
        "Z\n".to_string()
    } else {
        words[0].clone() + "\n"
    };

    let mut input = BufReader::with_capacity(BLOCK, io::stdin().lock());
    let mut output = BufWriter::with_capacity(BLOCK, io::stdout().lock());
    let mut line = Vec::new();
    let mut text = *b"0000-00-00T00:00:00.000000000";
    while input.read_until(b'\n', &mut line)? != 0 {
        let bytes = line.strip_suffix(b"\n").unwrap_or(&line);
        let moment = if bytes.len() > limit {
            None
        } else {
            parse_line(&sources, bytes)
        };
        match moment.and_then(|moment| show(moment, target, &mut text)) {
            None => output.write_all(b"! invalid\n")?,
            Some(()) => {
                output.write_all(&text)?;
                output.write_all(end.as_bytes())?;
            }
        }
        line.clear();
    }
    output.flush()
}
