//! The calls on their happy path, and where they end early.

use std::time::{Duration, SystemTime, UNIX_EPOCH};

use instants::{answer_into, answers, room, version, Fault, LineDate, Lines, LinesAbove, Moment, NoSystemTime, Timeline};

const WORDS: [&str; 4] = ["+00:00", "-", "100", "rfc3339"];
const LINE: &[u8] = b"2021-01-02T04:04:05+01:00\n";
const ANSWER: &[u8] = b"2021-01-02T03:04:05.000000000Z\n";

fn refused(words: &[&str]) -> String {
    match answers(words, LINE) {
        Err(Fault::Refused(sentence)) => sentence,
        other => panic!("{other:?}"),
    }
}

#[test]
fn lines() {
    assert_eq!(answers(&WORDS, LINE).as_deref(), Ok(ANSWER));
    assert_eq!(answers(&WORDS, b"").as_deref(), Ok(b"".as_slice()));
    assert_eq!(answers(&WORDS, b"\0\n").as_deref(), Ok(b"! component year\n".as_slice()));
    assert_eq!(room(LINE), 72);
    assert_eq!(room(&[b'\n'; 1000]), 36_036);
    assert_eq!(version(), 100);
}

#[test]
fn no_room() {
    let mut output = [b'.'; 31];
    assert_eq!(answer_into(&WORDS, LINE, &mut output[..30]), Err(Fault::NoRoom));
    assert_eq!(&output, b"2021-01-02T03:04:05.000000000Z.");
    assert_eq!(answer_into(&WORDS, LINE, &mut []), Err(Fault::NoRoom));
    assert_eq!(answer_into(&WORDS, LINE, &mut output), Ok(31));
}

#[test]
fn wrong_words() {
    assert_eq!(refused(&[]), "instants: usage: instants TARGET ASSUMED LIMIT SOURCE...");
    assert_eq!(refused(&["+25:00", "-", "100", "rfc3339"]), "instants: the target offset must be +HH:MM or -HH:MM");
    assert_eq!(refused(&["+00:00", "-", "100", "rfc3339\0"]), "instants: source 1 is not a known source with its description");
    assert_eq!(refused(&["+00:00", "-", "100", "v1", "[day]\n"]), "instants: word 5 has a line feed");
    let long = format!("[{}]", "x".repeat(1000));
    assert!(refused(&["+00:00", "-", "100", "v1", &long]).contains(&long[1..1001]));
}

#[test]
fn timelines() -> Result<(), Fault> {
    let mut timelines = Vec::new();
    for _ in 0..20 {
        timelines.push(Timeline::new(&WORDS)?);
    }
    let moved = timelines.swap_remove(3);
    drop(timelines);
    assert_eq!(moved.answers(LINE), ANSWER);
    assert_eq!(moved.answers(b""), b"");
    assert_eq!(moved.answers(b"\n\0"), b"! component year\n! component year\n");
    let mut output = b"before ".to_vec();
    moved.append_to(LINE, &mut output);
    assert_eq!(output, [b"before ", ANSWER].concat());
    assert_eq!(format!("{moved:?}"), r#"Timeline { words: "+00:00\n-\n100\nrfc3339", .. }"#);
    Ok(())
}

#[test]
fn timelines_without_room() -> Result<(), Fault> {
    let (timeline, mut output) = (Timeline::new(&WORDS)?, [b'.'; 31]);
    assert_eq!(timeline.answer_into(LINE, &mut output[..30]), Err(Fault::NoRoom));
    assert_eq!(&output, b"2021-01-02T03:04:05.000000000Z.");
    assert_eq!(timeline.answer_into(LINE, &mut []), Err(Fault::NoRoom));
    assert_eq!(timeline.answer_into(LINE, &mut output), Ok(31));
    assert_eq!(timeline.answer_into(b"", &mut []), Ok(0));
    Ok(())
}

#[test]
fn moments_and_faults() -> Result<(), Fault> {
    let timeline = Timeline::new(&["+01:00", "-", "30", "rfc3339"])?;
    assert_eq!(timeline.moments(b""), []);
    let moments = timeline.moments(b"1969-12-31T23:59:58.25Z\n\n2021-02-30T00:00:00Z\n9999-12-31T23:59:59Z\n9999999999999999999999999999999");
    assert_eq!(moments[0], Ok(Moment { seconds: -2, nanoseconds: 250_000_000 }));
    let faults: Vec<_> = moments[1..].iter().filter_map(|it| it.err().map(|it| (it.number(), it.to_string()))).collect();
    let due = [(201, "component year"), (503, "range day"), (600, "year"), (700, "long")];
    assert_eq!(faults, due.map(|(number, text)| (number, text.to_string())));
    Ok(())
}

#[test]
fn timelines_of_wrong_words() {
    for words in [&[][..], &["+25:00", "-", "100", "rfc3339"], &["+00:00", "-", "100", "v1", "[x]"], &["+00:00\n", "-"]] {
        assert_eq!(Timeline::new(words).unwrap_err(), answers(words, LINE).unwrap_err());
    }
}

#[test]
fn threads_share_a_timeline() -> Result<(), Fault> {
    let timeline = Timeline::new(&["+00:00", "-", "100", "v3", "[unix_timestamp]", "rfc3339"])?;
    std::thread::scope(|scope| {
        for _ in 0..4 {
            scope.spawn(|| {
                for _ in 0..1000 {
                    assert_eq!(timeline.answers(LINE), ANSWER);
                    assert_eq!(timeline.answers(b"1609556645"), ANSWER);
                }
            });
        }
    });
    let other = std::thread::spawn(move || timeline.answers(LINE));
    assert_eq!(other.join().ok().as_deref(), Some(ANSWER));
    Ok(())
}

#[test]
fn words_of_each_kind() -> Result<(), Fault> {
    let owned: Vec<String> = WORDS.iter().map(|it| it.to_string()).collect();
    assert_eq!(answers(&owned, LINE)?, ANSWER);
    assert_eq!(Timeline::new(&owned)?.answers(LINE), ANSWER);
    let boxed: [Box<str>; 4] = WORDS.map(Into::into);
    assert_eq!(answers(&boxed, LINE)?, ANSWER);
    let mut output = [0; 31];
    assert_eq!(answer_into(&owned, LINE, &mut output), Ok(31));
    Ok(())
}

#[test]
fn words_may_go_before_a_timeline() -> Result<(), Fault> {
    let mut words: Vec<String> = ["+00:00", "-", "100", "strftime", "at %F %T %z"].map(String::from).to_vec();
    let timeline = Timeline::new(&words)?;
    for word in &mut words {
        *word = "x".repeat(word.len());
    }
    drop(words);
    let others: Vec<Vec<u8>> = (0..100).map(|len| vec![b'x'; len]).collect();
    assert_eq!(timeline.answers(b"at 2021-01-02 04:04:05 +0100\nxx 2021-01-02 04:04:05 +0100\n"), [ANSWER, b"! literal\n"].concat());
    assert_eq!(others.len(), 100);
    Ok(())
}

#[test]
fn moments_are_times_of_the_system() -> Result<(), NoSystemTime> {
    let rows = [
        (UNIX_EPOCH, 0, 0),
        (UNIX_EPOCH + Duration::new(5, 1), 5, 1),
        (UNIX_EPOCH - Duration::new(5, 0), -5, 0),
        (UNIX_EPOCH - Duration::new(5, 1), -6, 999_999_999),
        (UNIX_EPOCH - Duration::new(0, 999_999_999), -1, 1),
        // The first and the last moment of a line.
        (UNIX_EPOCH - Duration::from_secs(62_167_219_200), -62_167_219_200, 0),
        (UNIX_EPOCH + Duration::new(253_402_300_799, 999_999_999), 253_402_300_799, 999_999_999),
    ];
    for (time, seconds, nanoseconds) in rows {
        let moment = Moment { seconds, nanoseconds };
        assert_eq!(Moment::from(time), moment);
        assert_eq!(SystemTime::try_from(moment)?, time);
    }
    for (seconds, nanoseconds) in [(0, 1_000_000_000), (-1, u32::MAX), (i64::MAX, 1_000_000_000)] {
        assert_eq!(SystemTime::try_from(Moment { seconds, nanoseconds }), Err(NoSystemTime));
    }
    for seconds in [i64::MIN + 1, i64::MAX] {
        let moment = Moment { seconds, nanoseconds: 999_999_999 };
        assert_eq!(SystemTime::try_from(moment).map(Moment::from), Ok(moment));
    }
    Ok(())
}

#[test]
fn dates_inside_lines() {
    let lines = Lines::new(&["carry", "label", &"x".repeat(300), "rfc3339"], b"").unwrap();
    let key = "2021-01-02T03:04:05.000000000Z";
    let keyed = String::from_utf8(lines.keyed(b"at 2021-01-02T04:04:05+01:00\n  x")).unwrap();
    let label = "x".repeat(300);
    assert_eq!(keyed, format!("{key}\t{label}\tat 2021-01-02T04:04:05+01:00\n{key}\t{label}\t  x\n"));
    let dates = lines.dates(b"at 2021-01-02T04:04:05+01:00\n2021-01-02T03:04:05Zulu");
    assert_eq!(dates[0].unwrap(), LineDate { moment: Moment { seconds: 1_609_556_645, nanoseconds: 0 }, start: 3, end: 28 });
    let doubt = dates[1].unwrap_err();
    assert_eq!((doubt.to_string().as_str(), doubt.start, doubt.end), ("goes on", 0, 20));
    assert!(lines.keyed(b"").is_empty() && lines.dates(b"").is_empty());
}

#[test]
fn blocks_of_lines() {
    let lines = Lines::new(&["carry", "rfc3339"], b"").unwrap();
    let mut above = LinesAbove::default();
    let text = b"2021-01-02T03:04:05Z a\n  2021-01-02T03:04:06Z b\nc\n";
    let blocks: Vec<u8> = text.split_inclusive(|byte| *byte == b'\n').flat_map(|block| lines.keyed_below(&mut above, block)).collect();
    assert_eq!(blocks, lines.keyed(text));
}

#[test]
fn words_of_lines() {
    let refused = |words: &[&str], zone: &[u8]| Lines::new(words, zone).err().unwrap().to_string();
    assert_eq!(refused(&["key", "rfc3339"], b"x"), "instants-lines: the zone is cut off");
    assert!(refused(&["key", "rfc"], b"").contains("\"rfc\""));
    assert!(refused(&["key\n", "rfc3339"], b"").contains("line feed"));
}
