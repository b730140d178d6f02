//! `ftd plain` in plain Rust with the csv crate, for comparison: plain_native plain ACCOUNT YEAR [HOLIDAY ..]

use std::collections::{BTreeMap, BTreeSet};
use std::io::{self, Read, Write};
use std::process::exit;

const LIMIT: usize = 16_777_216;
const HEADER: [&[u8]; 6] = [b"employer", b"run", b"payday", b"fit", b"ss", b"medicare"];
const NEXT_DAY: u64 = 10_000_000;

/// The days after 1970-01-01.
type Day = i64;
/// The payday of a run, and its three amounts in cents.
type Run = (Day, [u64; 3]);

fn refuse(text: String) -> ! {
    eprintln!("{text}");
    exit(1)
}

/// The number of the civil date.
fn number(year: i64, month: i64, day: i64) -> Day {
    let year = if month <= 2 { year - 1 } else { year };
    let era = year.div_euclid(400);
    let of_era = year - era * 400;
    let of_year = (153 * (month + if month > 2 { -3 } else { 9 }) + 2) / 5 + day - 1;
    era * 146_097 + of_era * 365 + of_era / 4 - of_era / 100 + of_year - 719_468
}

/// Year, month and day of the month.
fn date(day: Day) -> (i64, i64, i64) {
    let shifted = day + 719_468;
    let era = shifted.div_euclid(146_097);
    let of_era = shifted - era * 146_097;
    let years = (of_era - of_era / 1_460 + of_era / 36_524 - of_era / 146_096) / 365;
    let of_year = of_era - (365 * years + years / 4 - years / 100);
    let place = (5 * of_year + 2) / 153;
    let month = if place < 10 { place + 3 } else { place - 9 };
    let year = years + era * 400 + i64::from(month <= 2);
    (year, month, of_year - (153 * place + 2) / 5 + 1)
}

fn month_end(year: i64, month: i64) -> Day {
    if month == 12 { number(year + 1, 1, 1) - 1 } else { number(year, month + 1, 1) - 1 }
}

fn digits(text: &[u8]) -> Option<u64> {
    if text.is_empty() || text.len() > 9 {
        return None;
    }
    let mut value = 0;
    for byte in text {
        if !byte.is_ascii_digit() {
            return None;
        }
        value = value * 10 + u64::from(byte - b'0');
    }
    Some(value)
}

fn day_of(text: &[u8]) -> Option<Day> {
    if text.len() != 10 || text[4] != b'-' || text[7] != b'-' {
        return None;
    }
    let (year, month, day) = (digits(&text[..4])?, digits(&text[5..7])?, digits(&text[8..])?);
    let found = number(year as i64, month as i64, day as i64);
    let is_date = date(found) == (year as i64, month as i64, day as i64);
    (is_date && (1900..=2199).contains(&year)).then_some(found)
}

fn cents_of(text: &[u8]) -> Option<u64> {
    let Some(point) = text.iter().position(|byte| *byte == b'.') else {
        return Some(100 * digits(text)?);
    };
    let fraction = &text[point + 1..];
    let part = match fraction.len() {
        1 => 10 * digits(fraction)?,
        2 => digits(fraction)?,
        _ => return None,
    };
    Some(100 * digits(&text[..point])? + part)
}

fn is_name(text: &[u8]) -> bool {
    let inner = |byte: &u8| byte.is_ascii_lowercase() || byte.is_ascii_digit() || *byte == b'-';
    text.len() <= 20 && text.first().is_some_and(u8::is_ascii_lowercase) && text.iter().all(inner)
}

/// The number and the run of the record, or the least of its fields that is bad.
fn run_of(record: &csv::ByteRecord) -> Result<(u32, Run), u32> {
    if record.len() != 6 {
        return Err(0);
    }
    if !is_name(&record[0]) {
        return Err(1);
    }
    let number = digits(&record[1]).filter(|it| *it > 0).ok_or(2u32)?;
    let payday = day_of(&record[2]).ok_or(3u32)?;
    let mut cents = [0; 3];
    for (place, amount) in cents.iter_mut().enumerate() {
        *amount = cents_of(&record[3 + place]).ok_or(4 + place as u32)?;
    }
    Ok((number as u32, (payday, cents)))
}

fn runs_of(text: &[u8], account: &[u8], year: i64) -> BTreeMap<u32, Run> {
    let text = text.strip_prefix(b"\xef\xbb\xbf").unwrap_or(text);
    let mut reader = csv::ReaderBuilder::new().has_headers(false).flexible(true).from_reader(text);
    let mut record = csv::ByteRecord::new();
    let mut read = |record: &mut csv::ByteRecord| reader.read_byte_record(record).unwrap_or(false);
    if !read(&mut record) || !record.iter().eq(HEADER) {
        refuse("refused header".into());
    }
    let mut runs = BTreeMap::new();
    let mut place = 1;
    while read(&mut record) {
        place += 1;
        let (number, run) = match run_of(&record) {
            Ok(found) => found,
            Err(field) => refuse(format!("record {place} malformed field {field}")),
        };
        if &record[0] != account || date(run.0).0 != year {
            continue;
        }
        if *runs.entry(number).or_insert(run) != run {
            refuse(format!("run {number} differs"));
        }
        if runs.len() > 20_000 {
            refuse("refused 19 TooManyRuns".into());
        }
    }
    runs
}

/// The nth business day after the day.
fn nth_after(mut day: Day, count: u32, holidays: &BTreeSet<Day>) -> Day {
    for _ in 0..count {
        day = on_or_after(day + 1, holidays);
    }
    day
}

fn on_or_after(mut day: Day, holidays: &BTreeSet<Day>) -> Day {
    // 1970-01-01 was a Thursday.
    while (day + 3).rem_euclid(7) >= 5 || holidays.contains(&day) {
        day += 1;
    }
    day
}

/// The Friday or Tuesday that ends the interval of the day.
fn close(day: Day) -> Day {
    match (day + 3).rem_euclid(7) {
        weekday @ 2..=4 => day + 4 - weekday,
        weekday => day + (8 - weekday).rem_euclid(7),
    }
}

fn print(out: &mut impl Write, day: Day, end: &str) -> io::Result<()> {
    let (year, month, of_month) = date(day);
    write!(out, "{year:04}-{month:02}-{of_month:02}{end}")
}

fn row(out: &mut impl Write, begin: Day, last: Day, rule: &str, total: u64, due: Day) -> io::Result<()> {
    print(out, begin, " ")?;
    print(out, last, " ")?;
    write!(out, "{rule} {}.{:02} ", total / 100, total % 100)?;
    print(out, due, "\n")
}

fn deposits(out: &mut impl Write, runs: &BTreeMap<u32, Run>, year: i64, holidays: &BTreeSet<Day>) -> io::Result<()> {
    let mut sums = BTreeMap::new();
    for (payday, cents) in runs.values() {
        *sums.entry(*payday).or_insert(0) += cents.iter().sum::<u64>();
    }
    let (mut first, mut semiweekly) = (number(year, 1, 1), false);
    while date(first).0 == year {
        let month = date(first).1;
        let quarter_end = month_end(year, (month + 2) / 3 * 3);
        let mut last = if semiweekly { close(first).min(quarter_end) } else { month_end(year, month) };
        let (mut total, mut begin, mut day) = (0, first, first);
        while day <= last {
            total += sums.get(&day).copied().unwrap_or(0);
            if total >= NEXT_DAY {
                row(out, begin, day, "next-day", total, nth_after(day, 1, holidays))?;
                (total, begin) = (0, day + 1);
                if !semiweekly {
                    (semiweekly, last) = (true, day);
                }
            }
            day += 1;
        }
        if total > 0 && semiweekly {
            row(out, begin, last, "semiweekly", total, nth_after(close(last), 3, holidays))?;
        } else if total > 0 {
            row(out, begin, last, "monthly", total, on_or_after(last + 15, holidays))?;
        }
        first = last + 1;
    }
    Ok(())
}

fn main() -> io::Result<()> {
    let words: Vec<String> = std::env::args().collect();
    let year = words[3].parse().expect("a year");
    let holidays = words[4..].iter().map(|it| day_of(it.as_bytes()).expect("a day")).collect();
    let mut text = Vec::new();
    io::stdin().take(LIMIT as u64 + 1).read_to_end(&mut text)?;
    if text.len() > LIMIT {
        refuse("refused length".into());
    }
    let runs = runs_of(&text, words[2].as_bytes(), year);
    let mut out = io::BufWriter::new(io::stdout());
    deposits(&mut out, &runs, year, &holidays)?;
    out.flush()
}
