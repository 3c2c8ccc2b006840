//! A plain program with the same task as `./conform`, written from docs/ alone.
//!
//! It reads record text from standard input and writes one line for each item
//! and each refusal, and then one line for each class. docs/program.md says
//! every byte of the output.

use std::collections::HashSet;
use std::io::{self, Read, Write};

const MAX_TEXT: usize = 65_536;
const MAX_FIELDS: usize = 9;
const MAX_REQUIREMENTS: usize = 100;
const MAX_ITEMS: usize = 1_000;
const CLASSES: usize = 9;
const CHARACTERISTICS: usize = 20;

const MILLION: i64 = 1_000_000;
/// The greatest offset that a state of knowledge is asked about.
const REACH: i64 = 2_000_000;

/// A refusal by its published number, and the field to blame, or 0.
struct Fault {
    number: u64,
    field: u64,
}

fn fault<T>(number: u64, field: usize) -> Result<T, Fault> {
    Err(Fault {
        number,
        field: field as u64,
    })
}

// ---- Text ----

/// The content of a record's first fields, without quotes around them. A doubled
/// quote stays doubled: no number, word or known letter has one.
struct Record<'a> {
    fields: [&'a [u8]; MAX_FIELDS],
    count: usize,
}

struct Reader<'a> {
    text: &'a [u8],
    at: usize,
}

impl<'a> Reader<'a> {
    fn next_record(&mut self) -> Option<Result<Record<'a>, Fault>> {
        if self.at == self.text.len() {
            return None;
        }
        Some(self.record())
    }

    fn record(&mut self) -> Result<Record<'a>, Fault> {
        let mut record = Record {
            fields: [&[]; MAX_FIELDS],
            count: 0,
        };
        loop {
            let number = record.count + 1;
            let (content, refusal) = if self.text.get(self.at) == Some(&b'"') {
                (self.quoted(number)?, 2)
            } else {
                (self.bare(), 3)
            };
            if record.count < MAX_FIELDS {
                record.fields[record.count] = content;
            }
            record.count = number;
            match &self.text[self.at..] {
                [] => return Ok(record),
                [b',', ..] => self.at += 1,
                [b'\r', b'\n', ..] => {
                    self.at += 2;
                    return Ok(record);
                }
                _ => return fault(refusal, number),
            }
        }
    }

    /// The bytes up to the first one that no bare field holds.
    fn bare(&mut self) -> &'a [u8] {
        let rest = &self.text[self.at..];
        let length = rest
            .iter()
            .position(|byte| matches!(byte, b',' | b'"' | b'\r' | b'\n'))
            .unwrap_or(rest.len());
        self.at += length;
        &rest[..length]
    }

    /// The bytes between the quote here and the one that closes it.
    fn quoted(&mut self, number: usize) -> Result<&'a [u8], Fault> {
        let start = self.at + 1;
        let mut from = start;
        loop {
            let Some(length) = self.text[from..].iter().position(|&byte| byte == b'"') else {
                return fault(2, number);
            };
            let end = from + length;
            if self.text.get(end + 1) != Some(&b'"') {
                self.at = end + 1;
                return Ok(&self.text[start..end]);
            }
            from = end + 2;
        }
    }
}

// ---- Fields ----

fn number(content: &[u8]) -> Option<i64> {
    let (negative, digits) = match content {
        [b'-', digits @ ..] => (true, digits),
        digits => (false, digits),
    };
    if digits.is_empty() || digits.len() > 10 {
        return None;
    }
    let mut value = 0;
    for &byte in digits {
        if !byte.is_ascii_digit() {
            return None;
        }
        value = value * 10 + i64::from(byte - b'0');
    }
    Some(if negative { -value } else { value })
}

impl Record<'_> {
    /// The number of a field, counted from 1, within a range.
    fn number(&self, field: usize, least: i64, greatest: i64) -> Result<i64, Fault> {
        match number(self.fields[field - 1]) {
            None => fault(11, field),
            Some(value) if value < least || value > greatest => fault(12, field),
            Some(value) => Ok(value),
        }
    }

    fn limit(&self, field: usize) -> Result<Option<i64>, Fault> {
        if self.fields[field - 1].is_empty() {
            return Ok(None);
        }
        self.number(field, -MILLION, MILLION).map(Some)
    }
}

// ---- States of knowledge ----

/// The standard normal distribution function at each tenth, in hundred-thousandths.
const NORMAL: [i64; 41] = [
    50000, 53983, 57926, 61791, 65542, 69146, 72575, 75804, 78814, 81594, //
    84134, 86433, 88493, 90320, 91924, 93319, 94520, 95543, 96407, 97128, //
    97725, 98214, 98610, 98928, 99180, 99379, 99534, 99653, 99744, 99813, //
    99865, 99903, 99931, 99952, 99966, 99977, 99984, 99989, 99993, 99995, //
    99997,
];

#[derive(Clone, Copy)]
enum Kind {
    Normal,
    Rectangular,
}

struct Knowledge {
    kind: Kind,
    spread: i64,
    bias: i64,
}

impl Knowledge {
    /// Floor and ceiling of how likely the true value lies at or below this offset
    /// from the reading.
    fn at_most(&self, offset: i64) -> (i64, i64) {
        let offset = offset + self.bias;
        match self.kind {
            Kind::Rectangular => rectangular(self.spread, offset),
            Kind::Normal if offset > 0 => normal(self.spread, offset),
            Kind::Normal if offset < 0 => {
                let (floor, ceiling) = normal(self.spread, -offset);
                (MILLION - ceiling, MILLION - floor)
            }
            Kind::Normal => (MILLION / 2, MILLION / 2),
        }
    }

    fn expanded_uncertainty(&self) -> i64 {
        match self.kind {
            Kind::Normal => 2 * self.spread,
            Kind::Rectangular => {
                // The least n with 3n² ≥ 4s².
                let square = (4 * self.spread * self.spread + 2) / 3;
                let root = square.isqrt();
                root + i64::from(root * root < square)
            }
        }
    }

    /// The least offset whose floor is at least a million less the share.
    fn least_offset(&self, share: i64) -> Option<i64> {
        let enough = |offset| self.at_most(offset).0 >= MILLION - share;
        if !enough(REACH) {
            return None;
        }
        let (mut low, mut high) = (-REACH, REACH);
        while low < high {
            let middle = low + (high - low) / 2;
            if enough(middle) {
                high = middle;
            } else {
                low = middle + 1;
            }
        }
        Some(high)
    }

    /// The greatest offset whose ceiling is at most the share.
    fn greatest_offset(&self, share: i64) -> Option<i64> {
        let enough = |offset| self.at_most(offset).1 <= share;
        if !enough(-REACH) {
            return None;
        }
        let (mut low, mut high) = (-REACH, REACH);
        while low < high {
            let middle = high - (high - low) / 2;
            if enough(middle) {
                low = middle;
            } else {
                high = middle - 1;
            }
        }
        Some(low)
    }
}

fn rectangular(half_width: i64, offset: i64) -> (i64, i64) {
    if offset <= -half_width {
        return (0, 0);
    }
    if offset >= half_width {
        return (MILLION, MILLION);
    }
    let parts = MILLION * (offset + half_width);
    let floor = parts / (2 * half_width);
    (floor, floor + i64::from(floor * 2 * half_width < parts))
}

/// Above the reading: the table's chord, widened by what it may be off.
fn normal(uncertainty: i64, offset: i64) -> (i64, i64) {
    let tenths = (10 * offset / uncertainty) as usize;
    if tenths >= 40 {
        return (999_965, MILLION);
    }
    let rest = 10 * offset % uncertainty;
    let rise = 10 * (NORMAL[tenths + 1] - NORMAL[tenths]) * rest;
    let low = 10 * NORMAL[tenths] + rise / uncertainty;
    let high = low + i64::from(rise % uncertainty != 0);
    ((low - 5).max(MILLION / 2), (high + 308).min(MILLION))
}

// ---- Requirements ----

#[derive(Clone, Copy)]
enum Rule {
    Simple,
    Guard(i64),
    Multiple(i64),
    Shares(i64, i64),
}

#[derive(Clone, Copy)]
struct Requirement {
    lower: Option<i64>,
    upper: Option<i64>,
    rule: Rule,
    four: bool,
}

#[derive(Clone, Copy, PartialEq)]
enum Verdict {
    Pass,
    ConditionalPass,
    ConditionalFail,
    Fail,
}

impl Verdict {
    fn word(self) -> &'static str {
        match self {
            Verdict::Pass => "pass",
            Verdict::ConditionalPass => "cpass",
            Verdict::ConditionalFail => "cfail",
            Verdict::Fail => "fail",
        }
    }
}

fn within(reading: i64, lower: Option<i64>, upper: Option<i64>) -> bool {
    lower.is_none_or(|limit| limit <= reading) && upper.is_none_or(|limit| reading <= limit)
}

impl Requirement {
    fn judge(&self, reading: i64, knowledge: &Knowledge) -> Result<Verdict, Fault> {
        let Requirement { lower, upper, .. } = *self;
        let width = match self.rule {
            Rule::Simple | Rule::Shares(..) => 0,
            Rule::Guard(width) => width,
            // Rounded up, whatever the sign.
            Rule::Multiple(ratio) => -(-ratio * knowledge.expanded_uncertainty()).div_euclid(100),
        };
        let (from, to) = if let Rule::Shares(lower_share, upper_share) = self.rule {
            let from = match lower {
                None => None,
                Some(limit) => match knowledge.greatest_offset(lower_share) {
                    None => return fault(31, 0),
                    Some(offset) => Some(limit - offset),
                },
            };
            let to = match upper {
                None => None,
                Some(limit) => match knowledge.least_offset(upper_share) {
                    None => return fault(31, 0),
                    Some(offset) => Some(limit - offset),
                },
            };
            (from, to)
        } else {
            (
                lower.map(|limit| limit + width),
                upper.map(|limit| limit - width),
            )
        };
        if let (Some(from), Some(to)) = (from, to) {
            if from > to {
                return fault(32, 0);
            }
        }
        let outside = |limit: Option<i64>, by: i64| limit.map(|limit| limit + by);
        Ok(if within(reading, from, to) {
            Verdict::Pass
        } else if self.four && within(reading, lower, upper) {
            Verdict::ConditionalPass
        } else if self.four && within(reading, outside(lower, -width), outside(upper, width)) {
            Verdict::ConditionalFail
        } else {
            Verdict::Fail
        })
    }

    /// Floor and ceiling of the probability that the true value conforms.
    fn bracket(&self, reading: i64, knowledge: &Knowledge) -> (i64, i64) {
        let (low_floor, low_ceiling) = match self.lower {
            None => (0, 0),
            Some(limit) => knowledge.at_most(limit - reading),
        };
        let (high_floor, high_ceiling) = match self.upper {
            None => (MILLION, MILLION),
            Some(limit) => knowledge.at_most(limit - reading),
        };
        ((high_floor - low_ceiling).max(0), high_ceiling - low_floor)
    }
}

// ---- The run ----

#[derive(Clone, Copy, Default)]
struct Tally {
    items: u64,
    passes: u64,
    lesser: i64,
    greater: i64,
}

struct Run {
    sheet: [[Option<Requirement>; CHARACTERISTICS]; CLASSES],
    requirements: usize,
    lot: HashSet<i64>,
    tallies: [Tally; CLASSES],
    output: Vec<u8>,
}

/// A comma and the digits of a number.
fn push_cell(output: &mut Vec<u8>, mut value: u64) {
    let mut cell = [0; 21];
    let mut start = cell.len();
    loop {
        start -= 1;
        cell[start] = b'0' + (value % 10) as u8;
        value /= 10;
        if value == 0 {
            break;
        }
    }
    start -= 1;
    cell[start] = b',';
    output.extend_from_slice(&cell[start..]);
}

impl Run {
    fn new() -> Run {
        Run {
            sheet: [[None; CHARACTERISTICS]; CLASSES],
            requirements: 0,
            lot: HashSet::with_capacity(MAX_ITEMS),
            tallies: [Tally::default(); CLASSES],
            output: Vec::with_capacity(MAX_TEXT),
        }
    }

    fn line(&mut self, word: &str, cells: [u64; 4]) {
        self.output.extend_from_slice(word.as_bytes());
        for cell in cells {
            push_cell(&mut self.output, cell);
        }
        self.output.extend_from_slice(b"\r\n");
    }

    fn item_line(&mut self, number: i64, verdict: Verdict, (floor, ceiling): (i64, i64)) {
        self.output.extend_from_slice(b"item");
        push_cell(&mut self.output, number as u64);
        self.output.push(b',');
        self.output.extend_from_slice(verdict.word().as_bytes());
        push_cell(&mut self.output, floor as u64);
        push_cell(&mut self.output, ceiling as u64);
        self.output.extend_from_slice(b"\r\n");
    }

    fn refused(&mut self, record: u64, fault: Fault) {
        let layer = fault.number / 10 + 1;
        self.line("refused", [record, fault.number, layer, fault.field]);
    }

    fn requirement(&mut self, record: &Record) -> Result<(), Fault> {
        let class = record.number(2, 1, CLASSES as i64)?;
        let characteristic = record.number(3, 1, CHARACTERISTICS as i64)?;
        let lower = record.limit(4)?;
        let upper = record.limit(5)?;
        let letter = match record.fields[5] {
            [letter @ (b'S' | b'G' | b'M' | b'P')] => *letter,
            _ => return fault(13, 6),
        };
        let first = record.number(7, -MILLION, MILLION)?;
        let second = record.number(8, -MILLION, MILLION)?;
        let four = match record.number(9, 2, 4)? {
            2 => false,
            4 => true,
            _ => return fault(12, 9),
        };
        match (lower, upper) {
            (None, None) => return fault(20, 0),
            (Some(lower), Some(upper)) if lower >= upper => return fault(21, 0),
            _ => {}
        }
        let (rule, suits) = match letter {
            b'S' => (Rule::Simple, first == 0 && second == 0),
            b'G' => (
                Rule::Guard(first),
                first.abs() <= 100_000 && second == 0 && !(four && first < 0),
            ),
            b'M' => (
                Rule::Multiple(first),
                first.abs() <= 200 && second == 0 && !(four && first < 0),
            ),
            _ => (
                Rule::Shares(first, second),
                (0..=500_000).contains(&first)
                    && (0..=500_000).contains(&second)
                    && (first == 0 || lower.is_some())
                    && (second == 0 || upper.is_some())
                    && !four,
            ),
        };
        if !suits {
            return fault(22, 0);
        }
        let place = &mut self.sheet[class as usize - 1][characteristic as usize - 1];
        if place.is_some() {
            return fault(23, 2);
        }
        if self.requirements == MAX_REQUIREMENTS {
            return fault(24, 0);
        }
        *place = Some(Requirement {
            lower,
            upper,
            rule,
            four,
        });
        self.requirements += 1;
        Ok(())
    }

    fn item(&mut self, record: &Record) -> Result<(), Fault> {
        let number = record.number(2, 1, 999_999_999)?;
        let class = record.number(3, 1, CLASSES as i64)? as usize - 1;
        let characteristic = record.number(4, 1, CHARACTERISTICS as i64)? as usize - 1;
        let reading = record.number(5, -MILLION, MILLION)?;
        let (kind, greatest) = match record.fields[5] {
            b"N" => (Kind::Normal, 100_000),
            b"R" => (Kind::Rectangular, 400_000),
            _ => return fault(13, 6),
        };
        let knowledge = Knowledge {
            kind,
            spread: record.number(7, 1, greatest)?,
            bias: record.number(8, -100_000, 100_000)?,
        };
        if self.lot.contains(&number) {
            return fault(40, 2);
        }
        if self.lot.len() == MAX_ITEMS {
            return fault(41, 0);
        }
        let Some(requirement) = self.sheet[class][characteristic] else {
            return fault(30, 3);
        };
        let verdict = requirement.judge(reading, &knowledge)?;
        let (floor, ceiling) = requirement.bracket(reading, &knowledge);
        self.lot.insert(number);
        let tally = &mut self.tallies[class];
        tally.items += 1;
        if verdict == Verdict::Pass {
            tally.passes += 1;
            tally.lesser += MILLION - ceiling;
            tally.greater += MILLION - floor;
        }
        self.item_line(number, verdict, (floor, ceiling));
        Ok(())
    }

    fn records(&mut self, text: &[u8]) {
        if text.len() > MAX_TEXT {
            return self.refused(
                0,
                Fault {
                    number: 1,
                    field: 0,
                },
            );
        }
        let mut reader = Reader { text, at: 0 };
        let mut number = 0;
        while let Some(read) = reader.next_record() {
            number += 1;
            let record = match read {
                Ok(record) => record,
                Err(fault) => return self.refused(number, fault),
            };
            let done = match (record.fields[0], record.count) {
                (b"REQ", 9) => self.requirement(&record),
                (b"ITEM", 8) => self.item(&record),
                _ => fault(10, 0),
            };
            if let Err(fault) = done {
                self.refused(number, fault);
            }
        }
    }

    fn classes(&mut self) {
        for (class, tally) in (1..).zip(self.tallies) {
            if tally.items > 0 {
                self.line(
                    "class",
                    [
                        class,
                        tally.passes,
                        tally.lesser as u64,
                        tally.greater as u64,
                    ],
                );
            }
        }
    }
}

fn main() -> io::Result<()> {
    let mut text = Vec::with_capacity(MAX_TEXT + 1);
    io::stdin()
        .lock()
        .take(MAX_TEXT as u64 + 1)
        .read_to_end(&mut text)?;
    let mut run = Run::new();
    run.output
        .extend_from_slice(b"line,key,outcome,floor,ceiling\r\n");
    run.records(&text);
    run.classes();
    io::stdout().lock().write_all(&run.output)
}
