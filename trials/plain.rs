//! The tape program written once more in plain Rust, with nothing proved: what a question costs is measured beside it.
//!
//! It reads a tape from standard input and prints what the tape program prints, but that it may name another conflict.

use std::cmp::Ordering;
use std::io::{self, Read, Write};

const END_LIMIT: i64 = 100_000_000;
const ARGUMENT_LIMIT: i64 = 10_000;
const LAST_SERIAL: u32 = 200_000_000;
const TAPE: u64 = 4_096;

#[derive(Clone, Copy)]
struct Measurement {
    serial: u32,
    argument: i64,
    lower: i64,
    upper: i64,
}

#[derive(Clone, Copy)]
enum Place {
    Free,
    Open { serial: u32, argument: i64 },
    Held(Measurement),
}

#[derive(Clone, Copy)]
struct Fraction {
    numerator: i64,
    denominator: i64,
}

impl Fraction {
    fn order(self, other: Fraction) -> Ordering {
        (self.numerator * other.denominator).cmp(&(other.numerator * self.denominator))
    }
}

/// A bound that a pair sets, and the two measurements of the pair, the one with the lesser argument first.
#[derive(Clone, Copy)]
struct Bound {
    value: Fraction,
    first: Measurement,
    second: Measurement,
}

enum Verdict {
    Line,
    Two([u32; 2]),
    Three([u32; 3]),
}

/// What a question asks of: the slope, or the value at an argument.
#[derive(Clone, Copy)]
enum Quantity {
    Slope,
    Value(i64),
}

impl Quantity {
    /// The least and the greatest that a line through both has.
    fn of_pair(self, first: Measurement, second: Measurement) -> (Fraction, Fraction) {
        let denominator = second.argument - first.argument;
        let (low, high) = match self {
            Quantity::Slope => (second.lower - first.upper, second.upper - first.lower),
            Quantity::Value(at) => {
                let (a, b) = (second.argument - at, at - first.argument);
                let side = |m: Measurement, weight: i64| match weight < 0 {
                    true => (m.upper * weight, m.lower * weight),
                    false => (m.lower * weight, m.upper * weight),
                };
                let (one, two) = (side(first, a), side(second, b));
                (one.0 + two.0, one.1 + two.1)
            }
        };
        (Fraction { numerator: low, denominator }, Fraction { numerator: high, denominator })
    }
}

struct Channel {
    places: [Place; 64],
    last: u32,
    opened: u32,
    filed: u32,
    spoiled: u32,
    aborted: u32,
}

impl Channel {
    fn held(&self) -> impl Iterator<Item = Measurement> + '_ {
        self.places.iter().filter_map(|place| match place {
            Place::Held(measurement) => Some(*measurement),
            _ => None,
        })
    }

    /// The greatest low and the least high bound of all pairs at different arguments.
    fn narrowest(&self, quantity: Quantity) -> Option<(Bound, Bound)> {
        let mut best: Option<(Bound, Bound)> = None;
        for (i, one) in self.held().enumerate() {
            for two in self.held().take(i) {
                let (first, second) = match one.argument.cmp(&two.argument) {
                    Ordering::Less => (one, two),
                    Ordering::Greater => (two, one),
                    Ordering::Equal => continue,
                };
                let (low, high) = quantity.of_pair(first, second);
                let new = |value| Bound { value, first, second };
                best = Some(match best {
                    None => (new(low), new(high)),
                    Some((least, greatest)) => (
                        if low.order(least.value).is_gt() { new(low) } else { least },
                        if high.order(greatest.value).is_lt() { new(high) } else { greatest },
                    ),
                });
            }
        }
        best
    }

    fn verdict(&self) -> Verdict {
        for one in self.held() {
            for two in self.held() {
                if one.argument == two.argument && one.lower > two.upper {
                    return Verdict::Two(sorted([one.serial, two.serial]));
                }
            }
        }
        match self.narrowest(Quantity::Slope) {
            Some((least, greatest)) if least.value.order(greatest.value).is_gt() => {
                Verdict::Three(sorted(broken(least, greatest).map(|m| m.serial)))
            }
            _ => Verdict::Line,
        }
    }

    /// The bounds of a quantity, or the number of the refusal.
    fn bounds(&self, quantity: Quantity) -> Result<(Fraction, Fraction), u32> {
        let Some(any) = self.held().next() else { return Err(7) };
        if !matches!(self.verdict(), Verdict::Line) {
            return Err(8);
        }
        if let Some((least, greatest)) = self.narrowest(quantity) {
            return Ok((least.value, greatest.value));
        }
        match quantity {
            Quantity::Value(at) if at == any.argument => {
                let whole = |numerator| Fraction { numerator, denominator: 1 };
                let lower = self.held().map(|m| m.lower).max().unwrap_or(any.lower);
                let upper = self.held().map(|m| m.upper).min().unwrap_or(any.upper);
                Ok((whole(lower), whole(upper)))
            }
            _ => Err(9),
        }
    }

    fn open(&mut self, argument: i64) -> Result<u32, u32> {
        if argument.abs() > ARGUMENT_LIMIT {
            return Err(1);
        }
        let free = self.places.iter_mut().find(|place| matches!(place, Place::Free)).ok_or(2u32)?;
        if self.last >= LAST_SERIAL {
            return Err(3);
        }
        self.last += 1;
        self.opened += 1;
        *free = Place::Open { serial: self.last, argument };
        Ok(self.last)
    }

    fn opened(&mut self, point: u32) -> Option<(&mut Place, i64)> {
        self.places.iter_mut().find_map(|place| match *place {
            Place::Open { serial, argument } if serial == point => Some((place, argument)),
            _ => None,
        })
    }

    fn withdraw(&mut self, wanted: u32) -> bool {
        let held = |place: &&mut Place| matches!(place, Place::Held(m) if m.serial == wanted);
        match self.places.iter_mut().find(held) {
            Some(place) => {
                *place = Place::Free;
                true
            }
            None => false,
        }
    }
}

fn sorted<const N: usize>(mut serials: [u32; N]) -> [u32; N] {
    serials.sort_unstable();
    serials
}

/// Where the low slope of one pair is above the high slope of another: three of the four that conflict.
fn broken(steep: Bound, gentle: Bound) -> [Measurement; 3] {
    let (j, i, k, m) = (steep.first, steep.second, gentle.first, gentle.second);
    let chord = |a: Measurement, b: Measurement, c: Measurement, end: fn(Measurement) -> i64| {
        end(a) * (c.argument - b.argument) + end(c) * (b.argument - a.argument)
    };
    if m.argument <= i.argument {
        if chord(k, m, i, |p| p.lower) > m.upper * (i.argument - k.argument) {
            return [k, m, i];
        }
    } else if chord(j, i, m, |p| p.upper) < i.lower * (m.argument - j.argument) {
        return [j, i, m];
    }
    if j.argument <= k.argument { [j, k, m] } else { [k, j, i] }
}

/// The ends that a display of step 10 tells, and those of a bounded stage with limits 20 and 1,000.
fn step(reading: i64) -> (i64, i64) {
    (10 * reading - 5, 10 * reading + 5)
}

fn bounded(reading: i64) -> (i64, i64) {
    let (low, high) = (reading - 20, reading + 20);
    let wide = |low: bool| if low { 1_001_000 } else { 999_000 };
    let ceiling = |number: i64, divisor: i64| -(-number).div_euclid(divisor);
    ((low * 1_000_000).div_euclid(wide(low >= 0)), ceiling(high * 1_000_000, wide(high < 0)))
}

fn within((lower, upper): (i64, i64)) -> bool {
    -END_LIMIT <= lower && upper <= END_LIMIT
}

/// The set of a reading, or the place and the value of the refusal.
fn measured(reading: i64) -> Result<(i64, i64), (u32, i64)> {
    let upper = step(reading);
    if !within(upper) {
        return Err((1, reading));
    }
    let (low, high) = (bounded(upper.0), bounded(upper.1));
    match (within(low), within(high)) {
        (false, _) => Err((2, upper.0)),
        (_, false) => Err((2, upper.1)),
        _ => Ok((low.0, high.1)),
    }
}

fn thousandths((least, greatest): (Fraction, Fraction)) -> (i64, i64) {
    let down = |f: Fraction| (1_000 * f.numerator).div_euclid(f.denominator);
    let up = |f: Fraction| -(-1_000 * f.numerator).div_euclid(f.denominator);
    (down(least), up(greatest))
}

fn signed(bytes: &[u8], bits: u32) -> i64 {
    let number = bytes.iter().fold(0i64, |n, &byte| n << 8 | byte as i64);
    number << (64 - bits) >> (64 - bits)
}

fn abort(channel: &mut Channel, point: u32, reason: &[u8], out: &mut Vec<u8>) -> io::Result<()> {
    if let Some((place, _)) = channel.opened(point) {
        *place = Place::Free;
        channel.aborted += 1;
    }
    write!(out, "aborted {point}")?;
    if !reason.is_empty() {
        out.push(b' ');
        out.extend(reason.iter().map(|&b| if (32..=126).contains(&b) { b } else { b'?' }));
    }
    writeln!(out)
}

fn tell(out: &mut Vec<u8>, word: &str, told: Result<(Fraction, Fraction), u32>) -> io::Result<()> {
    match told.map(thousandths) {
        Ok((low, high)) => writeln!(out, "{word} {low} {high}"),
        Err(number) => writeln!(out, "refused {number}"),
    }
}

fn play(mut tape: &[u8], out: &mut Vec<u8>) -> io::Result<()> {
    let mut channel = Channel { places: [Place::Free; 64], last: 0, opened: 0, filed: 0, spoiled: 0, aborted: 0 };
    let mut point: Option<u32> = None;
    while let Some(&head) = tape.first() {
        let length = match (head >> 4, head & 15) {
            (1, _) | (5, 3) => Some(3),
            (2 | 4, _) => Some(4),
            (3, length) => Some(1 + length as usize),
            (5, 1 | 2 | 4) | (6, _) => Some(1),
            _ => None,
        };
        let filler = |kind| head >> 4 == kind && head & 15 != 0;
        let wrong = match length {
            None => Some(12),
            Some(length) if tape.len() < length => Some(11),
            _ if filler(1) || filler(6) => Some(12),
            _ => None,
        };
        if let (Some(open), true) = (point, wrong.is_some() || !matches!(head >> 4, 2 | 3)) {
            abort(&mut channel, open, &[], out)?;
            point = None;
        }
        let (Some(length), None) = (length, wrong) else {
            return writeln!(out, "refused {}", wrong.unwrap_or(12));
        };
        let (frame, rest) = tape.split_at(length);
        tape = rest;
        match (head >> 4, head & 15, point.take()) {
            (1, ..) => {
                let argument = signed(&frame[1..], 16);
                match channel.open(argument) {
                    Ok(serial) => {
                        point = Some(serial);
                        writeln!(out, "load {serial} {argument}")?;
                    }
                    Err(number) => writeln!(out, "refused {number}")?,
                }
            }
            (2 | 3, _, None) => writeln!(out, "refused 13")?,
            (2, _, Some(serial)) => {
                let told = measured(signed(frame, 28));
                if let Some((place, argument)) = channel.opened(serial) {
                    *place = match told {
                        Ok((lower, upper)) => Place::Held(Measurement { serial, argument, lower, upper }),
                        Err(_) => Place::Free,
                    };
                }
                match told {
                    Ok((lower, upper)) => {
                        channel.filed += 1;
                        writeln!(out, "set {serial} {lower} {upper}")?;
                    }
                    Err((place, value)) => {
                        channel.spoiled += 1;
                        writeln!(out, "spoiled {serial} 5 {place} {value}")?;
                    }
                }
            }
            (3, _, Some(serial)) => abort(&mut channel, serial, &frame[1..], out)?,
            (4, ..) => {
                let serial = (signed(frame, 32) & 0xfff_ffff) as u32;
                match channel.withdraw(serial) {
                    true => writeln!(out, "withdrawn {serial}")?,
                    false => writeln!(out, "refused 6")?,
                }
            }
            (5, 1, _) if channel.held().next().is_none() => writeln!(out, "refused 7")?,
            (5, 1, _) => match channel.verdict() {
                Verdict::Line => writeln!(out, "line")?,
                Verdict::Two([i, j]) => writeln!(out, "conflict {i} {j}")?,
                Verdict::Three([i, j, k]) => writeln!(out, "conflict {i} {j} {k}")?,
            },
            (5, 2, _) => tell(out, "slope", channel.bounds(Quantity::Slope))?,
            (5, 3, _) => {
                let at = signed(&frame[1..], 16);
                let told = if at.abs() > ARGUMENT_LIMIT { Err(1) } else { channel.bounds(Quantity::Value(at)) };
                tell(out, "value", told)?;
            }
            (5, ..) => {
                let open = channel.places.iter().filter(|place| matches!(place, Place::Open { .. })).count();
                let held = channel.held().count();
                let Channel { opened, filed, spoiled, aborted, .. } = channel;
                writeln!(out, "tallies {opened} {filed} {spoiled} {aborted} {open} {held}")?;
            }
            _ => {
                channel = Channel { places: [Place::Free; 64], last: channel.last, opened: 0, filed: 0, spoiled: 0, aborted: 0 };
                writeln!(out, "cleared")?;
            }
        }
    }
    match point {
        Some(open) => abort(&mut channel, open, &[], out),
        None => Ok(()),
    }
}

fn main() -> io::Result<()> {
    let mut tape = Vec::new();
    io::stdin().take(TAPE).read_to_end(&mut tape)?;
    let mut out = Vec::new();
    play(&tape, &mut out)?;
    io::stdout().write_all(&out)
}
