//! The card program as a process, beside a card program over the Rust that is written from document 01's text: the bytes that both print.
use super::*;
use std::io::{Read, Write};
use std::path::Path;
use std::process::{Command, Stdio};

/// The program.
const PROGRAM: &str = concat!(env!("CARGO_MANIFEST_DIR"), "/../crates/card/out/card");

// ---- the card program over the Rust

/// Document 01's word: 16 lowercase hexadecimal digits, highest first.
fn double(field: &str) -> Option<f64> {
    let digits = field.len() == 16 && field.bytes().all(|b| matches!(b, b'0'..=b'9' | b'a'..=b'f'));
    digits.then(|| f64::from_bits(u64::from_str_radix(field, 16).unwrap()))
}

/// Document 01's decimal: one to nine digits, no needless leading zero.
fn decimal(field: &str) -> Option<usize> {
    let digits = (1..=9).contains(&field.len()) && field.bytes().all(|b| b.is_ascii_digit());
    (digits && (field == "0" || !field.starts_with('0'))).then(|| field.parse().unwrap())
}

/// The three fields of a line.
fn three(line: &str) -> Option<[&str; 3]> {
    line.split(' ').collect::<Vec<_>>().try_into().ok()
}

/// The call that a card's text asks for; none for an unreadable text.
pub(super) fn parsed(text: &[u8]) -> Option<Call> {
    let text = std::str::from_utf8(text).ok()?.strip_suffix('\n')?;
    let mut lines = text.split('\n');
    if lines.next()? != "degree spacing tolerance" {
        return None;
    }
    let [degree, spacing, tolerance] = three(lines.next()?)?;
    let degree = decimal(degree)?;
    let spacing = ["chordal", "centripetal"].iter().position(|name| *name == spacing)?;
    let (entry, tolerance) = if tolerance == "none" { (INTERPOLATE, 0.0) } else { (WITHIN, double(tolerance)?) };
    if lines.next()? != "x y z" {
        return None;
    }
    let mut places = Vec::new();
    for line in lines {
        for field in three(line)? {
            places.push(double(field)?);
        }
    }
    Some(Call { entry, places, degree, count: 0, tolerance, spacing, factor: 1.0, extra: [0; 8] })
}

/// The answer: the whole text is judged first, then the count, then the call.
fn answered(text: &[u8]) -> Answer {
    let call = parsed(text).ok_or(11u32)?;
    if call.places.len() / 3 > 64 {
        return Err(8);
    }
    answer(&call)
}

/// What is printed for an answer.
pub(super) fn printed(answer: &Answer) -> String {
    let fit = match answer {
        Err(number) => return format!("refused\n{number}\n"),
        Ok(fit) => fit,
    };
    let mut text = format!("mark largest unreadable\n{} {:016x} {}\nknot multiplicity\n", MARKS[fit.mark], word(fit.largest), fit.unreadable);
    for (&knot, multiplicity) in fit.knots.iter().zip(&fit.mults) {
        text += &format!("{:016x} {multiplicity}\n", word(knot));
    }
    text += "x y z\n";
    for q in fit.poles.chunks_exact(3) {
        text += &format!("{:016x} {:016x} {:016x}\n", word(q[0]), word(q[1]), word(q[2]));
    }
    text
}

// ---- texts

/// A call that a card can hold.
fn card_call(random: &mut Random) -> Call {
    loop {
        let mut c = call(random);
        c.entry = if random.one_in(4) { INTERPOLATE } else { WITHIN };
        c.spacing = c.spacing.min(1);
        c.places.truncate(c.places.len() / 3 * 3);
        if c.places.len() <= 3 * 100 && c.degree < 1_000_000_000 {
            return c;
        }
    }
}

fn text_of(c: &Call) -> Vec<u8> {
    let tolerance = if c.entry == INTERPOLATE { "none".into() } else { format!("{:016x}", c.tolerance.to_bits()) };
    let spacing = ["chordal", "centripetal"][c.spacing];
    format!("degree spacing tolerance\n{} {spacing} {tolerance}\nx y z\n{}", c.degree, c.words()).into_bytes()
}

/// A byte that a damaged text may hold.
fn byte(random: &mut Random) -> u8 {
    if random.one_in(4) { random.below(256) as u8 } else { *random.of(b"0123456789abcdefABCDEFgn \n\r\txyz-+.") }
}

/// One to three bytes changed, inserted or dropped.
fn damaged(random: &mut Random, mut text: Vec<u8>) -> Vec<u8> {
    for _ in 0..random.from_to(1, 3) {
        let at = random.from_to(0, text.len() - 1);
        match random.below(3) {
            0 => text[at] = byte(random),
            1 => text.insert(at, byte(random)),
            _ => drop(text.remove(at)),
        }
        if text.is_empty() {
            break;
        }
    }
    text
}

/// A field of a line replaced.
fn replaced(random: &mut Random, text: &[u8], line: usize, fields: &[&str]) -> Vec<u8> {
    let mut lines: Vec<String> = String::from_utf8_lossy(text).split('\n').map(String::from).collect();
    let line = line.min(lines.len() - 1);
    let mut words: Vec<&str> = lines[line].split(' ').collect();
    let at = random.from_to(0, words.len() - 1);
    words[at] = *random.of(fields);
    lines[line] = words.join(" ");
    lines.join("\n").into_bytes()
}

const WORDS: [&str; 15] = [
    "7ff8000000000000", "7ff0000000000001", "ffffffffffffffff", "fff8000000000000", "7ff0000000000000", "fff0000000000000", "8000000000000000",
    "7FF8000000000000", "3FF0000000000000", "3ff000000000000", "03ff0000000000000", "3ff00000000000000", "none", "NaN", "",
];
const DEGREES: [&str; 16] =
    ["0", "1", "2", "3", "25", "26", "00", "01", "+1", "-1", "1.0", "", "999999999", "1000000000", "0000000001", "18446744073709551617"];
const SPACINGS: [&str; 9] = ["chordal", "centripetal", "Chordal", "CENTRIPETAL", "chord", "chordall", "centripeta", "cchordal", ""];

/// A text with something strange in it.
fn strange(random: &mut Random, text: Vec<u8>) -> Vec<u8> {
    let lines = text.iter().filter(|&&b| b == b'\n').count();
    let line = random.from_to(0, lines.max(1) - 1);
    match random.below(14) {
        0..=3 => replaced(random, &text, line.max(3), &WORDS),
        4 => replaced(random, &text, 1, &WORDS),
        5 => replaced(random, &text, 1, &DEGREES),
        6 => replaced(random, &text, 1, &SPACINGS),
        7 => text.to_ascii_uppercase(),
        8 => String::from_utf8_lossy(&text).replacen(' ', "  ", random.from_to(1, 3)).into_bytes(),
        9 => String::from_utf8_lossy(&text).replace('\n', "\r\n").into_bytes(),
        10 => text[..text.len() - 1].to_vec(),
        11 => [text, random.of(&["\n", " ", "\0", "x y z\n", "0 0 0\n"]).as_bytes().to_vec()].concat(),
        12 => [random.of(&["\n", " ", "\u{feff}"]).as_bytes().to_vec(), text].concat(),
        _ => String::from_utf8_lossy(&text).split('\n').rev().collect::<Vec<_>>().join("\n").into_bytes(),
    }
}

/// A card with more points: 65 and a few more, or thousands.
fn longer(random: &mut Random, c: &mut Call) {
    let n = if random.one_in(30) { random.from_to(2_000, 20_000) } else { random.from_to(65, 70) };
    while c.places.len() < 3 * n {
        c.places.push(random.double());
    }
    c.places.truncate(3 * n);
}

/// Exactly 64 points, or so many.
fn full(random: &mut Random, c: &mut Call) {
    let n = random.from_to(60, 64);
    let missing = points::ladder(random, n);
    c.places = ours::places(&missing);
}

fn text(random: &mut Random) -> Vec<u8> {
    let mut c = card_call(random);
    match random.below(20) {
        0 => longer(random, &mut c),
        1 => full(random, &mut c),
        _ => {}
    }
    let text = text_of(&c);
    match random.below(20) {
        0..=8 => text,
        9..=12 => damaged(random, text),
        13..=14 => text[..random.from_to(0, text.len())].to_vec(),
        _ => strange(random, text),
    }
}

// ---- the comparison

/// What the program prints for a text on its standard input.
fn ran(text: &[u8]) -> Vec<u8> {
    let mut child = Command::new(PROGRAM).stdin(Stdio::piped()).stdout(Stdio::piped()).spawn().expect("the card program runs");
    child.stdin.take().unwrap().write_all(text).expect("the program takes its input");
    let mut out = Vec::new();
    child.stdout.take().unwrap().read_to_end(&mut out).unwrap();
    assert!(child.wait().unwrap().success(), "the program failed");
    out
}

/// Runs both on so many texts and compares the bytes.
pub fn compare(count: u64, seed: u64) -> u64 {
    assert!(Path::new(PROGRAM).exists(), "no program at {PROGRAM}: ./card makes it");
    let (mut random, mut different, mut bytes) = (Random::new(seed), 0, 0);
    let mut outcomes: BTreeMap<usize, u64> = BTreeMap::new();
    for i in 0..count {
        let text = text(&mut random);
        bytes += text.len();
        let wanted = answered(&text);
        *outcomes.entry(class(&wanted)).or_default() += 1;
        let (mine, theirs) = (ran(&text), printed(&wanted));
        if mine != theirs.as_bytes() {
            different += 1;
            let file = std::env::temp_dir().join(format!("card-{seed}-{i}.card"));
            std::fs::write(&file, &text).unwrap();
            println!("different: text {i}, in {}: {:?}, the Rust's {theirs:?}", file.display(), String::from_utf8_lossy(&mine));
        }
    }
    let outcomes: Vec<String> = outcomes.into_iter().map(|(class, n)| format!("{} {n}", class_name(class))).collect();
    println!("card, seed {seed}: {count} texts of {bytes} bytes ({}): {different} different", outcomes.join(", "));
    different
}
