// Prints the plan for a list of lines as `plan --text FILE` does, byte for byte: what the proved program is measured against.
// Built by bench/lines.sh; written independently of the proved program, and tried by bench/lines_reference.py.
use std::fmt::Write as _;
use std::io::{self, Read, Write as _};
use std::{env, fs, iter, process};

// A set of huts, as bits of words.
type Huts = [u64; 16];

const NONE: Huts = [0; 16];

fn add(set: &mut Huts, hut: usize) {
    set[hut / 64] |= 1 << (hut % 64);
}

fn has(set: &Huts, hut: usize) -> bool {
    set[hut / 64] >> (hut % 64) & 1 == 1
}

fn both(one: &Huts, other: &Huts) -> Huts {
    std::array::from_fn(|at| one[at] & other[at])
}

// Some hut is in both sets. All words are looked at, which goes several at a time.
fn meet(one: &Huts, other: &Huts) -> bool {
    iter::zip(one, other).fold(0, |found, (x, y)| found | (x & y)) != 0
}

// The huts of a set that are higher than this one.
fn above(set: &Huts, hut: usize) -> Huts {
    let mut rest = *set;
    rest[..hut / 64].fill(0);
    rest[hut / 64] &= !1 << (hut % 64);
    rest
}

// The huts of a set, the lowest first.
fn members(set: Huts) -> impl Iterator<Item = usize> {
    set.into_iter().enumerate().flat_map(|(at, mut word)| {
        iter::from_fn(move || {
            let bit = (word != 0).then(|| word.trailing_zeros() as usize)?;
            word &= word - 1;
            Some(64 * at + bit)
        })
    })
}

// Why there is no plan.
enum Fault {
    Unreadable(usize),
    NoSuchHut,
    Unsorted,
    NotJoined(usize),
}

impl std::fmt::Display for Fault {
    fn fmt(&self, f: &mut std::fmt::Formatter) -> std::fmt::Result {
        match self {
            Fault::Unreadable(line) => write!(f, "line {line} can't be read"),
            Fault::NoSuchHut => write!(f, "refused 2: no huts, more than 1024, or a hut that isn't there"),
            Fault::Unsorted => write!(f, "refused 3: lines that don't rise, or of a hut with itself"),
            Fault::NotJoined(hut) => write!(f, "refused 4: not all huts are joined: hut {hut}"),
        }
    }
}

// A text, and how far it is read.
struct Reader<'a> {
    text: &'a [u8],
    at: usize,
}

// A word that is no number, or a word too many.
struct Wrong;

impl Reader<'_> {
    fn next(&self) -> Option<u8> {
        self.text.get(self.at).copied()
    }

    // The next number of the line, 65,535 if it is larger; none at the end of the line.
    fn number(&mut self) -> Result<Option<u16>, Wrong> {
        while let Some(b' ' | b'\t' | b'\r') = self.next() {
            self.at += 1;
        }
        let start = self.at;
        let mut number = 0;
        while let Some(digit @ b'0'..=b'9') = self.next() {
            number = (10 * number + u32::from(digit - b'0')).min(65535);
            self.at += 1;
        }
        match self.next() {
            None | Some(b' ' | b'\t' | b'\r' | b'\n') => Ok((self.at > start).then_some(number as u16)),
            Some(_) => Err(Wrong),
        }
    }

    // The rest of the line: no number, one or two.
    fn line(&mut self) -> Result<(Option<u16>, Option<u16>), Wrong> {
        let numbers = (self.number()?, self.number()?);
        match self.number()? {
            None => Ok(numbers),
            Some(_) => Err(Wrong),
        }
    }

    // At the end of a line: goes to the next, if there is one.
    fn goes_on(&mut self) -> bool {
        let more = self.next() == Some(b'\n');
        self.at += usize::from(more);
        more
    }
}

// The number of huts and the lines between them, as they are written.
fn read(text: &[u8]) -> Result<(u16, Vec<(u16, u16)>), Fault> {
    let mut reader = Reader { text, at: 0 };
    let Ok((Some(huts), None)) = reader.line() else {
        return Err(Fault::Unreadable(1));
    };
    let mut lines = Vec::new();
    let mut k = 1;
    while reader.goes_on() {
        k += 1;
        match reader.line() {
            Ok((Some(a), Some(b))) => lines.push((a, b)),
            Ok((None, _)) => {}
            _ => return Err(Fault::Unreadable(k)),
        }
    }
    Ok((huts, lines))
}

// Each hut's neighbours. The first line that is wrong is told.
fn neighbours(huts: u16, lines: &[(u16, u16)]) -> Result<Vec<Huts>, Fault> {
    if !(1..=1024).contains(&huts) {
        return Err(Fault::NoSuchHut);
    }
    let mut rows = vec![NONE; huts as usize];
    let mut last = (0, 0);
    for &(a, b) in lines {
        if a >= huts || b >= huts {
            return Err(Fault::NoSuchHut);
        }
        if a >= b || (a, b) <= last {
            return Err(Fault::Unsorted);
        }
        add(&mut rows[a as usize], b as usize);
        add(&mut rows[b as usize], a as usize);
        last = (a, b);
    }
    Ok(rows)
}

// The smallest square: four nested loops, the last only where it will find a hut.
fn smallest_square(rows: &[Huts]) -> Option<[usize; 4]> {
    for a in 0..rows.len() {
        for b in members(above(&rows[a], a)) {
            let beyond = above(&rows[a], b);
            for c in members(above(&rows[b], a)) {
                if meet(&beyond, &rows[c]) {
                    for d in members(beyond) {
                        if has(&rows[c], d) {
                            return Some([a, b, c, d]);
                        }
                    }
                }
            }
        }
    }
    None
}

// The huts that a way leads to from the middle, nearer ones first, lower ones first among equals, each with its partner.
fn row(rows: &[Huts], middle: &[usize]) -> Vec<(usize, usize)> {
    let mut row = Vec::with_capacity(rows.len());
    let mut level = NONE;
    for &hut in middle {
        add(&mut level, hut);
    }
    let mut seen = level;
    while level != NONE {
        let mut next = NONE;
        for hut in members(level) {
            for (word, more) in iter::zip(&mut next, &rows[hut]) {
                *word |= more;
            }
        }
        for (word, old) in iter::zip(&mut next, &mut seen) {
            *word &= !*old;
            *old |= *word;
        }
        for hut in members(next) {
            let partner = members(both(&rows[hut], &level)).next().unwrap();
            row.push((hut, partner));
        }
        level = next;
    }
    row
}

// The lowest hut that no way leads to from hut 0.
fn not_joined(rows: &[Huts]) -> Option<usize> {
    let mut seen = NONE;
    add(&mut seen, 0);
    for (hut, _) in row(rows, &[0]) {
        add(&mut seen, hut);
    }
    (0..rows.len()).find(|hut| !has(&seen, *hut))
}

// What is printed for a text.
fn planned(text: &[u8]) -> Result<String, Fault> {
    let (huts, lines) = read(text)?;
    let rows = neighbours(huts, &lines)?;
    if let Some(hut) = not_joined(&rows) {
        return Err(Fault::NotJoined(hut));
    }
    let square = smallest_square(&rows);
    let row = match &square {
        Some(middle) => row(&rows, middle),
        None => row(&rows, &[0]),
    };
    let mut calls: Vec<(usize, usize)> = row.iter().rev().copied().collect();
    let mut again = &row[..];
    match square {
        Some([a, b, c, d]) => calls.extend([(a, b), (c, d), (a, d), (b, c)]),
        None => again = row.get(1..).unwrap_or(&[]),
    }
    calls.extend(again.iter().map(|&(hut, partner)| (partner, hut)));

    let mut out = String::with_capacity(10 * calls.len() + 64);
    for (caller, other) in &calls {
        writeln!(out, "{caller} {other}").unwrap();
    }
    match square {
        Some([a, b, c, d]) => writeln!(out, "square {a} {b} {c} {d}").unwrap(),
        None => out.push_str("no square\n"),
    }
    writeln!(out, "{} calls", calls.len()).unwrap();
    Ok(out)
}

fn contents(name: &str) -> io::Result<Vec<u8>> {
    if name != "-" {
        return fs::read(name);
    }
    let mut text = Vec::new();
    io::stdin().lock().read_to_end(&mut text)?;
    Ok(text)
}

fn run(name: &str) -> Result<(), String> {
    let text = contents(name).map_err(|error| format!("{name}: {error}"))?;
    let out = planned(&text).map_err(|fault| format!("{name}: {fault}"))?;
    match io::stdout().lock().write_all(out.as_bytes()) {
        Err(error) if error.kind() != io::ErrorKind::BrokenPipe => Err(error.to_string()),
        _ => Ok(()),
    }
}

fn main() {
    let words: Vec<String> = env::args().skip(1).collect();
    let done = match &words[..] {
        [option, name] if option == "--text" => run(name),
        _ => Err("usage: lines --text FILE".to_string()),
    };
    if let Err(reason) = done {
        eprintln!("plan: {reason}");
        process::exit(1);
    }
}
