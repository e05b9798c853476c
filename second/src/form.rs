//! The text form of a sheet, one event a line: to bytes and back. README.md has the table of its lines.

use crate::sheet::{Bytes, Draft, Event, Sheet, Write};
use crate::watch::Nobody;
use std::fmt::Write as _;
use std::str::FromStr;

/// What is left of a line.
struct Scan<'a> {
    rest: &'a str,
}

impl<'a> Scan<'a> {
    /// Takes this sign if it is next.
    fn sign(&mut self, sign: char) -> bool {
        self.rest = self.rest.trim_start();
        let next = self.rest.strip_prefix(sign);
        self.rest = next.unwrap_or(self.rest);
        next.is_some()
    }

    fn must(&mut self, sign: char) -> Result<(), String> {
        if self.sign(sign) {
            Ok(())
        } else {
            Err(format!("'{sign}' is wanted before '{}'", self.rest))
        }
    }

    fn word(&mut self, part: fn(&char) -> bool) -> &'a str {
        self.rest = self.rest.trim_start();
        let end = self.rest.find(|c| !part(&c)).unwrap_or(self.rest.len());
        let (word, rest) = self.rest.split_at(end);
        self.rest = rest;
        word
    }

    fn number<T: FromStr>(&mut self) -> Result<T, String> {
        let word = self.word(char::is_ascii_digit);
        word.parse().map_err(|_| format!("a number in range is wanted before '{}'", self.rest))
    }

    /// Numbers up to this sign.
    fn numbers(&mut self, end: char) -> Result<Vec<u8>, String> {
        let mut all = Vec::new();
        while !self.sign(end) {
            all.push(self.number()?);
        }
        Ok(all)
    }

    /// The rest of the line as bytes in hexadecimal.
    fn hex(&mut self) -> Result<Vec<u8>, String> {
        let byte = |word: &str| u8::from_str_radix(word, 16).map_err(|_| format!("'{word}' is no byte"));
        std::mem::take(&mut self.rest).split_whitespace().map(byte).collect()
    }

    /// A list with its count, which is written only where the list cannot say it: above 4.
    fn list(&mut self) -> Result<(u8, [u8; 4]), String> {
        let count = if self.sign('<') { None } else { Some(self.number::<u8>()?) };
        if count.is_some() {
            self.must('<')?;
        }
        let names = self.numbers('>')?;
        let mut list = [0; 4];
        if names.len() > list.len() || count.is_some_and(|n| n <= 4) {
            return Err("a list has up to four names, and its count is written only above 4".into());
        }
        list[..names.len()].copy_from_slice(&names);
        Ok((count.unwrap_or(names.len() as u8), list))
    }

    fn write(&mut self) -> Result<Write, String> {
        self.must('R')?;
        self.must('{')?;
        let mut closes = 0u8;
        for place in self.numbers('}')? {
            closes |= 1u8.checked_shl(place.into()).ok_or("a place of R is 0 to 7")?;
        }
        let place = self.number()?;
        self.must('.')?;
        let field = self.number()?;
        self.must('=')?;
        Ok(Write { closes, place, field, new: self.number()? })
    }
}

/// What the lines up to now have said.
#[derive(Default)]
struct Text {
    draft: Draft,
    records: u8,
    raw: Option<Vec<u8>>,
    /// How often the block from an event on is wanted.
    block: Option<(usize, usize)>,
}

impl Text {
    fn line(&mut self, line: &str) -> Result<(), String> {
        let mut scan = Scan { rest: line };
        let word = scan.word(char::is_ascii_lowercase);
        match word {
            "table" => (self.draft.p, self.records) = (scan.number()?, scan.number()?),
            "heading" => self.draft.heading.extend(scan.hex()?),
            "bytes" => self.raw.get_or_insert_with(Vec::new).extend(scan.hex()?),
            "values" => self.values(&mut scan)?,
            "repeat" if self.block.is_some() => return Err("a repeat within a repeat".into()),
            "repeat" => self.block = Some((scan.number()?, self.draft.events.len())),
            "end" => self.end()?,
            _ => self.event(word, &mut scan)?,
        }
        if scan.rest.trim().is_empty() {
            Ok(())
        } else {
            Err(format!("'{}' is too much", scan.rest))
        }
    }

    fn values(&mut self, scan: &mut Scan) -> Result<(), String> {
        if scan.word(char::is_ascii_lowercase) == "all" {
            let four = [scan.number()?; 4];
            self.draft.values = vec![four; usize::from(self.records)];
        } else {
            self.draft.values.push([scan.number()?, scan.number()?, scan.number()?, scan.number()?]);
        }
        Ok(())
    }

    fn end(&mut self) -> Result<(), String> {
        let (times, from) = self.block.take().ok_or("an end without its repeat")?;
        let block = self.draft.events.split_off(from);
        self.draft.events.extend(block.repeat(times));
        Ok(())
    }

    fn event(&mut self, word: &str, scan: &mut Scan) -> Result<(), String> {
        let t = scan.number()?;
        let event = match word {
            "llx" => Event::Llx { t, r: scan.number()? },
            "scx" => {
                let (n, list) = scan.list()?;
                Event::Scx { t, n, list, write: scan.write()? }
            }
            "vlx" => {
                let (n, list) = scan.list()?;
                Event::Vlx { t, n, list }
            }
            "read" => {
                let r = scan.number()?;
                scan.must('.')?;
                Event::Read { t, r, field: scan.number()? }
            }
            "step" => Event::Step { t },
            _ => return Err(format!("'{word}' begins no line")),
        };
        let times = if word == "step" && scan.sign('x') { scan.number()? } else { 1 };
        self.draft.events.extend(vec![event.bytes(); times]);
        Ok(())
    }

    fn bytes(self) -> Result<Vec<u8>, String> {
        if self.block.is_some() {
            return Err("a repeat without its end".into());
        }
        match self.raw {
            Some(raw) if self.draft.p == 0 && self.draft.events.is_empty() => Ok(raw),
            Some(_) => Err("bytes stand alone".into()),
            None if self.draft.values.len() == usize::from(self.records) => Ok(self.draft.bytes()),
            None => Err(format!("{} records have values, the table has {}", self.draft.values.len(), self.records)),
        }
    }
}

/// The bytes that a text says, or the line that says nothing.
pub fn to_bytes(text: &str) -> Result<Vec<u8>, String> {
    let mut all = Text::default();
    for (number, line) in text.lines().enumerate() {
        let line = line.split('#').next().unwrap_or("").trim();
        if !line.is_empty() {
            all.line(line).map_err(|why| format!("line {}: {why}", number + 1))?;
        }
    }
    all.bytes()
}

/// A text that says these bytes.
pub fn to_text(bytes: &[u8]) -> String {
    let mut out = String::new();
    match Sheet::read(bytes, &mut Nobody) {
        Ok(sheet) => print_sheet(&sheet, &mut out),
        Err(_) if bytes.is_empty() => out.push_str("bytes\n"),
        Err(_) => print_hex("bytes", bytes, &mut out),
    }
    out
}

fn print_hex(word: &str, bytes: &[u8], out: &mut String) {
    for row in bytes.chunks(16) {
        out.push_str(word);
        row.iter().for_each(|byte| write!(out, " {byte:02x}").unwrap());
        out.push('\n');
    }
}

fn print_sheet(sheet: &Sheet, out: &mut String) {
    let values: Vec<[u16; 4]> = sheet.records().collect();
    writeln!(out, "table {} {}", sheet.p, values.len()).unwrap();
    print_hex("heading", sheet.heading, out);
    for [a, b, c, d] in values {
        writeln!(out, "values {a} {b} {c} {d}").unwrap();
    }
    let events: Vec<Bytes> = sheet.events().map(|event| event.bytes()).collect();
    for same in events.chunk_by(|one, next| one == next) {
        let event = Event::of(&same[0]);
        match event {
            Event::Step { t } if same.len() > 1 => writeln!(out, "step {t} x{}", same.len()).unwrap(),
            _ => same.iter().for_each(|_| print_event(&event, out)),
        }
    }
}

fn print_event(event: &Event, out: &mut String) {
    match *event {
        Event::Llx { t, r } => writeln!(out, "llx {t} {r}"),
        Event::Read { t, r, field } => writeln!(out, "read {t} {r}.{field}"),
        Event::Step { t } => writeln!(out, "step {t}"),
        Event::Vlx { t, n, list } => writeln!(out, "vlx {t} {}", list_text(n, list)),
        Event::Scx { t, n, list, write: w } => {
            let places: Vec<String> = (0..8).filter(|i| w.closes >> i & 1 == 1).map(|i: u8| i.to_string()).collect();
            let closes = places.join(" ");
            writeln!(out, "scx {t} {} R{{{closes}}} {}.{} = {}", list_text(n, list), w.place, w.field, w.new)
        }
    }
    .unwrap();
}

fn list_text(n: u8, list: [u8; 4]) -> String {
    let names: Vec<String> = list.iter().take(n.into()).map(u8::to_string).collect();
    let count = if n > 4 { n.to_string() } else { String::new() };
    format!("{count}<{}>", names.join(" "))
}
