//! The replay protocol: a line in, its answer out.

use std::fmt::Write as _;

use crate::alloc::Allocator;
use crate::calls::{self, Found};
use crate::config::{FILE_COUNT, PAGE_SIZE};
use crate::file::reach;
use crate::file::SeekDirection;
use crate::flash::Image;
use crate::world::{Answer, World};

/// No line of a script is longer, and no read or fill.
const LINE_MAX: usize = 65_535;
const BYTES_MAX: u32 = 20_000;

/// A line that is no command of the protocol.
pub struct Bad;
type Parsed<T> = Result<T, Bad>;

/// A command, read.
#[derive(Clone, PartialEq, Eq, Debug)]
pub enum Command {
    Lend(u32, u32),
    New(u32),
    Blank,
    Poke(u32, Vec<u8>),
    PokeMap(u32, Vec<u8>),
    Format,
    Mount,
    Locate(u8, u32),
    Read(u8, u32, u32),
    Skip(u8, u32, u32),
    Search(u8),
    Left,
    Right,
    Open(u8),
    Write(Vec<u8>),
    End,
    Finish,
    Discard,
    Truncate(u8, u32),
    Rename(u8, u8),
    Flags(u8, u8),
    Commit,
    Zeros(u32, u32),
    Index(u32, u32),
    SpanSeq(u32, u32),
    Seed(u32),
    ShowState,
    ShowTable,
    ShowMap,
    ShowPage(u16),
    ShowImage,
}

struct Words<'a>(std::str::Split<'a, char>);

impl Words<'_> {
    fn word(&mut self) -> Parsed<&str> {
        self.0.next().ok_or(Bad)
    }

    fn number(&mut self, most: u32) -> Parsed<u32> {
        let word = self.word()?;
        let digits = !word.is_empty() && word.len() <= 10 && word.bytes().all(|b| b.is_ascii_digit());
        if !digits || (word.len() > 1 && word.starts_with('0')) {
            return Err(Bad);
        }
        let n: u64 = word.parse().map_err(|_| Bad)?;
        if n > most as u64 {
            return Err(Bad);
        }
        Ok(n as u32)
    }

    fn any(&mut self) -> Parsed<u32> {
        self.number(u32::MAX)
    }

    fn byte(&mut self) -> Parsed<u8> {
        Ok(self.number(255)? as u8)
    }

    fn hex(&mut self) -> Parsed<Vec<u8>> {
        let word = self.word()?.as_bytes();
        let digit = |b: u8| match b {
            b'0'..=b'9' => Ok(b - b'0'),
            b'a'..=b'f' => Ok(b - b'a' + 10),
            _ => Err(Bad),
        };
        if word.is_empty() || word.len() % 2 != 0 {
            return Err(Bad);
        }
        word.chunks(2).map(|two| Ok(digit(two[0])? * 16 + digit(two[1])?)).collect()
    }
}

pub fn parse(line: &[u8]) -> Parsed<Command> {
    if line.len() > LINE_MAX {
        return Err(Bad);
    }
    let line = std::str::from_utf8(line).map_err(|_| Bad)?;
    let mut w = Words(line.split(' '));
    let command = match w.word()? {
        "lend" => Command::Lend(w.number(Image::SIZE as u32)?, w.number(Allocator::SIZE as u32)?),
        "new" => Command::New(w.any()?),
        "blank" => Command::Blank,
        "poke" => Command::Poke(w.any()?, w.hex()?),
        "pokemap" => Command::PokeMap(w.any()?, w.hex()?),
        "format" => Command::Format,
        "mount" => Command::Mount,
        "locate" => Command::Locate(w.byte()?, w.any()?),
        "read" => Command::Read(w.byte()?, w.any()?, w.number(BYTES_MAX)?),
        "skip" => Command::Skip(w.byte()?, w.any()?, w.any()?),
        "search" => Command::Search(w.byte()?),
        "left" => Command::Left,
        "right" => Command::Right,
        "open" => Command::Open(w.byte()?),
        "write" if line == "write" => Command::Write(Vec::new()),
        "write" => Command::Write(w.hex()?),
        "fill" => {
            let (len, start) = (w.number(BYTES_MAX)?, w.any()?);
            Command::Write((0..len as u64).map(|i| ((start as u64 + i) % 251) as u8).collect())
        }
        "end" => Command::End,
        "finish" => Command::Finish,
        "discard" => Command::Discard,
        "truncate" => Command::Truncate(w.byte()?, w.any()?),
        "rename" => Command::Rename(w.byte()?, w.byte()?),
        "flags" => Command::Flags(w.byte()?, w.byte()?),
        "commit" => Command::Commit,
        "mtz" => Command::Zeros(w.any()?, w.any()?),
        "index" => Command::Index(w.any()?, w.any()?),
        "spanseq" => Command::SpanSeq(w.any()?, w.any()?),
        "seed" => Command::Seed(w.any()?),
        "show" => match w.word()? {
            "state" => Command::ShowState,
            "table" => Command::ShowTable,
            "map" => Command::ShowMap,
            "page" => Command::ShowPage(w.number(u16::MAX as u32)? as u16),
            "image" => Command::ShowImage,
            _ => return Err(Bad),
        },
        _ => return Err(Bad),
    };
    match w.0.next() {
        None => Ok(command),
        Some(_) => Err(Bad),
    }
}

/// The word in front of bytes, and the bytes in hex; the word alone where there are none.
pub fn hex_after(word: &str, bytes: &[u8]) -> String {
    let mut out = String::with_capacity(word.len() + 1 + 2 * bytes.len());
    out.push_str(word);
    if !bytes.is_empty() {
        out.push(' ');
    }
    for b in bytes {
        let digit = |n: u8| char::from(if n < 10 { b'0' + n } else { b'a' + n - 10 });
        out.push(digit(b >> 4));
        out.push(digit(b & 15));
    }
    out
}

pub fn adler32(bytes: &[u8]) -> u32 {
    let (mut a, mut b) = (1u32, 0u32);
    // 5,552 is the longest run whose sums stay below 32 bits
    for run in bytes.chunks(5_552) {
        for &x in run {
            a += x as u32;
            b += a;
        }
        a %= 65_521;
        b %= 65_521;
    }
    b << 16 | a
}

fn said<T>(answer: Answer<T>, say: impl FnOnce(T) -> String) -> Parsed<String> {
    Ok(match answer {
        Ok(t) => say(t),
        Err(refusal) => format!("refused {}", refusal as u32),
    })
}

fn found(f: Found) -> String {
    match f {
        Found::Offer(n) => format!("offer {n}"),
        Found::End(n) => format!("end {n}"),
    }
}

impl World {
    /// The answer to one line, without its last newline; none where the line is skipped.
    pub fn line(&mut self, line: &[u8]) -> Option<String> {
        if line.is_empty() || line[0] == b'#' {
            return None;
        }
        let answer = parse(line).and_then(|command| self.answer(&command));
        Some(answer.unwrap_or_else(|Bad| "bad".to_string()))
    }

    pub fn answer(&mut self, command: &Command) -> Parsed<String> {
        let ok = |()| "ok".to_string();
        let value = |n: u32| format!("value {n}");
        match command {
            Command::Format => said(self.format(), ok),
            Command::Mount => said(self.mount(), ok),
            Command::Locate(f, n) => said(self.locate(*f, *n), |(page, count)| format!("at {page} {count}")),
            Command::Read(f, n, len) => said(self.read(*f, *n, *len), |b| hex_after("bytes", &b)),
            Command::Skip(f, n, len) => said(self.skip(*f, *n, *len), |to| format!("to {to}")),
            Command::Search(f) => said(self.search(*f), found),
            Command::Left => said(self.seek(SeekDirection::Left), found),
            Command::Right => said(self.seek(SeekDirection::Right), found),
            Command::Open(f) => said(self.open(*f), ok),
            Command::Write(data) => said(self.write(data), ok),
            Command::End => said(self.record_end(), ok),
            Command::Finish => said(self.finish(), ok),
            Command::Discard => said(self.discard(), ok),
            Command::Truncate(f, n) => said(self.truncate(*f, *n), ok),
            Command::Rename(a, b) => said(self.rename(*a, *b), ok),
            Command::Flags(f, n) => said(self.flags(*f, *n), ok),
            Command::Commit => said(self.commit(), ok),
            Command::Zeros(a, b) => said(calls::trailing_zeros(*a, *b), value),
            Command::Index(a, b) => said(calls::index(*a, *b), value),
            Command::SpanSeq(n, i) => said(calls::span_seq(*n, *i), value),
            Command::Seed(n) => Ok(value(calls::seed_step(*n))),
            other => self.beside(other),
        }
    }

    /// Commands that are no calls.
    pub fn beside(&mut self, command: &Command) -> Parsed<String> {
        match command {
            Command::Lend(image, map) => {
                self.m.flash_mut().lent = *image as usize;
                reach::map_mut(&mut self.m).lent = *map as usize;
            }
            Command::New(seed) => self.renew(*seed),
            Command::Blank => {
                self.m.flash_mut().bytes.fill(0xff);
                reach::map_mut(&mut self.m).bytes.fill(0);
            }
            Command::Poke(at, bytes) => poke(&mut self.m.flash_mut().bytes, *at, bytes)?,
            Command::PokeMap(at, bytes) => poke(&mut reach::map_mut(&mut self.m).bytes, *at, bytes)?,
            Command::ShowState => return Ok(self.show_state()),
            Command::ShowTable => {
                let lines: Vec<_> = (0..FILE_COUNT as u8).map(|f| self.show_file(f)).collect();
                return Ok(lines.join("\n"));
            }
            Command::ShowMap => return Ok(hex_after("map", self.lent_map())),
            Command::ShowPage(page) => {
                let at = *page as usize * PAGE_SIZE;
                let page = self.lent_image().get(at..at + PAGE_SIZE).ok_or(Bad)?;
                return Ok(hex_after("page", page));
            }
            Command::ShowImage => return Ok(self.show_image()),
            _ => return Err(Bad),
        }
        Ok("ok".to_string())
    }

    fn show_state(&self) -> String {
        let s = reach::numbers(&self.m);
        let Some(pages) = self.mounted else {
            return format!("state unmounted seed {}", s.seed);
        };
        let mut out = format!(
            "state pages {pages} count {} meta {} seq {} cursor {} seed {} transaction {} writer ",
            s.count, s.meta, s.seq, s.cursor, s.seed, s.transaction as u8
        );
        let _ = match self.writer.as_ref().map(reach::writing) {
            None => write!(out, "none"),
            Some(w) => write!(
                out,
                "{}:{}:{}:{}:{}:{}:{}",
                w.file, w.seq, w.staged, w.previous, w.copied, w.boundary, w.ended as u8
            ),
        };
        let _ = match &self.search {
            None => write!(out, " search none"),
            Some(s) => {
                let [left, right, result, offer] = s.shown();
                write!(out, " search {}:{left}:{right}:{result}:{offer}", s.file())
            }
        };
        out
    }

    fn show_file(&self, file: u8) -> String {
        let r = reach::record(&self.m, file);
        let links: Vec<_> = r.links.iter().map(|l| l.to_string()).collect();
        format!(
            "file {file} first {} last {} flags {} dirty {} page {} seq {} length {} boundary {} links {}",
            r.first,
            r.last,
            r.flags,
            r.dirty as u8,
            r.page,
            r.seq,
            r.length,
            r.boundary,
            links.join(",")
        )
    }

    fn show_image(&self) -> String {
        let image = self.lent_image();
        let mut out = String::new();
        for (i, page) in image.chunks_exact(PAGE_SIZE).enumerate() {
            if page.iter().any(|&b| b != 0xff) {
                let _ = writeln!(out, "page {i} {}", adler32(page));
            }
        }
        let _ = write!(out, "image {}", adler32(image));
        out
    }
}

fn poke(buffer: &mut [u8], at: u32, bytes: &[u8]) -> Parsed<()> {
    let at = at as usize;
    let place = at.checked_add(bytes.len()).and_then(|end| buffer.get_mut(at..end)).ok_or(Bad)?;
    place.copy_from_slice(bytes);
    Ok(())
}
