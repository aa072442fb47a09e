//! The Rust alone, without document 01's checks: what docs/DIFFERENCES.md is measured with.

use std::io::{BufRead, Write};

use crate::file::reach::{self, Stop};
use crate::file::SeekDirection;
use crate::protocol::{hex_after, parse, Command};
use crate::text::{run, Ran};
use crate::world::World;

fn said<T>(ran: Ran<T>, say: impl FnOnce(T) -> String) -> String {
    match ran {
        Ran::Done(t) => say(t),
        Ran::Corrupted => "corrupted".to_string(),
        Ran::Panicked => "panic".to_string(),
    }
}

fn stopped<T>(ran: Ran<Result<T, Stop>>, say: impl FnOnce(T) -> String) -> String {
    said(ran, |r| match r {
        Ok(t) => say(t),
        Err(Stop::Eof) => "eof".to_string(),
        Err(Stop::Damaged) => "corrupted".to_string(),
    })
}

impl World {
    /// True where the text would assert that no transaction is open.
    fn asserts(&mut self) -> bool {
        reach::clean(&mut self.m) == Ran::Panicked
    }

    fn raw_found(&mut self, search: reach::Search, ran: Ran<bool>) -> String {
        said(ran, |offered| {
            // the Rust's searcher lives on after its end
            self.search = Some(search);
            match offered {
                true => format!("offer {}", search.offer()),
                false => format!("end {}", search.result()),
            }
        })
    }

    fn raw_seek(&mut self, dir: SeekDirection) -> Option<String> {
        let from = self.search?;
        if self.asserts() {
            return Some("panic".to_string());
        }
        let (search, ran) = reach::search_seek(&mut self.m, &from, dir);
        Some(self.raw_found(search, ran))
    }

    /// The Rust's answer to a call; none where it has no such call.
    pub fn raw(&mut self, command: &Command) -> Option<String> {
        let ok = |()| "ok".to_string();
        let value = |n: u32| format!("value {n}");
        let reads = matches!(command, Command::Read(..) | Command::Skip(..) | Command::Search(_) | Command::Open(_));
        if reads && self.asserts() {
            return Some("panic".to_string());
        }
        Some(match command {
            Command::Format => {
                let ran = reach::format(&mut self.m);
                (self.writer, self.search) = (None, None);
                self.mounted = self.lent_pages();
                said(ran, ok)
            }
            Command::Mount => {
                let ran = reach::mount(&mut self.m);
                (self.writer, self.search) = (None, None);
                self.mounted = self.lent_pages();
                said(ran, ok)
            }
            Command::Locate(f, n) => said(reach::locate(&mut self.m, *f, *n), |p| match p {
                Some(p) => format!("at {}", p.index()),
                None => "none".to_string(),
            }),
            Command::Read(f, n, len) => {
                let mut data = vec![0; *len as usize];
                let ran = reach::read(&mut self.m, *f, *n, &mut data);
                stopped(ran, |()| hex_after("bytes", &data))
            }
            Command::Skip(f, n, len) => {
                stopped(reach::skip(&mut self.m, *f, *n, *len as usize), |to| format!("to {to}"))
            }
            Command::Search(f) => {
                let (search, ran) = reach::search_start(&mut self.m, *f);
                self.raw_found(search, ran)
            }
            Command::Left => self.raw_seek(SeekDirection::Left)?,
            Command::Right => self.raw_seek(SeekDirection::Right)?,
            Command::Open(f) => said(reach::open(&mut self.m, *f, false), |w| {
                self.writer = Some(w);
                "ok".to_string()
            }),
            Command::Write(data) => said(reach::write(&mut self.m, self.writer.as_mut()?, data), ok),
            Command::End => said(reach::record_end(self.writer.as_mut()?), ok),
            Command::Finish => said(reach::finish(&mut self.m, &mut self.writer.take()?), ok),
            Command::Discard => said(reach::discard(&mut self.m, &mut self.writer.take()?), ok),
            Command::Truncate(f, n) => said(reach::truncate(&mut self.m, *f, *n as usize), ok),
            Command::Rename(a, b) => said(reach::rename(&mut self.m, *a, *b), ok),
            Command::Flags(f, n) => said(reach::flags(&mut self.m, *f, *n), ok),
            Command::Commit => said(reach::commit(&mut self.m), ok),
            Command::Zeros(a, b) => said(run(|| Ok(reach::trailing_zeros(*a, *b))), value),
            Command::Index(a, b) => said(run(|| Ok(reach::index(*a, *b) as u32)), value),
            Command::SpanSeq(n, i) => said(run(|| Ok(reach::span_seq(*n, *i as usize))), value),
            Command::Seed(n) => value(reach::seed_step(*n)),
            _ => return None,
        })
    }

    /// All that can be seen of a world, the image as its sums.
    fn seen(&mut self) -> Vec<String> {
        let shows = [Command::ShowState, Command::ShowTable, Command::ShowMap, Command::ShowImage];
        shows.iter().flat_map(|c| self.beside(c)).collect()
    }
}

/// Runs a script by the Rust alone; freed pages are free at once, as there.
pub fn replay(input: impl BufRead, mut output: impl Write) -> std::io::Result<()> {
    let mut world = World::new();
    reach::map_mut(&mut world.m).holds = false;
    reach::set_transaction(&mut world.m, true);
    for line in input.split(b'\n') {
        let line = line?;
        if line.is_empty() || line[0] == b'#' {
            continue;
        }
        let answer = match parse(&line) {
            Ok(command) => {
                let said = world.raw(&command).or_else(|| world.beside(&command).ok());
                if matches!(command, Command::New(_)) {
                    // a new manager is dirty until it is formatted or mounted
                    reach::set_transaction(&mut world.m, true);
                }
                said.unwrap_or_else(|| "none".to_string())
            }
            Err(_) => "bad".to_string(),
        };
        writeln!(output, "{answer}")?;
    }
    Ok(())
}

/// The same words for the same answers.
fn agree(document: &str, rust: &str) -> bool {
    match document {
        "refused 5" => rust == "corrupted",
        "refused 6" => rust == "eof" || rust == "none",
        "refused 11" => rust == "eof" || rust == "none",
        _ => {
            document == rust || document.starts_with("at ") && document.rsplit_once(' ').is_some_and(|(a, _)| a == rust)
        }
    }
}

/// Runs a script by document 01 and, from the same world before each call, by the Rust; tells where they part.
pub fn compare(input: impl BufRead, mut output: impl Write) -> std::io::Result<()> {
    let mut world = World::new();
    for (number, line) in input.split(b'\n').enumerate() {
        let line = line?;
        let Ok(command) = parse(&line) else { continue };
        let mut beside = world.copy();
        let document = world.answer(&command).unwrap_or_else(|_| "bad".to_string());
        let sized = beside.lent_pages().is_some_and(|n| beside.mounted.unwrap_or(n) == n);
        let open = beside.mounted.is_some() || matches!(command, Command::Format | Command::Mount);
        if !sized || !open {
            continue;
        }
        reach::map_mut(&mut beside.m).holds = false;
        let Some(rust) = beside.raw(&command) else { continue };
        // what document 01 held before this call is none of the Rust's
        if command == Command::Commit && rust == "ok" {
            reach::map_mut(&mut beside.m).release();
        }
        if reach::numbers(&beside.m).transaction || rust.starts_with("end") {
            beside.search = None;
        }
        let text = String::from_utf8_lossy(&line);
        if !agree(&document, &rust) {
            writeln!(output, "{}: {text} | document: {document} | rust: {rust}", number + 1)?;
        } else {
            let (mine, other) = (world.seen(), beside.seen());
            for (a, b) in mine.iter().zip(&other).filter(|(a, b)| a != b) {
                let parts = a.lines().zip(b.lines()).find(|(a, b)| a != b).unwrap_or((a, b));
                writeln!(output, "{}: {text} | document: {document}, {} | rust: {}", number + 1, parts.0, parts.1)?;
            }
        }
    }
    Ok(())
}
