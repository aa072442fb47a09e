//! What a list of scripts has reached: every call with every answer it can give, the branches of the
//! ported text, and our own named places. The recorded list must reach all that stands here.

use std::collections::BTreeMap;
use std::io::{BufRead, Write};

use crate::hits;
use crate::world::World;

/// Each call with the kinds of answer that it can give: a word, or a refusal's number.
const ANSWERS: [(&str, &str); 27] = [
    ("lend", "ok bad"),
    ("poke", "ok bad"),
    ("pokemap", "ok bad"),
    ("format", "ok 1 bad"),
    ("mount", "ok 1 5 bad"),
    ("locate", "at 1 2 3 4 5 6 11 bad"),
    ("read", "bytes 1 2 3 4 5 6 7 11 bad"),
    ("skip", "to 1 2 3 4 5 6 7 11 bad"),
    ("search", "offer end 1 2 3 4 5 bad"),
    ("left", "offer end 1 2 3 5 10 bad"),
    ("right", "offer end 1 2 3 5 10 bad"),
    ("open", "ok 1 2 3 4 5 8 bad"),
    ("write", "ok 1 2 8 9 10 bad"),
    ("fill", "ok 1 2 8 9 10 bad"),
    ("end", "ok 1 2 10 bad"),
    ("finish", "ok 1 2 10 bad"),
    ("discard", "ok 1 2 5 10 bad"),
    ("truncate", "ok 1 2 3 4 5 bad"),
    ("rename", "ok 1 2 3 4 bad"),
    ("flags", "ok 1 2 3 4 bad"),
    ("commit", "ok 1 2 3 5 8 9 bad"),
    ("mtz", "value 12 bad"),
    ("index", "value 12 bad"),
    ("spanseq", "value 12 bad"),
    ("seed", "value bad"),
    ("show", "state file map page image bad"),
    ("new", "ok bad"),
];

/// Lines of the text (file.rs of ekv 1.0.0) that must be reached, with what happens there. Left out, since no
/// script can reach them: 270, 286 (a page of whole entries was read just before), 691 and 921 (refused before
/// the text is reached), 873 (the text refuses earlier), 1073 (a record's last_seq is above its page's seq),
/// 1204 (a page that starts above left has no boundary at or below it), 1530 (a length is below 32 bits).
const LINES: [(usize, &str); 36] = [
    (236, "mount: no metadata page"),
    (240, "mount: page_count 0"),
    (244, "mount: page_count above N"),
    (252, "mount: the metadata page is not below page_count"),
    (292, "mount: file_id above 7"),
    (298, "mount: last page outside"),
    (302, "mount: none with first_seq above 0"),
    (320, "mount: last header unreadable"),
    (333, "mount: first_seq not below last_seq"),
    (350, "mount: a page on two chains"),
    (747, "step back: id outside"),
    (751, "step back: header unreadable"),
    (756, "step back: seq does not fall"),
    (772, "seek: a link of none"),
    (776, "seek: id outside"),
    (780, "seek: header unreadable"),
    (784, "seek: seq does not fall"),
    (887, "reading: the page does not open"),
    (893, "reading: the page does not hold the number"),
    (1091, "search: an empty file"),
    (1113, "search: Damaged"),
    (1147, "search: id outside"),
    (1150, "search: header unreadable"),
    (1154, "search: seq above the level or the right limit"),
    (1159, "search: page too far left"),
    (1173, "search: no boundary, a page back"),
    (1175, "search: no boundary and no page back"),
    (1191, "search: boundary 224 or more"),
    (1194, "search: boundary past 32 bits"),
    (1196, "search: boundary at the right limit"),
    (1210, "search: boundary above the length"),
    (1219, "search: on offer"),
    (1250, "search: left"),
    (1255, "search: right"),
    (1323, "writer: the last page is copied"),
    (1534, "a number past 32 bits"),
];

/// Places of our own that must be reached.
const NAMES: [&str; 17] = [
    "commit: appended",
    "commit: moved",
    "log: count 0",
    "log: count above 8",
    "log: pair disagrees",
    "log: past the page",
    "map: page twice",
    "mount: past the limit",
    "page: opened unreadable",
    "read: page starts above the number",
    "skip: page starts above the number",
    "search: a level below left",
    "search: a link of none",
    "search: left + 1 is not below right",
    "search: right is not above left",
    "search: the end's page does not open",
    "truncate: the skip list disagrees",
];

const NO_ANSWER: &str = " is no answer of it";

/// What `check` tells.
#[derive(Clone, Copy, PartialEq, Eq)]
pub enum Tell {
    /// What was not reached, and what never should be.
    Missing,
    /// The counts, too.
    Counts,
    /// Only what never should be reached.
    Unexpected,
}

/// Runs scripts. True where nothing is amiss.
pub fn check(input: impl BufRead, mut output: impl Write, tell: Tell) -> std::io::Result<bool> {
    let mut seen: BTreeMap<(String, String), u32> = BTreeMap::new();
    let mut world = World::new();
    for line in input.split(b'\n') {
        let line = line?;
        let Some(answer) = world.line(&line) else { continue };
        let text = String::from_utf8_lossy(&line);
        let call = text.split(' ').next().unwrap_or("").to_string();
        let mut words = answer.split([' ', '\n']);
        let first = words.next().unwrap_or("");
        let kind = if first == "refused" { words.next().unwrap_or("") } else { first };
        *seen.entry((call, kind.to_string())).or_default() += 1;
    }
    let mut missing = Vec::new();
    for (call, kinds) in ANSWERS {
        for kind in kinds.split(' ') {
            if !seen.contains_key(&(call.to_string(), kind.to_string())) {
                missing.push(format!("{call}: {kind}"));
            }
        }
    }
    // an answer that the table does not know is amiss as well
    for (call, kind) in seen.keys() {
        let known = ANSWERS.iter().find(|(c, _)| c == call);
        if known.is_some_and(|(_, kinds)| !kinds.split(' ').any(|k| k == kind)) {
            missing.push(format!("{call}: {kind}{NO_ANSWER}"));
        }
    }
    let (lines, names) = (hits::lines(), hits::names());
    for (line, what) in LINES {
        if !lines.iter().any(|(n, _)| *n == line) {
            missing.push(format!("line {line}: {what}"));
        }
    }
    for name in NAMES {
        if !names.contains_key(name) {
            missing.push(name.to_string());
        }
    }
    if tell == Tell::Unexpected {
        missing.retain(|m| m.ends_with(NO_ANSWER));
    }
    missing.extend(names.keys().filter(|n| n.starts_with("unexpected")).cloned());
    if tell == Tell::Counts {
        for ((call, kind), n) in &seen {
            writeln!(output, "{call} {kind}: {n}")?;
        }
        for (line, n) in &lines {
            writeln!(output, "line {line}: {n}")?;
        }
        for (name, n) in &names {
            writeln!(output, "{name}: {n}")?;
        }
    }
    for what in &missing {
        writeln!(output, "amiss: {what}")?;
    }
    Ok(missing.is_empty())
}
