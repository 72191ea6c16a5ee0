//! Random scripts.

use super::history;
use super::{Random, EDGES};
use crate::twin::call::{Call, NAMES};
use crate::twin::machine::Machine;
use crate::twin::next_fit::NextFit;
use crate::twin::paged::Paged;
use crate::twin::quota::Quota;
use crate::twin::reader::MOST_BYTES;
use crate::twin::run::{GRANULES, LIMIT};
use crate::twin::GRANULE;
use std::io::Write;

/// The script of a history: a line for each call.
pub fn text(history: &[Call]) -> Vec<u8> {
    let mut script = Vec::new();
    for call in history {
        writeln!(script, "{call}").expect("a vector takes all that is written");
    }
    script
}

/// A script in which most calls are accepted by the machines of `run`. It is not too long for up to 1,000 calls.
pub fn deep(random: &mut Random, calls: usize) -> Vec<u8> {
    text(&deep_history(random, calls))
}

/// The script of a damaged history, with its text damaged too.
pub fn damaged(random: &mut Random, calls: usize) -> Vec<u8> {
    let history = deep_history(random, calls);
    let mut script = text(&history::damaged(random, &history));
    for _ in 0..random.between(1, 1 + calls / 8) {
        damage(random, &mut script);
    }
    if random.one_in(100) {
        stretch(random, &mut script);
    }
    script
}

fn deep_history(random: &mut Random, calls: usize) -> Vec<Call> {
    let (mut bytes, mut tags, mut counts) = ([0; GRANULE * GRANULES], [0; GRANULES / 8], [0; GRANULES / 16]);
    let (mut used, mut firsts) = ([0; GRANULES / 8], [0; GRANULES / 8]);
    let memory = Paged::new(&mut bytes, &mut tags, &mut counts);
    let allocator = Quota::new(NextFit::new(&mut used, &mut firsts), LIMIT);
    history::deep(random, &mut Machine::new(memory, allocator), calls)
}

/// Words that no call has, or has at other places.
const WORDS: [&str; 16] = [
    "",
    "00",
    "01",
    "007",
    "-",
    "-1",
    "+1",
    "1e3",
    "0x10",
    "65536",
    "99999",
    "4294967296",
    "rwcgo",
    "wr",
    "rr",
    "Open",
];

/// Bytes that stand between words or in none.
const BYTES: [u8; 12] = [b' ', b'\n', b'\r', b'\t', 0, b'0', b'9', b'/', b':', b'r', b'-', 0xff];

/// Damages one place of a script.
fn damage(random: &mut Random, script: &mut Vec<u8>) {
    if script.is_empty() {
        return;
    }
    let place = random.below(script.len());
    match random.below(8) {
        0 => script[place] ^= 1 << random.below(8),
        1 => script[place] = random.number() as u8,
        2 => script[place] = random.pick(&BYTES),
        3 => script.insert(place, random.pick(&BYTES)),
        4 => drop(script.remove(place)),
        5 => replace_word(script, place, b"", true),
        6 => replace_word(script, place, random_word(random).as_bytes(), false),
        _ => {
            let end = word_at(script, place).1;
            script.insert(end, b' ');
        }
    }
}

fn random_word(random: &mut Random) -> String {
    match random.below(4) {
        0 => random.pick(&NAMES).to_string(),
        1 => random.pick(&EDGES).to_string(),
        2 => random.number().to_string(),
        _ => random.pick(&WORDS).to_string(),
    }
}

/// Where the word at a place begins and ends.
fn word_at(script: &[u8], place: usize) -> (usize, usize) {
    let ends_word = |&byte: &u8| byte == b' ' || byte == b'\n';
    let from = script[..place].iter().rposition(ends_word).map_or(0, |end| end + 1);
    let to = script[place..].iter().position(ends_word).map_or(script.len(), |length| place + length);
    (from, to)
}

/// Puts another word in the place of one; or drops it with the byte that follows it.
fn replace_word(script: &mut Vec<u8>, place: usize, word: &[u8], with_next: bool) {
    let (from, to) = word_at(script, place);
    let to = if with_next { script.len().min(to + 1) } else { to };
    script.splice(from..to, word.iter().copied());
}

/// Lengthens a script by empty lines to the most bytes that a script may have, or a few more or less.
fn stretch(random: &mut Random, script: &mut Vec<u8>) {
    let length = MOST_BYTES - 1 + random.below(3);
    if script.len() < length {
        script.resize(length, b'\n');
    }
}
