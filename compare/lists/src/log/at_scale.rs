//! Logs of every kind from any seed, as many as you like, and their
//! comparison with another listing.

use std::collections::BTreeMap;
use std::fmt::{self, Display, Formatter};

use splitmix::Random;

use super::headers::{CREATED, Header};
use super::recipe::{LONGEST_LOG, Recipe};
use super::{at_random, oracle, place};
use crate::batch;
use crate::frame::{Heading, SeededFrame};
use crate::hex;

/// Compares a listing with the Rust's, log by log, up to the first
/// difference, which it reports whole.
pub fn compare(seed: u64, count: u64, listed: fn(&[u8]) -> String) -> Result<Found, String> {
    let mut random = Random::new(seed);
    let mut found = Found::default();
    for index in 0..count {
        let recipe = any(&mut random);
        let log = recipe.log();
        let wanted = oracle::listed(log) + "\n";
        let listing = listed(log);
        if listing != wanted {
            return Err(format!(
                "log {index} of seed {seed}\n{}\nthe Rust:\n{wanted}the port:\n{listing}\n{found}",
                hex::digits(log)
            ));
        }
        found.add(&wanted);
    }
    Ok(found)
}

/// What the logs were, so that a run shows what it is worth.
#[derive(Default)]
pub struct Found(BTreeMap<String, u64>);

impl Found {
    fn add(&mut self, answer: &str) {
        let mut frames = 0;
        for line in answer.lines() {
            let words: Vec<_> = line.split(' ').collect();
            let kind = match words[..] {
                ["log", ..] => continue,
                [_, kind, _, count] if kind == "page" || kind == "batch" => {
                    frames += 1;
                    let commit = if count == "0" { "" } else { ", a seal" };
                    format!("frame, {kind}{commit}")
                }
                ["end", count, _, last] => {
                    let committed = if last == "-" { "none" } else { "some" };
                    let ended = if count == frames.to_string() {
                        ""
                    } else {
                        ", then a batch that doesn't decode"
                    };
                    format!("log, {committed} sealed{ended}")
                }
                _ => format!("log, {line}"),
            };
            *self.0.entry(kind).or_default() += 1;
        }
    }
}

impl Display for Found {
    fn fmt(&self, f: &mut Formatter<'_>) -> fmt::Result {
        self.0
            .iter()
            .try_for_each(|(kind, count)| writeln!(f, "{count:8} {kind}"))
    }
}

/// Frames behind a header, or bytes that were never a log; then up to two
/// faults.
fn any(random: &mut Random) -> Recipe {
    let log = match random.below(24) {
        0 => garbage(random),
        _ => frames(random),
    };
    (0..random.below(3)).fold(log, |log, _| faulty(random, log))
}

/// A number of any length in bits.
fn number(random: &mut Random) -> u32 {
    random.u32() >> random.below(32)
}

fn garbage(random: &mut Random) -> Recipe {
    let length = random.below(200);
    let any = Recipe::default().bytes(&random.bytes(length));
    match random.below(4) {
        0 => any,
        1 => any.length(random.below(LONGEST_LOG)),
        2 => CREATED.log().length(random.below(33)),
        _ => {
            let heading = Heading::new(number(random), number(random), number(random));
            any.seeded(SeededFrame::new(heading, 1, random.u32()))
        }
    }
}

/// 0 to 15 frames behind a header that is good, but now and then in its
/// version or page size.
fn frames(random: &mut Random) -> Recipe {
    let salt = random.u32();
    let mut header = Header {
        version: random.pick(&[1, 2, 3]),
        salt: random.pick(&[salt, salt, 0, 1]),
        sequence: number(random),
        clock: random.u64() >> random.below(64),
        ..CREATED
    };
    match random.below(40) {
        0 => header.version = random.pick(&[0, 4]),
        1 => header.version = number(random),
        2 => header.page_size = random.pick(&[0, 512, 8_192]),
        _ => {}
    }
    (0..random.below(16)).fold(header.log(), |log, _| frame(random, log))
}

/// A frame as the list has them; or any page, any batch, zeros, another salt,
/// garbage.
fn frame(random: &mut Random, log: Recipe) -> Recipe {
    let count = number(random);
    let count = random.pick(&[0, 0, count]);
    let salt = log.salt();
    let end = log.log().len() + place(1) - place(0);
    match random.below(48) {
        0..8 => {
            let way = random.below(24);
            log.batch(count, batch::at_random::bytes(random, way))
        }
        8..12 => {
            let heading = Heading::new(number(random), count, salt);
            log.seeded(SeededFrame::new(
                heading,
                random.below(6) as u8,
                random.u32(),
            ))
        }
        12..16 if salt == 0 => log.length(end),
        16 => {
            let heading = Heading::new(number(random), count, number(random));
            log.frame(heading, b"another salt")
        }
        17 => {
            let garbage = random.bytes(16);
            log.bytes(&garbage).length(end)
        }
        _ => at_random::frame(random, log),
    }
}

/// A fault as the list has them; or one in the header, one that the sum
/// doesn't see, bytes behind the end, frames behind a torn frame.
fn faulty(random: &mut Random, log: Recipe) -> Recipe {
    let length = log.log().len();
    if length < 32 {
        return log;
    }
    let frame = place(random.below(1 + length / 4_112));
    let near = (frame + random.below(64)).min(length - 2);
    let [this, next] = [0, 1].map(|more| log.log()[near + more]);
    match random.below(10) {
        0 => log.changed(random.below(32), random.pick(&[0x01, 0x80, 0xff])),
        1 | 2 => log.put(near, &[this.wrapping_sub(1), next.wrapping_add(2)]),
        3 => log.length((length + random.below(9_000)).min(LONGEST_LOG)),
        4 => {
            let more = random.below(9_000).min(LONGEST_LOG - length);
            log.bytes(&random.bytes(more))
        }
        5 if near > 32 => {
            let torn = log.length(near);
            let room = (LONGEST_LOG - near) / 4_112;
            (0..room.min(2)).fold(torn, |log, _| at_random::frame(random, log))
        }
        _ => at_random::faulty(random, log),
    }
}

#[cfg(test)]
mod tests {
    use super::*;
    use crate::log::by_document;

    /// Every kind of log comes, and the document says the same of each.
    #[test]
    fn the_document_says_the_same() {
        let by_document = |log: &[u8]| by_document::listed(log) + "\n";
        let found = compare(1, 2_000, by_document).unwrap();
        assert_eq!(found.0.len(), 4 + 4 + 4, "{found}");
        assert!(found.0.values().all(|count| *count >= 20), "{found}");
    }

    #[test]
    fn a_difference_is_reported_whole() {
        let report = compare(1, 1, |_| "no listing\n".to_string()).err().unwrap();
        let log = hex::digits(any(&mut Random::new(1)).log());
        assert!(report.starts_with("log 0 of seed 1\n"));
        assert!(report.contains(&log) && report.contains("the port:\nno listing\n"));
    }
}
