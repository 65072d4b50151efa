//! One call after another on a side, each with its outcome.

use std::fmt::Display;

use crate::call::Call;
use crate::hash::{self, Fnv};
use crate::side::{Act, Answer, Area, Cut, CutWrite, Recovered, Side, Write, ending};
use crate::spec::fields;

/// The pages that can be staged.
pub const PAGES: u32 = 1_024;

#[derive(Debug, Default, PartialEq, Eq)]
pub struct Outcome {
    pub result: String,
    /// Lines below the call.
    pub below: Vec<String>,
    pub writes: Vec<Write>,
    pub cut: Option<CutWrite>,
}

impl Outcome {
    fn new(result: impl Into<String>) -> Self {
        Self {
            result: result.into(),
            ..Self::default()
        }
    }
}

/// A side, and the cut that the next call of it meets.
pub struct Runner<S> {
    pub side: S,
    armed: Option<Cut>,
}

impl<S: Side> Runner<S> {
    pub fn new(mut side: S) -> Self {
        side.reset();
        Self { side, armed: None }
    }

    /// As new.
    pub fn reset(&mut self) {
        self.side.reset();
        self.armed = None;
    }

    /// Salts and edits are no calls of the store: a cut stays armed.
    pub fn call(&mut self, call: &Call) -> Outcome {
        match call {
            Call::Salt(salt) => {
                self.side.queue_salt(*salt);
                Outcome::new("ok")
            }
            Call::Cut(cut) => {
                self.armed = Some(*cut);
                Outcome::new("ok")
            }
            Call::Edit(_) if self.side.is_open() => Outcome::new("open"),
            Call::Edit(edit) => {
                self.side.edit(edit);
                Outcome::new("ok")
            }
            Call::Loglist => self.listing(),
            _ => self.cuttable(call),
        }
    }

    /// A call of the store, with the cut that is armed.
    fn cuttable(&mut self, call: &Call) -> Outcome {
        let cut = self.armed.take();
        let opens = matches!(call, Call::Create | Call::Open(_));
        if !opens && !self.side.is_open() {
            return Outcome::new("closed");
        }
        if opens {
            self.side.close();
        }
        let outcome = self.of_store(call, cut);
        if cut.is_none() {
            return outcome;
        }
        self.side.close();
        Outcome {
            result: "cut".to_string(),
            below: Vec::new(),
            ..outcome
        }
    }

    fn of_store(&mut self, call: &Call, cut: Option<Cut>) -> Outcome {
        match call {
            Call::Create => self.performed(Act::Create, cut),
            Call::Open(opening) => self.performed(Act::Open(*opening), cut),
            Call::Batch(spec) => self.performed(Act::Batch(spec.padded()), cut),
            Call::BatchRaw(spec) => self.performed(Act::Batch(spec.bytes()), cut),
            Call::Commit(header) => self.performed(Act::Commit(*header), cut),
            Call::Checkpoint => self.performed(Act::Checkpoint, cut),
            Call::Batches => batches(&self.side.recovered()),
            call => Outcome::new(self.in_memory(call)),
        }
    }

    fn performed(&mut self, act: Act, cut: Option<Cut>) -> Outcome {
        let performed = self.side.perform(&act, cut);
        let result = match performed.answer {
            Err(refused) => refused.to_string(),
            Ok(_) if performed.cut.is_some() => "cut".to_string(),
            Ok(answer) => match act {
                Act::Create => "ok".to_string(),
                Act::Open(_) => {
                    format!(
                        "ok {} {}",
                        fields(&self.side.header(), " "),
                        self.side.state()
                    )
                }
                Act::Batch(_) | Act::Checkpoint => format!("ok {answer}"),
                Act::Commit(_) => {
                    format!("ok {answer} {}", ending(performed.has_checkpointed()))
                }
            },
        };
        Outcome {
            result,
            below: Vec::new(),
            writes: performed.writes,
            cut: performed.cut,
        }
    }

    /// A call that writes nothing.
    fn in_memory(&mut self, call: &Call) -> String {
        match call {
            Call::Stage(page, spec) => {
                let staged = self.side.stage(*page, &spec.padded());
                answered(staged.map(|()| "ok"))
            }
            Call::Preview(header) => answered(self.side.preview(*header)),
            Call::Clear => {
                self.side.clear();
                "ok".to_string()
            }
            Call::Drop => {
                self.side.close();
                "ok".to_string()
            }
            Call::Clock(value) => format!("clock {}", self.side.observe_clock(*value)),
            Call::Read(page) => match self.side.read(*page) {
                Some(bytes) => format!("page {}", hash::of(bytes)),
                None => "none".to_string(),
            },
            Call::Header => fields(&self.side.header(), " "),
            Call::State => self.side.state().to_string(),
            Call::Pages => self.pages(),
            other => unreachable!("{other} is carried out elsewhere"),
        }
    }

    fn pages(&self) -> String {
        let mut count = 0;
        let mut hash = Fnv::new();
        for page in 0..PAGES {
            if let Some(bytes) = self.side.read(page) {
                count += 1;
                hash = hash.with(&page.to_le_bytes()).with(bytes);
            }
        }
        format!("{count} {}", hash.digits())
    }

    /// The log file is listed, whether a store is open or not.
    fn listing(&self) -> Outcome {
        let listing = self.side.list_log();
        Outcome {
            below: listing.lines().map(str::to_string).collect(),
            ..Outcome::new("ok")
        }
    }

    /// What a line shows behind the result.
    pub fn files(&self) -> String {
        let main = self.side.look_at(Area::Main, |main| file("main", main));
        let log = self.side.look_at(Area::Log, |log| {
            let norm = log.map_or("-".to_string(), hash::norm);
            let salt = log.and_then(|log| log.get(16..20));
            let salt = salt.map_or("-".to_string(), |salt| {
                format!(
                    "{:08x}",
                    u32::from_le_bytes(salt.try_into().expect("four bytes"))
                )
            });
            format!("{} | norm {norm} | salt {salt}", file("log", log))
        });
        format!("{main} | {log}")
    }
}

fn answered(answer: Answer<impl Display>) -> String {
    match answer {
        Ok(answer) => answer.to_string(),
        Err(refused) => refused.to_string(),
    }
}

fn file(name: &str, bytes: Option<&[u8]>) -> String {
    match bytes {
        Some(bytes) => format!("{name} {} {}", bytes.len(), hash::of(bytes)),
        None => format!("{name} -"),
    }
}

/// Their number and the hash of their printed forms, then a line each.
fn batches(batches: &[Recovered]) -> Outcome {
    let lines = batches.iter().flat_map(|batch| &batch.lines);
    let hash = lines.fold(Fnv::new(), |hash, line| {
        hash.with(line.as_bytes()).with(b"\n")
    });
    Outcome {
        below: batches
            .iter()
            .map(|batch| {
                format!(
                    "{} {} {}",
                    batch.time,
                    batch.records,
                    hash::of(&batch.encoded)
                )
            })
            .collect(),
        ..Outcome::new(format!("{} {}", batches.len(), hash.digits()))
    }
}
