//! What was reached: how often each call was made and each answer came.

use crate::cases::{Answer, NAMES};
use crate::layout::*;

/// The answers in the order of their numbers; the first is REFUSED, which the refusals behind them stand for.
pub const OUTCOMES: [&str; 24] = [
    "REFUSED",
    "MADE",
    "LINKED",
    "TAKEN",
    "DONE",
    "SEARCHED",
    "PRIORITY",
    "OVERFLOW",
    "DROPPED",
    "PERM",
    "OP",
    "EVENT",
    "NONE",
    "COUNTER",
    "REGISTER",
    "READY",
    "NOT_READY",
    "REACHED",
    "NONE_REACHED",
    "BAD_STATE",
    "BAD_MEMORY",
    "ARG_INVALID",
    "NO_SPACE",
    "IN_USE",
];
/// A refusal stands so many places behind its number.
pub const REFUSALS: usize = 18;

const EVENTS: [&str; 8] = ["LINK", "PUT", "GET", "PUT_OVERFLOW", "GET_OVERFLOW", "SEARCH", "AUTO_UNLINK", "AUTO_FREE"];

/// Which answers each call can give, by document 01.
const POSSIBLE: [&[&str]; 13] = [
    &["MADE", "ARG_INVALID"],
    &["LINKED", "TAKEN", "BAD_STATE", "ARG_INVALID", "NO_SPACE"],
    &["DONE", "BAD_STATE", "ARG_INVALID", "IN_USE"],
    &["SEARCHED", "BAD_STATE", "ARG_INVALID"],
    &["PRIORITY", "OVERFLOW", "DROPPED", "PERM", "OP", "BAD_STATE", "BAD_MEMORY", "ARG_INVALID"],
    &["PRIORITY", "OVERFLOW", "DROPPED", "PERM", "OP", "BAD_STATE", "BAD_MEMORY", "ARG_INVALID"],
    &["EVENT", "NONE", "BAD_STATE"],
    &["DONE", "BAD_STATE", "ARG_INVALID"],
    &["DONE", "BAD_STATE", "ARG_INVALID"],
    &["COUNTER", "BAD_STATE", "ARG_INVALID"],
    &["REGISTER", "BAD_STATE", "ARG_INVALID"],
    &["READY", "NOT_READY", "BAD_STATE", "ARG_INVALID"],
    &["REACHED", "NONE_REACHED", "BAD_STATE", "ARG_INVALID"],
];

/// The calls by the kinds of a script, from 1.
const SCRIPT_KINDS: [usize; 10] = [1, 2, 4, 5, 6, 9, 7, 8, 3, 10];
/// What a script cannot have: its target is sound and lent the right memory.
const NOT_IN_SCRIPTS: [&str; 2] = ["BAD_STATE", "BAD_MEMORY"];

#[derive(Default)]
pub struct Tally {
    counts: [[u64; OUTCOMES.len()]; NAMES.len()],
    events: [u64; EVENTS.len()],
    no_match: u64,
    gaps: u64,
    pub good_scripts: u64,
    pub bad_heads: u64,
    pub bad_calls: u64,
    pub sequences: u64,
    pub calls: u64,
    pub damaged: u64,
    pub unsound: u64,
    pub differences: u64,
    limits: [u64; LIMITS.len()],
}

/// States at a limit, in which direct calls were made.
const LIMITS: [&str; 7] = [
    "64 slots taken",
    "the last handle given",
    "32 headers waiting",
    "64 events queued",
    "events lost",
    "retired entries",
    "a ring that wraps",
];

fn at_limits(t: &Target) -> [bool; LIMITS.len()] {
    let n = t.queue.slots.len();
    let entries = &t.entries.slots[..t.entries.count.min(t.entries.slots.len())];
    [
        t.entries.count == t.entries.slots.len(),
        t.last == u32::MAX,
        t.unexpected.count == t.unexpected.slots.len(),
        t.queue.count == n,
        t.queue.lost != 0,
        entries.iter().any(|x| x.retired != 0),
        t.queue.count <= n && t.queue.head % n + t.queue.count > n,
    ]
}

/// Names with their counts, those that are 0 only if asked for.
fn counted(counts: &[u64], names: &[&str], zeros: bool) -> String {
    let shown = counts.iter().zip(names).filter(|(n, _)| zeros || **n != 0);
    shown.map(|(n, name)| format!("{name} {n}")).collect::<Vec<_>>().join(", ")
}

fn outcome(a: &Answer) -> usize {
    let n = if a.is_refusal() { REFUSALS + a.code() as usize } else { a.answer() as usize };
    if n < OUTCOMES.len() {
        n
    } else {
        0
    }
}

impl Tally {
    /// A direct call.
    pub fn call(&mut self, call: usize, a: &Answer) {
        self.calls += 1;
        self.counts[call][outcome(a)] += 1;
        // an event with another gap was in the target that a sequence started with
        if let Answer::Event(EventReply { answer: EVENT, event: e @ Event { gap: 0 | 1, .. }, .. }) = a {
            self.events[(e.kind as usize).min(EVENTS.len() - 1)] += 1;
            self.no_match += u64::from(e.fail != 0);
            self.gaps += u64::from(e.gap != 0);
        }
    }

    /// The target that a direct call is made on.
    pub fn state(&mut self, t: &Target) {
        for (count, at) in self.limits.iter_mut().zip(at_limits(t)) {
            *count += u64::from(at);
        }
    }

    /// On which states direct calls were made.
    pub fn states(&self) -> String {
        let limits = counted(&self.limits, &LIMITS, true);
        format!("  {} on a damaged target, {} of them on an unsound one\n  calls with {}\n", self.damaged, self.unsound, limits)
    }

    /// A script and its printout.
    pub fn script(&mut self, file: &[u8], printout: &str) {
        match printout.strip_prefix("BAD_SCRIPT ") {
            Some(rest) if rest.starts_with("HEAD") => self.bad_heads += 1,
            Some(_) => self.bad_calls += 1,
            None => {
                self.good_scripts += 1;
                for (i, line) in printout.lines().enumerate() {
                    self.line(file.get(8 + 8 * i).copied(), line);
                }
            }
        }
    }

    fn line(&mut self, kind: Option<u8>, line: &str) {
        self.calls += 1;
        let Some(&call) = kind.and_then(|k| SCRIPT_KINDS.get(usize::from(k).wrapping_sub(1))) else { return };
        let mut words = line.split(' ').skip(1);
        let mut word = words.next();
        if word == Some("REFUSED") {
            word = words.next();
        }
        let n = OUTCOMES.iter().position(|o| Some(*o) == word).unwrap_or(0);
        self.counts[call][n] += 1;
        if word == Some("EVENT") {
            self.event(words.next(), words.next(), words.last());
        }
    }

    fn event(&mut self, kind: Option<&str>, fail: Option<&str>, gap: Option<&str>) {
        if let Some(n) = EVENTS.iter().position(|e| Some(*e) == kind) {
            self.events[n] += 1;
        }
        self.no_match += u64::from(fail == Some("NO_MATCH"));
        self.gaps += u64::from(gap == Some("1"));
    }

    /// How often each answer of each call came, and which did not come.
    pub fn table(&self, scripts: bool) -> String {
        let calls = (0..NAMES.len()).filter(|call| !scripts || SCRIPT_KINDS.contains(call));
        let rows: String = calls.clone().map(|call| self.row(call)).collect();
        let mut missing: Vec<String> = calls.flat_map(|call| self.missing(call, scripts)).collect();
        missing.extend(self.missing_events());
        let end = match missing.len() {
            0 => "every answer of every call came, and every kind of event".to_string(),
            _ => format!("did not come: {}", missing.join(", ")),
        };
        format!("{rows}{}  {end}\n", self.events_row())
    }

    fn row(&self, call: usize) -> String {
        let row = &self.counts[call];
        format!("  {:<14}{:>11}   {}\n", NAMES[call], row.iter().sum::<u64>(), counted(row, &OUTCOMES, false))
    }

    fn events_row(&self) -> String {
        let kinds = counted(&self.events, &EVENTS, true);
        format!("  events read that calls queued: {kinds}; with NO_MATCH {}, with gap {}\n", self.no_match, self.gaps)
    }

    fn missing_events(&self) -> Vec<String> {
        let kinds = self.events.iter().zip(EVENTS).filter(|(n, _)| **n == 0).map(|(_, e)| format!("event {e}"));
        kinds.chain((self.gaps == 0).then(|| "an event with gap 1".to_string())).collect()
    }

    fn missing(&self, call: usize, scripts: bool) -> Vec<String> {
        let came = |o: &str| OUTCOMES.iter().zip(&self.counts[call]).any(|(p, n)| *p == o && *n != 0);
        let can = |o: &str| !(scripts && NOT_IN_SCRIPTS.contains(&o));
        POSSIBLE[call].iter().filter(|o| can(o) && !came(o)).map(|o| format!("{} {o}", NAMES[call])).collect()
    }
}
