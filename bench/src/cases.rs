//! A sequence of direct calls: a target to start with, a memory, and steps. It is kept as text, so that a case can be saved,
//! read and run again.

use crate::calls::Calls;
use crate::guarded::{Guarded, GuardedTarget};
use crate::layout::*;
use std::fmt::Write;

/// One call with its arguments. `lent` is how many bytes of the memory are lent.
#[derive(Clone)]
pub enum Call {
    New(Settings),
    Append(Entry),
    Unlink(u32),
    Search(Entry),
    Put { lent: usize, q: Request, payload: Vec<u8> },
    Get { lent: usize, q: Request, reply: Vec<u8> },
    ReadEvent,
    SetCounter(CounterChange),
    Increment(CounterChange),
    ReadCounter(u64),
    ReadRegister(u64),
    Ready(CounterTest),
    Poll { ks: Vec<u64>, tests: Vec<u64> },
}

/// The names of the calls, in the order of `Call`.
pub const NAMES: [&str; 13] = [
    "new",
    "append",
    "unlink",
    "search",
    "put",
    "get",
    "read_event",
    "set_counter",
    "increment",
    "read_counter",
    "read_register",
    "ready",
    "poll",
];

impl Call {
    pub fn number(&self) -> usize {
        match self {
            Call::New(_) => 0,
            Call::Append(_) => 1,
            Call::Unlink(_) => 2,
            Call::Search(_) => 3,
            Call::Put { .. } => 4,
            Call::Get { .. } => 5,
            Call::ReadEvent => 6,
            Call::SetCounter(_) => 7,
            Call::Increment(_) => 8,
            Call::ReadCounter(_) => 9,
            Call::ReadRegister(_) => 10,
            Call::Ready(_) => 11,
            Call::Poll { .. } => 12,
        }
    }

    /// Whether the call takes the target to read only.
    pub fn only_reads(&self) -> bool {
        matches!(self, Call::ReadCounter(_) | Call::ReadRegister(_) | Call::Ready(_) | Call::Poll { .. })
    }
}

/// Bytes of the target, overwritten before a call.
#[derive(Clone, Copy)]
pub struct Damage {
    pub at: usize,
    pub width: usize,
    pub value: u64,
}

/// A call, on a target that may be damaged first. Where a damaged target gets a refusal, it is put back as it was.
#[derive(Clone)]
pub struct Step {
    pub damage: Vec<Damage>,
    pub call: Call,
}

#[derive(Clone)]
pub struct Case {
    pub start: Box<Target>,
    pub memory: Vec<u8>,
    pub steps: Vec<Step>,
}

/// What a call answered.
#[derive(Clone, Copy)]
pub enum Answer {
    Reply(Reply),
    Event(EventReply),
}

impl Answer {
    pub fn answer(&self) -> u32 {
        match self {
            Answer::Reply(r) => r.answer,
            Answer::Event(r) => r.answer,
        }
    }

    pub fn code(&self) -> u32 {
        match self {
            Answer::Reply(r) => r.code,
            Answer::Event(r) => r.code,
        }
    }

    pub fn is_refusal(&self) -> bool {
        self.answer() == REFUSED
    }
}

/// What one implementation works on, all of it between guards.
#[derive(Clone)]
pub struct Side {
    held: Box<GuardedTarget>,
    pub memory: Guarded<u8>,
    /// the last get's buffer, else empty
    pub reply: Guarded<u8>,
    payload: Guarded<u8>,
    ks: Guarded<u64>,
    tests: Guarded<u64>,
}

impl Side {
    pub fn new(case: &Case) -> Side {
        let nothing = Guarded::new(&[]);
        Side {
            held: GuardedTarget::new(&case.start),
            memory: Guarded::new(&case.memory),
            reply: nothing.clone(),
            payload: nothing,
            ks: Guarded::new(&[]),
            tests: Guarded::new(&[]),
        }
    }

    pub fn target(&self) -> &Target {
        &self.held.target
    }

    pub fn target_mut(&mut self) -> &mut Target {
        &mut self.held.target
    }

    pub fn make<C: Calls>(&mut self, call: &Call) -> Answer {
        let t = &mut self.held.target;
        self.reply.set(&[]);
        Answer::Reply(match call {
            Call::New(s) => C::new(t, *s),
            Call::Append(e) => C::append(t, *e),
            Call::Unlink(handle) => C::unlink(t, *handle),
            Call::Search(e) => C::search(t, *e),
            Call::Put { lent, q, payload } => {
                self.payload.set(payload);
                C::put(t, &mut self.memory.content_mut()[..*lent], *q, self.payload.content())
            }
            Call::Get { lent, q, reply } => {
                self.reply.set(reply);
                C::get(t, &self.memory.content()[..*lent], *q, self.reply.content_mut())
            }
            Call::ReadEvent => return Answer::Event(C::read_event(t)),
            Call::SetCounter(x) => C::set_counter(t, *x),
            Call::Increment(x) => C::increment(t, *x),
            Call::ReadCounter(k) => C::read_counter(t, *k),
            Call::ReadRegister(k) => C::read_register(t, *k),
            Call::Ready(x) => C::ready(t, *x),
            Call::Poll { ks, tests } => {
                self.ks.set(ks);
                self.tests.set(tests);
                C::poll(t, self.ks.content(), self.tests.content())
            }
        })
    }

    /// What is written to that no call may write to: a guard, or a slice that this call was lent to read only.
    pub fn strayed(&self, call: &Call) -> Option<&'static str> {
        let guards = [
            ("the guard of the target", self.held.guards_kept()),
            ("the guard of the memory", self.memory.guards_kept()),
            ("the guard of the reply buffer", self.reply.guards_kept()),
            ("the guard of the payload", self.payload.guards_kept()),
            ("the guard of the counter numbers", self.ks.guards_kept()),
            ("the guard of the tests", self.tests.guards_kept()),
        ];
        guards.into_iter().chain(self.lent_to_read(call)).find(|(_, kept)| !kept).map(|(name, _)| name)
    }

    /// The slices that a call is lent to read only, and whether they are as they were; the memory is compared elsewhere.
    fn lent_to_read(&self, call: &Call) -> [(&'static str, bool); 2] {
        match call {
            Call::Put { payload, .. } => [("the payload", self.payload.holds(payload)), ("", true)],
            Call::Poll { ks, tests } => [("the counter numbers", self.ks.holds(ks)), ("the tests", self.tests.holds(tests))],
            _ => [("", true); 2],
        }
    }

    pub fn damage(&mut self, damage: &[Damage]) {
        for d in damage {
            bytes_mut(self.target_mut())[d.at..d.at + d.width].copy_from_slice(&d.value.to_le_bytes()[..d.width]);
        }
    }
}

/// The target's bytes: it has numbers only and no padding (`library` checks that), so all are initialised.
pub fn bytes(t: &Target) -> &[u8] {
    unsafe { std::slice::from_raw_parts((t as *const Target).cast(), size_of::<Target>()) }
}

/// And any bytes are a target.
pub fn bytes_mut(t: &mut Target) -> &mut [u8] {
    unsafe { std::slice::from_raw_parts_mut((t as *mut Target).cast(), size_of::<Target>()) }
}

// ## The text

pub const TITLE: &str = "gussetreed calls";
const LINE: usize = 32;
/// The longest memory of a case, far beyond the longest of a target.
const MEMORY_MOST: usize = 1 << 20;

pub fn hex(v: &[u8]) -> String {
    if v.is_empty() {
        return "-".to_string();
    }
    v.iter().fold(String::with_capacity(2 * v.len()), |mut s, b| {
        s.push(char::from_digit((b >> 4) as u32, 16).unwrap_or('?'));
        s.push(char::from_digit((b & 15) as u32, 16).unwrap_or('?'));
        s
    })
}

fn list(v: &[u64]) -> String {
    if v.is_empty() {
        return "-".to_string();
    }
    v.iter().map(u64::to_string).collect::<Vec<_>>().join(",")
}

fn entry_text(e: &Entry) -> String {
    format!(
        "{} {} {} {} {} {} {} {} {} {} {} {} {}",
        e.portal, e.list, e.counter, e.options, e.start, e.length, e.minfree, e.uid, e.nid, e.pid, e.matchbits, e.ignorebits, e.user
    )
}

fn request_text(q: &Request) -> String {
    format!("{} {} {} {} {} {} {} {}", q.portal, q.ack, q.nid, q.pid, q.uid, q.matchbits, q.offset, q.hdrdata)
}

fn arguments(call: &Call) -> String {
    match call {
        Call::New(s) => s.size.to_string(),
        Call::Append(e) | Call::Search(e) => entry_text(e),
        Call::Unlink(handle) => handle.to_string(),
        Call::Put { lent, q, payload } => format!("{lent} {} {}", request_text(q), hex(payload)),
        Call::Get { lent, q, reply } => format!("{lent} {} {}", request_text(q), hex(reply)),
        Call::ReadEvent => String::new(),
        Call::SetCounter(x) | Call::Increment(x) => format!("{} {} {}", x.counter, x.success, x.failure),
        Call::ReadCounter(k) | Call::ReadRegister(k) => k.to_string(),
        Call::Ready(x) => format!("{} {}", x.counter, x.test),
        Call::Poll { ks, tests } => format!("{} {}", list(ks), list(tests)),
    }
}

/// A call as its line in a case.
pub fn call_text(call: &Call) -> String {
    format!("{} {}", NAMES[call.number()], arguments(call)).trim_end().to_string()
}

pub fn damage_text(d: &Damage) -> String {
    format!("damage {} {} {}", d.at, d.width, d.value)
}

impl Step {
    /// Its lines in a case.
    pub fn text(&self) -> String {
        let damage: String = self.damage.iter().map(|d| damage_text(d) + "\n").collect();
        format!("{damage}{}\n", call_text(&self.call))
    }
}

/// Only the lines that are not all 0.
fn bytes_text(s: &mut String, v: &[u8]) {
    for (i, line) in v.chunks(LINE).enumerate() {
        if line.iter().any(|b| *b != 0) {
            let _ = writeln!(s, "at {} {}", i * LINE, hex(line));
        }
    }
}

impl Case {
    pub fn text(&self) -> String {
        let mut s = format!(
            "{TITLE}\n\
             # A memory and a target to start with, as the bytes that are not 0; then the calls, a line each. Numbers stand in the\n\
             # order of the structs' fields. put and get: first how many bytes of the memory are lent, last the payload or the\n\
             # reply buffer in hex. damage PLACE WIDTH VALUE overwrites bytes of the target before the call that follows; a\n\
             # damaged target that gets a refusal is put back as it was.\n"
        );
        let _ = writeln!(s, "memory {}", self.memory.len());
        bytes_text(&mut s, &self.memory);
        let _ = writeln!(s, "target {}", size_of::<Target>());
        bytes_text(&mut s, bytes(&self.start));
        s.extend(self.steps.iter().map(Step::text));
        s
    }

    pub fn parse(text: &str) -> Result<Case, String> {
        let mut reader = Reader::new();
        for (i, line) in text.lines().enumerate() {
            reader.line(i, line.trim()).map_err(|e| format!("line {}: {e}", i + 1))?;
        }
        if !reader.damage.is_empty() {
            return Err("damage behind the last call".to_string());
        }
        Ok(reader.case)
    }
}

/// Of what the bytes behind `at` are.
enum Part {
    None,
    Memory,
    Target,
}

struct Reader {
    case: Case,
    part: Part,
    damage: Vec<Damage>,
    /// the lines `memory` and `target` that are still to come
    due: Vec<&'static str>,
}

/// The words of a line behind its first.
struct Words<'a>(std::str::SplitWhitespace<'a>);

impl<'a> Words<'a> {
    fn word(&mut self) -> Result<&'a str, String> {
        self.0.next().ok_or_else(|| "too short".to_string())
    }
    fn number<T: std::str::FromStr>(&mut self) -> Result<T, String> {
        let w = self.word()?;
        w.parse().map_err(|_| format!("{w} is no number that fits here"))
    }
    fn bytes(&mut self) -> Result<Vec<u8>, String> {
        let w = self.word()?;
        if w == "-" {
            return Ok(Vec::new());
        }
        let digits: Option<Vec<u32>> = w.chars().map(|c| c.to_digit(16)).collect();
        let digits = digits.filter(|d| d.len() % 2 == 0).ok_or("not bytes in hex")?;
        Ok(digits.chunks_exact(2).map(|d| (16 * d[0] + d[1]) as u8).collect())
    }
    fn list(&mut self) -> Result<Vec<u64>, String> {
        let w = self.word()?;
        if w == "-" {
            return Ok(Vec::new());
        }
        w.split(',').map(|k| k.parse().map_err(|_| format!("{k} is no number that fits here"))).collect()
    }
    fn entry(&mut self) -> Result<Entry, String> {
        Ok(Entry {
            portal: self.number()?,
            list: self.number()?,
            counter: self.number()?,
            options: self.number()?,
            start: self.number()?,
            length: self.number()?,
            minfree: self.number()?,
            uid: self.number()?,
            nid: self.number()?,
            pid: self.number()?,
            matchbits: self.number()?,
            ignorebits: self.number()?,
            user: self.number()?,
        })
    }
    fn request(&mut self) -> Result<Request, String> {
        Ok(Request {
            portal: self.number()?,
            ack: self.number()?,
            nid: self.number()?,
            pid: self.number()?,
            uid: self.number()?,
            matchbits: self.number()?,
            offset: self.number()?,
            hdrdata: self.number()?,
        })
    }
    fn change(&mut self) -> Result<CounterChange, String> {
        Ok(CounterChange { counter: self.number()?, success: self.number()?, failure: self.number()? })
    }
    /// How many bytes are lent, of a memory of `size`.
    fn lent(&mut self, size: usize) -> Result<usize, String> {
        let lent = self.number()?;
        if lent > size {
            return Err(format!("{lent} bytes lent of a memory of {size}"));
        }
        Ok(lent)
    }
    fn call(&mut self, name: &str, memory: usize) -> Result<Call, String> {
        Ok(match name {
            "new" => Call::New(Settings { size: self.number()? }),
            "append" => Call::Append(self.entry()?),
            "unlink" => Call::Unlink(self.number()?),
            "search" => Call::Search(self.entry()?),
            "put" => Call::Put { lent: self.lent(memory)?, q: self.request()?, payload: self.bytes()? },
            "get" => Call::Get { lent: self.lent(memory)?, q: self.request()?, reply: self.bytes()? },
            "read_event" => Call::ReadEvent,
            "set_counter" => Call::SetCounter(self.change()?),
            "increment" => Call::Increment(self.change()?),
            "read_counter" => Call::ReadCounter(self.number()?),
            "read_register" => Call::ReadRegister(self.number()?),
            "ready" => Call::Ready(CounterTest { counter: self.number()?, test: self.number()? }),
            "poll" => Call::Poll { ks: self.list()?, tests: self.list()? },
            _ => return Err(format!("no call has the name {name}")),
        })
    }
}

impl Reader {
    fn new() -> Reader {
        let case = Case { start: zero_target(), memory: Vec::new(), steps: Vec::new() };
        Reader { case, part: Part::None, damage: Vec::new(), due: vec!["memory", "target"] }
    }

    fn line(&mut self, i: usize, line: &str) -> Result<(), String> {
        if i == 0 {
            return if line == TITLE { Ok(()) } else { Err(format!("not {TITLE}")) };
        }
        if line.is_empty() || line.starts_with('#') {
            return Ok(());
        }
        let mut words = Words(line.split_whitespace());
        match words.word()? {
            "memory" => self.memory(&mut words)?,
            "target" => self.target(&mut words)?,
            "at" => self.bytes(&mut words)?,
            "damage" => self.one_damage(&mut words)?,
            name => self.step(name, &mut words)?,
        }
        match words.0.next() {
            Some(w) => Err(format!("{w} is one word too many")),
            None => Ok(()),
        }
    }

    /// `memory` and `target` stand once, before the calls.
    fn once(&mut self, name: &str) -> Result<(), String> {
        if !self.case.steps.is_empty() || !self.damage.is_empty() {
            return Err(format!("{name} behind a call or damage"));
        }
        let i = self.due.iter().position(|due| *due == name).ok_or(format!("{name} a second time"))?;
        self.due.remove(i);
        Ok(())
    }

    fn memory(&mut self, words: &mut Words) -> Result<(), String> {
        self.once("memory")?;
        let n: usize = words.number()?;
        if n > MEMORY_MOST {
            return Err(format!("a memory of {n} bytes; {MEMORY_MOST} are the most"));
        }
        self.case.memory = vec![0; n];
        self.part = Part::Memory;
        Ok(())
    }

    fn target(&mut self, words: &mut Words) -> Result<(), String> {
        self.once("target")?;
        let n: usize = words.number()?;
        if n != size_of::<Target>() {
            return Err(format!("a target of {n} bytes; here it has {}", size_of::<Target>()));
        }
        self.part = Part::Target;
        Ok(())
    }

    fn bytes(&mut self, words: &mut Words) -> Result<(), String> {
        let at: usize = words.number()?;
        let v = words.bytes()?;
        let to = match self.part {
            Part::None => return Err("not behind memory or target".to_string()),
            Part::Memory => &mut self.case.memory[..],
            Part::Target => bytes_mut(&mut self.case.start),
        };
        let end = at.checked_add(v.len());
        let part = end.and_then(|end| to.get_mut(at..end)).ok_or("beyond the end")?;
        part.copy_from_slice(&v);
        Ok(())
    }

    fn one_damage(&mut self, words: &mut Words) -> Result<(), String> {
        let d = Damage { at: words.number()?, width: words.number()?, value: words.number()? };
        if d.width > 8 {
            return Err("wider than 8 bytes".to_string());
        }
        if d.at.checked_add(d.width).is_none_or(|end| end > size_of::<Target>()) {
            return Err("beyond the target".to_string());
        }
        self.part = Part::None;
        self.damage.push(d);
        Ok(())
    }

    fn step(&mut self, name: &str, words: &mut Words) -> Result<(), String> {
        let call = words.call(name, self.case.memory.len())?;
        self.part = Part::None;
        self.case.steps.push(Step { damage: std::mem::take(&mut self.damage), call });
        Ok(())
    }
}
