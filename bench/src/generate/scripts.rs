//! Random scripts: good ones, and damaged ones.

use super::Chooser;
use crate::layout::*;
use crate::random::Random;

const FILE_MAX: usize = 32_768;
const CALLS_MAX: usize = 1_024;
const MEMORY_MAX: u32 = 16_384;
/// The file's head, a line of its contents, and the body of a request without payload.
const HEAD: usize = 8;
const LINE: usize = 8;
const REQUEST: usize = 48;
/// The calls with short bodies, by their numbers in `cases::NAMES`, and their longest.
const SHORT: [usize; 6] = [2, 6, 7, 8, 9, 10];
const SHORT_MAX: usize = 17;

/// A call of a script: its kind, and its body.
#[derive(Clone)]
pub struct Line {
    pub kind: u8,
    pub body: Vec<u8>,
}

/// A script as its parts.
#[derive(Clone)]
pub struct Script {
    pub memory: u32,
    pub lines: Vec<Line>,
}

impl Script {
    pub fn file(&self) -> Vec<u8> {
        let mut f = Vec::new();
        f.extend((self.lines.len() as u16).to_le_bytes());
        f.extend([0, 0]);
        f.extend(self.memory.to_le_bytes());
        let mut place = 8 + 8 * self.lines.len() as u32;
        for line in &self.lines {
            f.extend([line.kind, 0]);
            f.extend((line.body.len() as u16).to_le_bytes());
            f.extend(place.to_le_bytes());
            place += line.body.len() as u32;
        }
        for line in &self.lines {
            f.extend(&line.body);
        }
        f
    }

    /// The parts of a file, if it is put together as its head and contents say.
    pub fn of(file: &[u8]) -> Option<Script> {
        let two = |i: usize| Some(u16::from_le_bytes(file.get(i..i + 2)?.try_into().ok()?));
        let four = |i: usize| Some(u32::from_le_bytes(file.get(i..i + 4)?.try_into().ok()?));
        let count = two(0)? as usize;
        let mut place = 8 + 8 * count;
        let mut script = Script { memory: four(4)?, lines: Vec::new() };
        for i in 0..count {
            let length = two(8 + 8 * i + 2)? as usize;
            script.lines.push(Line { kind: *file.get(8 + 8 * i)?, body: file.get(place..place + length)?.to_vec() });
            place += length;
        }
        (script.file() == file).then_some(script)
    }
}

fn entry_body(e: &Entry) -> Vec<u8> {
    let mut b = vec![e.portal as u8, e.list, e.counter, 0];
    for n in [e.options, e.start, e.length, e.minfree, e.uid, e.nid, e.pid] {
        b.extend(n.to_le_bytes());
    }
    for n in [e.matchbits, e.ignorebits, e.user] {
        b.extend(n.to_le_bytes());
    }
    b
}

fn request_body(q: &Request, length: u32) -> Vec<u8> {
    let mut b = vec![q.portal as u8, q.ack as u8, 0, 0];
    for n in [q.nid, q.pid, q.uid] {
        b.extend(n.to_le_bytes());
    }
    for n in [q.matchbits, q.offset] {
        b.extend(n.to_le_bytes());
    }
    b.extend(length.to_le_bytes());
    b.extend([0; 4]);
    b.extend(q.hdrdata.to_le_bytes());
    b
}

struct Maker {
    c: Chooser,
    memory: u32,
    /// at most so many entries were linked
    appended: u32,
}

impl Maker {
    fn counter(&mut self) -> u8 {
        if self.c.bad() {
            self.c.r.pick(&[16, 17, 255])
        } else {
            self.c.r.pick(&[0, 1, 7, 15, 2])
        }
    }

    fn handle(&mut self) -> u32 {
        if self.c.bad() {
            return self.c.r.pick(&[0, u32::MAX, self.appended + 1]);
        }
        1 + self.c.r.below(self.appended.max(1) as u64) as u32
    }

    fn change(&mut self) -> Vec<u8> {
        let k = self.counter();
        let x = self.c.change(k.into());
        let mut b = vec![k];
        b.extend(x.success.to_le_bytes());
        b.extend(x.failure.to_le_bytes());
        b
    }

    fn put(&mut self) -> Vec<u8> {
        let n = self.c.length(self.memory.min(2_000));
        self.put_of(n)
    }

    fn put_of(&mut self, n: usize) -> Vec<u8> {
        let q = self.c.request(self.memory);
        let mut b = request_body(&q, n as u32);
        b.extend(self.c.r.bytes(n));
        b
    }

    fn get(&mut self) -> Vec<u8> {
        let longest = self.c.r.one_in(30);
        let n = if longest { MEMORY_MAX as usize } else { self.c.length(self.memory.min(MEMORY_MAX - 1)) };
        let q = Request { ack: 0, hdrdata: 0, ..self.c.request(self.memory) };
        request_body(&q, n as u32)
    }

    /// The call of a number of `cases::NAMES`; a script has no new, ready and poll, and an event read stands for them.
    fn line(&mut self, number: usize) -> Line {
        let (kind, body) = match number {
            1 => {
                self.appended += 1;
                (1, entry_body(&self.c.appended(self.memory)))
            }
            2 => (2, self.handle().to_le_bytes().to_vec()),
            3 => (9, entry_body(&self.c.searched(self.memory))),
            4 => (3, self.put()),
            5 => (4, self.get()),
            7 => (7, self.change()),
            8 => (8, self.change()),
            9 => (6, vec![self.counter()]),
            10 => (10, vec![if self.c.bad() { self.c.r.pick(&[3, 4, 255]) } else { self.c.r.below(3) as u8 }]),
            _ => (5, Vec::new()),
        };
        Line { kind, body }
    }
}

fn calls(r: &mut Random) -> usize {
    match r.below(20) {
        0 => r.index(4),
        1 => CALLS_MAX,
        2..=5 => 200 + r.index(300),
        _ => 10 + r.index(120),
    }
}

impl Maker {
    fn new(mut r: Random) -> Maker {
        let memory = r.pick(&[0, 1, 16, 16, 64, 64, 256, 1_000, 4_096, MEMORY_MAX]);
        Maker { c: Chooser::new(r), memory, appended: 0 }
    }

    fn any_line(&mut self) -> Line {
        let number = self.c.kind();
        self.line(number)
    }

    /// Up to so many calls, as long as a file has room for them and `spare` bytes more.
    fn lines(&mut self, count: usize, spare: usize) -> Vec<Line> {
        let mut lines = Vec::new();
        let mut length = HEAD + spare;
        while lines.len() < count {
            let line = self.any_line();
            length += LINE + line.body.len();
            if length > FILE_MAX {
                break;
            }
            lines.push(line);
        }
        lines
    }

    fn script(self, lines: Vec<Line>) -> Script {
        Script { memory: self.memory, lines }
    }
}

/// A good script. Up to 70 event reads at its end show what is queued.
pub fn good(mut r: Random) -> Script {
    let count = calls(&mut r);
    let mut maker = Maker::new(r);
    let reads = if maker.c.r.one_in(2) { maker.c.r.index(70).min(CALLS_MAX - count) } else { 0 };
    let mut lines = maker.lines(count, LINE * reads);
    lines.extend((0..reads).map(|_| Line { kind: 5, body: Vec::new() }));
    maker.script(lines)
}

/// Just so many calls. Their bodies are short once longer ones would leave no room for the others.
fn long(r: Random, count: usize) -> Script {
    let mut maker = Maker::new(r);
    let mut lines: Vec<Line> = Vec::new();
    let mut room = FILE_MAX - HEAD - count * (LINE + SHORT_MAX);
    while lines.len() < count {
        let mut line = maker.any_line();
        if line.body.len() > room + SHORT_MAX {
            let number = maker.c.r.pick(&SHORT);
            line = maker.line(number);
        }
        room = room + SHORT_MAX - line.body.len();
        lines.push(line);
    }
    maker.script(lines)
}

/// A file of just so many bytes: a last put fills it.
fn full(mut r: Random, size: usize) -> Script {
    let count = calls(&mut r).min(CALLS_MAX - 1);
    let mut maker = Maker::new(r);
    let mut lines = maker.lines(count, LINE + REQUEST);
    let length: usize = lines.iter().map(|l| LINE + l.body.len()).sum();
    let body = maker.put_of(size - HEAD - length - LINE - REQUEST);
    lines.push(Line { kind: 3, body });
    maker.script(lines)
}

/// A script at a limit of the calls or of the file, or beyond it by one.
fn at_limit(mut r: Random) -> Script {
    match r.below(4) {
        0 => long(r, CALLS_MAX),
        1 => long(r, CALLS_MAX + 1),
        2 => full(r, FILE_MAX),
        _ => full(r, FILE_MAX + 1),
    }
}

// ## Damage

fn set(file: &mut [u8], at: usize, bytes: &[u8]) {
    if let Some(part) = file.get_mut(at..at + bytes.len()) {
        part.copy_from_slice(bytes);
    }
}

/// Any byte, the head and the contents more often.
fn some_byte(r: &mut Random, file: &[u8], count: usize) -> usize {
    let front = (8 + 8 * count).min(file.len());
    let end = if r.one_in(2) { front } else { file.len() };
    r.index(end.max(1))
}

/// Where the body of call `i` is.
fn body(script: &Script, i: usize) -> usize {
    8 + 8 * script.lines.len() + script.lines[..i].iter().map(|l| l.body.len()).sum::<usize>()
}

fn damage_contents(r: &mut Random, script: &Script, file: &mut [u8], i: usize) {
    let at = 8 + 8 * i;
    let length = script.lines[i].body.len() as u16;
    let place = body(script, i) as u32;
    match r.below(6) {
        0 => set(file, at, &[r.pick(&[0, 11, 12, 255])]),
        1 => set(file, at, &[1 + r.below(10) as u8]),
        2 => set(file, at + 1, &[r.pick(&[1, 128])]),
        3 => set(file, at + 2, &r.pick(&[length.wrapping_add(1), length.wrapping_sub(1), 0, u16::MAX]).to_le_bytes()),
        _ => set(file, at + 4, &r.pick(&[place.wrapping_add(1), place - 1, 0, u32::MAX, file.len() as u32]).to_le_bytes()),
    }
}

/// A zero that is not, a get too long, a put of another length, an ack or header data in a get.
fn damage_body(r: &mut Random, script: &Script, file: &mut [u8], i: usize) {
    let at = body(script, i);
    match script.lines[i].kind {
        1 | 9 => set(file, at + 3, &[1]),
        3 | 4 => match r.below(5) {
            0 => set(file, at + r.pick(&[2, 3]), &[1]),
            1 => set(file, at + r.pick(&[36, 37, 38, 39]), &[1]),
            2 => set(file, at + 32, &r.pick(&[MEMORY_MAX, MEMORY_MAX + 1, 0, 1, u32::MAX]).to_le_bytes()),
            3 => set(file, at + 1, &[r.pick(&[1, 3, 4])]),
            _ => set(file, at + 40 + r.index(8), &[1]),
        },
        _ => {}
    }
}

fn damage_head(r: &mut Random, script: &Script, file: &mut Vec<u8>) {
    let count = script.lines.len() as u16;
    match r.below(6) {
        0 => set(file, 0, &r.pick(&[count.wrapping_add(1), count.wrapping_sub(1), 0, 1_024, 1_025, u16::MAX]).to_le_bytes()),
        1 => set(file, r.pick(&[2, 3]), &[1]),
        2 => set(file, 4, &r.pick(&[MEMORY_MAX + 1, MEMORY_MAX, u32::MAX, 0]).to_le_bytes()),
        3 => {
            let n = r.index(file.len() + 1);
            file.truncate(n);
        }
        4 => {
            let more = 1 + r.index(9);
            file.extend(r.bytes(more));
        }
        _ => {
            let n = r.pick(&[FILE_MAX, FILE_MAX + 1, 40_000]);
            file.resize(n.max(file.len()), 0);
        }
    }
}

/// A damaged script; by chance it may still be a good one.
pub fn damaged(mut r: Random) -> Vec<u8> {
    let script = good(Random::new(r.word()));
    let mut file = script.file();
    let count = script.lines.len();
    for _ in 0..r.pick(&[1, 1, 1, 2, 3]) {
        let i = r.index(count.max(1));
        match r.below(8) {
            0 | 1 if count > 0 => damage_contents(&mut r, &script, &mut file, i),
            2 | 3 if count > 0 => damage_body(&mut r, &script, &mut file, i),
            4 => damage_head(&mut r, &script, &mut file),
            _ => {
                let at = some_byte(&mut r, &file, count);
                if let Some(b) = file.get_mut(at) {
                    *b ^= 1 << r.below(8);
                }
            }
        }
    }
    file
}

/// Script `n` of a run: good ones, damaged ones, and some at a limit.
pub fn script(seed: u64, n: u64) -> Vec<u8> {
    let mut r = Random::part(seed, n);
    match r.below(30) {
        0 => at_limit(r).file(),
        1..=19 => good(r).file(),
        _ => damaged(r),
    }
}
