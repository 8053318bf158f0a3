//! "Script and printout": runs a call script against any implementation of the calls.

use std::fmt::Write;

use crate::calls::Calls;
use crate::layout::*;
use crate::plain::EMPTY;

const FILE_MAX: usize = 32_768;
const CALLS_MAX: usize = 1_024;
/// The program's memory, of which the head's memory field is used; also a get's longest reply.
const MEMORY: usize = 16_384;
const HEAD: usize = 8;
const LINE: usize = 8;
const ENTRY: usize = 56;
const REQUEST: usize = 48;

/// Why a file is bad.
enum Bad {
    Head,
    Call(usize),
}

/// A call of the script.
enum Call<'a> {
    Append(Entry),
    Unlink(u32),
    Put(Request, &'a [u8]),
    Get(Request, usize),
    ReadEvent,
    ReadCounter(u64),
    Set(CounterChange),
    Increment(CounterChange),
    Search(Entry),
    ReadRegister(u64),
}

/// Runs a script: the whole printout.
pub fn run<C: Calls>(file: &[u8]) -> String {
    let mut out = String::new();
    match read(file) {
        Ok((memory, calls)) => execute::<C>(memory, &calls, &mut out),
        Err(Bad::Head) => out.push_str("BAD_SCRIPT HEAD\n"),
        Err(Bad::Call(n)) => writeln!(out, "BAD_SCRIPT {n}").unwrap(),
    }
    out
}

// ---- Reading

fn u16_at(b: &[u8], i: usize) -> u16 {
    u16::from_le_bytes(b[i..i + 2].try_into().unwrap())
}

fn u32_at(b: &[u8], i: usize) -> u32 {
    u32::from_le_bytes(b[i..i + 4].try_into().unwrap())
}

fn u64_at(b: &[u8], i: usize) -> u64 {
    u64::from_le_bytes(b[i..i + 8].try_into().unwrap())
}

/// Judges the whole file: the memory's size and the calls.
fn read(file: &[u8]) -> Result<(usize, Vec<Call<'_>>), Bad> {
    if file.len() > FILE_MAX || file.len() < HEAD {
        return Err(Bad::Head);
    }
    let count = usize::from(u16_at(file, 0));
    let memory = u32_at(file, 4) as usize;
    let bodies = HEAD + LINE * count;
    if count > CALLS_MAX || u16_at(file, 2) != 0 || memory > MEMORY || file.len() < bodies {
        return Err(Bad::Head);
    }
    let contents = &file[HEAD..bodies];
    let lengths = contents.chunks_exact(LINE).map(|line| usize::from(u16_at(line, 2)));
    if file.len() > bodies + lengths.sum::<usize>() {
        return Err(Bad::Head);
    }
    let mut place = bodies;
    let mut calls = Vec::with_capacity(count);
    for (n, line) in contents.chunks_exact(LINE).enumerate() {
        let length = usize::from(u16_at(line, 2));
        let call = if line[1] == 0 && u32_at(line, 4) as usize == place {
            file.get(place..place + length).and_then(|body| call(line[0], body))
        } else {
            None
        };
        calls.push(call.ok_or(Bad::Call(n))?);
        place += length;
    }
    Ok((memory, calls))
}

/// One call: none for an unknown kind, a zero that is not, a body of wrong length or a get too long.
fn call(kind: u8, body: &[u8]) -> Option<Call<'_>> {
    match kind {
        1 => Some(Call::Append(entry(body)?)),
        2 if body.len() == 4 => Some(Call::Unlink(u32_at(body, 0))),
        3 => {
            let (request, length) = request(body)?;
            let payload = &body[REQUEST..];
            (payload.len() == length).then_some(Call::Put(request, payload))
        }
        4 => {
            let (request, length) = request(body)?;
            let good = body.len() == REQUEST && request.ack == 0 && request.hdrdata == 0 && length <= MEMORY;
            good.then_some(Call::Get(request, length))
        }
        5 if body.is_empty() => Some(Call::ReadEvent),
        6 if body.len() == 1 => Some(Call::ReadCounter(u64::from(body[0]))),
        7 => Some(Call::Set(change(body)?)),
        8 => Some(Call::Increment(change(body)?)),
        9 => Some(Call::Search(entry(body)?)),
        10 if body.len() == 1 => Some(Call::ReadRegister(u64::from(body[0]))),
        _ => None,
    }
}

fn entry(b: &[u8]) -> Option<Entry> {
    if b.len() != ENTRY || b[3] != 0 {
        return None;
    }
    Some(Entry {
        portal: u16::from(b[0]),
        list: b[1],
        counter: b[2],
        options: u32_at(b, 4),
        start: u32_at(b, 8),
        length: u32_at(b, 12),
        minfree: u32_at(b, 16),
        uid: u32_at(b, 20),
        nid: u32_at(b, 24),
        pid: u32_at(b, 28),
        matchbits: u64_at(b, 32),
        ignorebits: u64_at(b, 40),
        user: u64_at(b, 48),
    })
}

/// A request and its length field.
fn request(b: &[u8]) -> Option<(Request, usize)> {
    if b.len() < REQUEST || u16_at(b, 2) != 0 || u32_at(b, 36) != 0 {
        return None;
    }
    let request = Request {
        portal: u16::from(b[0]),
        ack: u16::from(b[1]),
        nid: u32_at(b, 4),
        pid: u32_at(b, 8),
        uid: u32_at(b, 12),
        matchbits: u64_at(b, 16),
        offset: u64_at(b, 24),
        hdrdata: u64_at(b, 40),
    };
    Some((request, u32_at(b, 32) as usize))
}

fn change(b: &[u8]) -> Option<CounterChange> {
    (b.len() == 17).then(|| CounterChange { counter: u64::from(b[0]), success: u64_at(b, 1), failure: u64_at(b, 9) })
}

// ---- Running and printing

fn execute<C: Calls>(size: usize, calls: &[Call<'_>], out: &mut String) {
    let mut store = [0; MEMORY];
    let memory = &mut store[..size];
    let mut t = EMPTY;
    C::new(&mut t, Settings { size: size as u32 });
    for (n, call) in calls.iter().enumerate() {
        write!(out, "{n} ").unwrap();
        match *call {
            Call::Append(e) => print(out, &C::append(&mut t, e)),
            Call::Unlink(handle) => print(out, &C::unlink(&mut t, handle)),
            Call::Put(q, payload) => print(out, &C::put(&mut t, memory, q, payload)),
            Call::Get(q, length) => {
                let mut buffer = [0; MEMORY];
                let r = C::get(&mut t, memory, q, &mut buffer[..length]);
                print(out, &r);
                if r.answer == PRIORITY || r.answer == OVERFLOW {
                    // a wrong implementation may say that it accepted more than was asked for
                    print_bytes(out, &buffer[..length.min(r.value as usize)]);
                }
            }
            Call::ReadEvent => print_event(out, &C::read_event(&mut t)),
            Call::ReadCounter(k) => print(out, &C::read_counter(&t, k)),
            Call::Set(x) => print(out, &C::set_counter(&mut t, x)),
            Call::Increment(x) => print(out, &C::increment(&mut t, x)),
            Call::Search(e) => print(out, &C::search(&mut t, e)),
            Call::ReadRegister(k) => print(out, &C::read_register(&t, k)),
        }
        out.push('\n');
    }
}

fn print(out: &mut String, r: &Reply) {
    match r.answer {
        REFUSED => print_refusal(out, r.code),
        LINKED => write!(out, "LINKED {}", r.value),
        TAKEN => write!(out, "TAKEN"),
        DONE => write!(out, "DONE"),
        SEARCHED => write!(out, "SEARCHED {}", r.value),
        PRIORITY => write!(out, "PRIORITY {} {} {}", r.value, r.second, r.code),
        OVERFLOW => write!(out, "OVERFLOW {} {} {}", r.value, r.second, r.code),
        DROPPED => write!(out, "DROPPED {}", r.code),
        PERM => write!(out, "PERM {}", r.code),
        OP => write!(out, "OP {}", r.code),
        COUNTER => write!(out, "COUNTER {} {}", r.value, r.second),
        REGISTER => write!(out, "REGISTER {}", r.value),
        // No call of a script answers so; a wrong implementation shows here.
        other => write!(out, "UNKNOWN {other}"),
    }
    .unwrap()
}

fn print_refusal(out: &mut String, code: u32) -> std::fmt::Result {
    let name = match code {
        1 => "BAD_STATE",
        2 => "BAD_MEMORY",
        3 => "ARG_INVALID",
        4 => "NO_SPACE",
        5 => "IN_USE",
        _ => "UNKNOWN",
    };
    write!(out, "REFUSED {name}")
}

/// A get's accepted bytes.
fn print_bytes(out: &mut String, bytes: &[u8]) {
    out.push_str(if bytes.is_empty() { " -" } else { " " });
    for b in bytes {
        write!(out, "{b:02x}").unwrap();
    }
}

fn print_event(out: &mut String, r: &EventReply) {
    match r.answer {
        EVENT => {
            let e = &r.event;
            let kind = match e.kind {
                0 => "LINK",
                1 => "PUT",
                2 => "GET",
                3 => "PUT_OVERFLOW",
                4 => "GET_OVERFLOW",
                5 => "SEARCH",
                6 => "AUTO_UNLINK",
                _ => "AUTO_FREE",
            };
            let fail = if e.fail == 0 { "OK" } else { "NO_MATCH" };
            write!(out, "EVENT {kind} {fail} {} {} {} {} {} ", e.portal, e.list, e.nid, e.pid, e.uid).unwrap();
            write!(out, "{} {} {} {} {} ", e.matchbits, e.requested, e.accepted, e.offset, e.place).unwrap();
            write!(out, "{} {} {}", e.hdrdata, e.user, e.gap)
        }
        NONE => write!(out, "NONE"),
        REFUSED => print_refusal(out, r.code),
        other => write!(out, "UNKNOWN {other}"),
    }
    .unwrap()
}
