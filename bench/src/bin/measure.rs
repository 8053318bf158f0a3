//! Measures the proved library against plain Rust, in one run.

use gussetreed_bench::calls::Calls;
use gussetreed_bench::layout::*;
use gussetreed_bench::library::Proved;
use gussetreed_bench::plain::{self, Plain, Trusting, ANY, COUNTERS, NO_COUNTER, OP_GET, OP_PUT, USE_ONCE};
use gussetreed_bench::say;
use std::hint::black_box;
use std::process::{exit, ExitCode};
use std::time::{Duration, Instant};
use std::{env, fs};

const HELP: &str = "usage: bin/hosts bench [--markdown]
       bin/hosts bench --help

Measures the calls of the proved library, of plain Rust that tests the state as the library does, and of plain Rust that does not:
nanoseconds a call (or for the calls of a row together), and how many times as long the library takes.

--markdown   the table for a document

Exit status: 0; 2 wrong usage or a call that did not answer as its row says.

Examples:
  bin/hosts bench
  bin/hosts bench --markdown > table.md
";

const ROUNDS: usize = 31;
const ROUND: Duration = Duration::from_millis(2);
const SIZE: u32 = 4_096;
const PAYLOAD: usize = 8;
/// Match bits that no entry of the setup has.
const OTHER: u64 = 1 << 40;
/// The mode of a search that deletes nothing.
const LOOK: u8 = 0;
/// Every counter, in order.
const ALL: [u64; COUNTERS] = [0, 1, 2, 3, 4, 5, 6, 7, 8, 9, 10, 11, 12, 13, 14, 15];

// ## What is called

/// What a row is measured on.
struct Ground {
    target: Box<Target>,
    memory: Vec<u8>,
    buffer: Vec<u8>,
}

fn entry(matchbits: u64, list: u8, options: u32) -> Entry {
    Entry {
        portal: 0,
        list,
        counter: NO_COUNTER,
        options,
        start: 0,
        length: SIZE,
        minfree: 0,
        uid: ANY,
        nid: ANY,
        pid: ANY,
        matchbits,
        ignorebits: 0,
        user: matchbits,
    }
}

fn request(matchbits: u64) -> Request {
    Request { portal: 0, ack: 1, nid: 1, pid: 2, uid: 3, matchbits, offset: 0, hdrdata: 9 }
}

/// A row that does not do what it says is not measured.
fn expect(answer: u32, due: u32) {
    if answer != due {
        eprintln!("measure: a call answered {answer} where {due} is due");
        exit(2);
    }
}

impl Ground {
    fn new() -> Ground {
        let mut target = zero_target();
        expect(plain::new(&mut target, Settings { size: SIZE }).answer, MADE);
        Ground { target, memory: vec![0; SIZE as usize], buffer: vec![7; PAYLOAD] }
    }

    /// `n` priority entries with the match bits 1 to n.
    fn entries(mut self, n: u64) -> Ground {
        for bits in 1..=n {
            self.link(entry(bits, 0, OP_PUT | OP_GET));
        }
        self
    }

    /// An overflow entry that takes any request, and `n` headers in it, with match bits from OTHER on.
    fn waiting(mut self, n: u64) -> Ground {
        self.link(Entry { ignorebits: u64::MAX, ..entry(0, 1, OP_PUT | OP_GET) });
        for i in 0..n {
            expect(plain::put::<true>(&mut self.target, &mut self.memory, request(OTHER + i), &self.buffer).answer, OVERFLOW);
            self.no_events();
        }
        self
    }

    fn link(&mut self, e: Entry) {
        expect(plain::append::<true>(&mut self.target, e).answer, LINKED);
        self.no_events();
    }

    /// 32 events of puts in the queue.
    fn queued(mut self) -> Ground {
        for _ in 0..32 {
            expect(plain::put::<true>(&mut self.target, &mut self.memory, request(1), &self.buffer).answer, PRIORITY);
        }
        self
    }

    fn no_events(&mut self) {
        self.target.queue.count = 0;
        self.target.queue.head = 0;
    }

    fn put<C: Calls>(&mut self, bits: u64) -> Reply {
        C::put(black_box(&mut self.target), black_box(&mut self.memory), black_box(request(bits)), black_box(&self.buffer))
    }

    fn get<C: Calls>(&mut self, bits: u64) -> Reply {
        C::get(black_box(&mut self.target), black_box(&self.memory), black_box(request(bits)), black_box(&mut self.buffer))
    }

    fn append<C: Calls>(&mut self, e: Entry) -> Reply {
        C::append(black_box(&mut self.target), black_box(e))
    }
}

/// What a row calls, of an implementation.
trait Work: Copy {
    fn ground(&self) -> Ground;
    /// Once; the answer and what it should be.
    fn once<C: Calls>(&self, g: &mut Ground) -> (u32, u32);
}

/// With a payload of so many bytes.
#[derive(Clone, Copy)]
struct Put {
    entries: u64,
    bits: u64,
    payload: usize,
    answer: u32,
}

impl Work for Put {
    fn ground(&self) -> Ground {
        let g = Ground::new().entries(self.entries);
        Ground { buffer: vec![7; self.payload], ..g }
    }
    fn once<C: Calls>(&self, g: &mut Ground) -> (u32, u32) {
        g.no_events();
        (g.put::<C>(self.bits).answer, self.answer)
    }
}

#[derive(Clone, Copy)]
struct Get(u64);

impl Work for Get {
    fn ground(&self) -> Ground {
        Ground::new().entries(self.0)
    }
    fn once<C: Calls>(&self, g: &mut Ground) -> (u32, u32) {
        g.no_events();
        (g.get::<C>(self.0).answer, PRIORITY)
    }
}

#[derive(Clone, Copy)]
struct AppendUnlink(u64);

impl Work for AppendUnlink {
    fn ground(&self) -> Ground {
        Ground::new().entries(self.0)
    }
    fn once<C: Calls>(&self, g: &mut Ground) -> (u32, u32) {
        g.no_events();
        let handle = g.append::<C>(entry(OTHER, 0, OP_PUT)).value as u32;
        (C::unlink(black_box(&mut g.target), black_box(handle)).answer, DONE)
    }
}

/// With so many other headers waiting.
#[derive(Clone, Copy)]
struct EarlyTaken(u64);

impl Work for EarlyTaken {
    fn ground(&self) -> Ground {
        Ground::new().waiting(self.0)
    }
    fn once<C: Calls>(&self, g: &mut Ground) -> (u32, u32) {
        g.no_events();
        black_box(g.put::<C>(1));
        (g.append::<C>(entry(1, 0, OP_PUT | USE_ONCE)).answer, TAKEN)
    }
}

/// A looking search that none of so many waiting headers fits.
#[derive(Clone, Copy)]
struct Look(u64);

impl Work for Look {
    fn ground(&self) -> Ground {
        Ground::new().waiting(self.0)
    }
    fn once<C: Calls>(&self, g: &mut Ground) -> (u32, u32) {
        g.no_events();
        let reply = C::search(black_box(&mut g.target), black_box(entry(1, LOOK, OP_PUT)));
        (if reply.value == 0 { reply.answer } else { REFUSED }, SEARCHED)
    }
}

#[derive(Clone, Copy)]
struct EventRead;

impl Work for EventRead {
    fn ground(&self) -> Ground {
        Ground::new().entries(1).queued()
    }
    fn once<C: Calls>(&self, g: &mut Ground) -> (u32, u32) {
        g.target.queue.head = 0;
        g.target.queue.count = 32;
        (black_box(C::read_event(black_box(&mut g.target))).answer, EVENT)
    }
}

#[derive(Clone, Copy)]
struct Increment;

impl Work for Increment {
    fn ground(&self) -> Ground {
        Ground::new()
    }
    fn once<C: Calls>(&self, g: &mut Ground) -> (u32, u32) {
        (C::increment(black_box(&mut g.target), black_box(CounterChange { counter: 3, success: 1, failure: 0 })).answer, DONE)
    }
}

#[derive(Clone, Copy)]
struct Ready;

impl Work for Ready {
    fn ground(&self) -> Ground {
        Ground::new()
    }
    fn once<C: Calls>(&self, g: &mut Ground) -> (u32, u32) {
        (C::ready(black_box(&g.target), black_box(CounterTest { counter: 3, test: 1 })).answer, NOT_READY)
    }
}

/// Over all counters; none has reached its test.
#[derive(Clone, Copy)]
struct Poll;

impl Work for Poll {
    fn ground(&self) -> Ground {
        Ground::new()
    }
    fn once<C: Calls>(&self, g: &mut Ground) -> (u32, u32) {
        (C::poll(black_box(&g.target), black_box(&ALL), black_box(&[1; COUNTERS])).answer, NONE_REACHED)
    }
}

/// With so many entries: all in the priority list, or one of them in the overflow list with 32 headers waiting.
#[derive(Clone, Copy)]
struct RegisterRead {
    entries: u64,
    waiting: bool,
}

impl RegisterRead {
    fn ground(self) -> Ground {
        let others = self.entries - u64::from(self.waiting);
        let g = Ground::new().entries(others);
        if self.waiting {
            g.waiting(32)
        } else {
            g
        }
    }
}

impl Work for RegisterRead {
    fn ground(&self) -> Ground {
        RegisterRead::ground(*self)
    }
    fn once<C: Calls>(&self, g: &mut Ground) -> (u32, u32) {
        (C::read_register(black_box(&g.target), black_box(0)).answer, REGISTER)
    }
}

// ## The measuring

type Timed = Box<dyn FnMut(usize) -> Duration>;

fn timed<W: Work + 'static, C: Calls>(work: W) -> Timed {
    let mut g = work.ground();
    let (answer, due) = work.once::<C>(&mut g);
    expect(answer, due);
    Box::new(move |calls| {
        let start = Instant::now();
        for _ in 0..calls {
            black_box(work.once::<C>(&mut g));
        }
        start.elapsed()
    })
}

#[inline(never)]
fn sound(t: &Target) -> bool {
    plain::sound(t)
}

fn timed_sound(work: RegisterRead) -> Timed {
    let g = work.ground();
    Box::new(move |calls| {
        let start = Instant::now();
        for _ in 0..calls {
            black_box(sound(black_box(&g.target)));
        }
        start.elapsed()
    })
}

struct Row {
    name: String,
    /// proved, plain that tests the state, plain that does not
    sides: [Option<Timed>; 3],
}

fn row<W: Work + 'static>(name: impl Into<String>, work: W) -> Row {
    let sides = [timed::<W, Proved>(work), timed::<W, Plain>(work), timed::<W, Trusting>(work)];
    Row { name: name.into(), sides: sides.map(Some) }
}

fn rows() -> Vec<Row> {
    let mut all = Vec::new();
    for depth in [1, 16, 63] {
        let work = Put { entries: depth, bits: depth, payload: PAYLOAD, answer: PRIORITY };
        all.push(row(format!("put, entry {depth} of {depth} matches"), work));
    }
    all.push(row("put, none of 63 entries matches: dropped", Put { entries: 63, bits: OTHER, payload: PAYLOAD, answer: DROPPED }));
    let full = Put { entries: 1, bits: 1, payload: SIZE as usize, answer: PRIORITY };
    all.push(row(format!("put of {SIZE} bytes, entry 1 of 1 matches"), full));
    for depth in [1, 16, 63] {
        all.push(row(format!("get, entry {depth} of {depth} matches"), Get(depth)));
    }
    for others in [0, 62] {
        all.push(row(format!("append and unlink, {others} other entries"), AppendUnlink(others)));
    }
    for others in [0, 31] {
        all.push(row(format!("put to overflow and append that takes it, {others} other headers"), EarlyTaken(others)));
    }
    for waiting in [0, 31] {
        all.push(row(format!("search that looks, none of {waiting} headers fits"), Look(waiting)));
    }
    all.push(row("event read, 32 queued", EventRead));
    all.push(row("counter increment, empty target", Increment));
    all.push(row("ready, empty target: not ready", Ready));
    all.push(row("poll over 16 counters, empty target: none reached", Poll));
    for (name, entries, waiting) in [("empty target", 0, false), ("63 entries", 63, false), ("63 entries, 32 headers", 63, true)] {
        let work = RegisterRead { entries, waiting };
        all.push(row(format!("register read, {name}"), work));
        all.push(Row { name: format!("test of the state alone, {name}"), sides: [None, Some(timed_sound(work)), None] });
    }
    all
}

/// So many calls last about a round.
fn calls_a_round(run: &mut Timed) -> usize {
    let mut calls = 16;
    loop {
        let took = run(calls);
        if took >= ROUND / 4 {
            return ((calls as f64 * ROUND.as_secs_f64() / took.as_secs_f64()) as usize).max(1);
        }
        calls *= 2;
    }
}

fn median(v: &mut [f64]) -> f64 {
    v.sort_by(f64::total_cmp);
    v[v.len() / 2]
}

/// Nanoseconds a call of each side: in turn in each round, so that a slow phase of the machine hits all; the median of the rounds.
fn measured(row: &mut Row) -> [Option<f64>; 3] {
    let calls = row.sides.each_mut().map(|s| s.as_mut().map_or(0, calls_a_round));
    let mut times = [const { Vec::new() }; 3];
    for _ in 0..ROUNDS {
        for ((side, calls), times) in row.sides.iter_mut().zip(calls).zip(&mut times) {
            if let Some(run) = side {
                times.push(run(calls).as_nanos() as f64 / calls as f64);
            }
        }
    }
    times.map(|mut v| (!v.is_empty()).then(|| median(&mut v)))
}

// ## The table

fn processor() -> String {
    let info = fs::read_to_string("/proc/cpuinfo").unwrap_or_default();
    let model = info.lines().find_map(|l| l.strip_prefix("model name")?.split_once(':'));
    model.map_or("not known".to_string(), |(_, m)| m.trim().to_string())
}

fn head() -> String {
    format!(
        "Nanoseconds, the median of {ROUNDS} rounds of about {} ms; in each round the three sides come in turn. A row of two calls has\n\
         the time of both. Memory of {SIZE} bytes; payload and reply buffer of {PAYLOAD}, unless the row says another length. All entries\n\
         are in one portal, and their events enabled.\n\
         What the harness resets, in the timed part and the same for all sides: before a put, a get or a search, and before the first call\n\
         of a row of two, the event queue is set empty (head and count to 0); before an event read it is set to 32 events (head to 0,\n\
         count to 32). Before the calls of the other rows nothing is reset. No row resets anything else: handles, registers and the\n\
         counter go on from call to call.\n\
         \"testing\": plain Rust that tests the whole state first, as the proved library does. \"trusting\": plain Rust that does not.\n\
         Processor: {}. Plain Rust by {}, optimised.\n",
        ROUND.as_millis(),
        processor(),
        env!("RUSTC_VERSION")
    )
}

fn time(x: Option<f64>) -> String {
    x.map_or("-".to_string(), |x| format!("{x:.1}"))
}

fn ratio(x: Option<f64>, y: Option<f64>) -> String {
    x.zip(y).map_or("-".to_string(), |(x, y)| format!("{:.2}", x / y))
}

const TITLES: [&str; 6] = ["call", "proved", "testing", "trusting", "proved/testing", "proved/trusting"];

fn line(markdown: bool, cells: [String; 6]) {
    if markdown {
        say!("| {} |", cells.join(" | "));
    } else {
        let [name, rest @ ..] = cells;
        let rest: String = rest.iter().zip(&TITLES[1..]).map(|(c, t)| format!("  {c:>w$}", w = t.len().max(9))).collect();
        say!("{name:<64}{rest}");
    }
}

fn table(markdown: bool) {
    line(markdown, TITLES.map(str::to_string));
    if markdown {
        say!("|---|---:|---:|---:|---:|---:|");
    }
    for mut row in rows() {
        let [p, t, u] = measured(&mut row);
        line(markdown, [row.name, time(p), time(t), time(u), ratio(p, t), ratio(p, u)]);
    }
}

fn main() -> ExitCode {
    let args: Vec<String> = env::args().skip(1).collect();
    let args: Vec<&str> = args.iter().map(String::as_str).collect();
    let markdown = match args[..] {
        [] => false,
        ["--markdown"] => true,
        ["--help" | "-h"] => {
            say!("{}", HELP.trim_end());
            return ExitCode::SUCCESS;
        }
        _ => {
            eprintln!("measure: {}: not understood\nbin/hosts bench --help says how it is used", args.join(" "));
            return ExitCode::from(2);
        }
    };
    say!("{}", head());
    table(markdown);
    ExitCode::SUCCESS
}
