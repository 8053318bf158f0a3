//! The plain implementation with an error planted in it, to see that a comparison finds it. The first four are errors seen in real cards.

use crate::calls::Calls;
use crate::layout::*;
use crate::plain::*;
use std::sync::atomic::{AtomicUsize, Ordering};

/// The errors: their names and what they do.
pub const PLANTS: [(&str, &str); 6] = [
    ("denied", "going on past an entry that denied the request"),
    ("truncate", "NO_TRUNCATE taken as a failure after the match"),
    ("requested", "the local offset moved by the requested length"),
    ("freed", "AUTO_FREE at unlinking with a message waiting"),
    ("kept", "a reply buffer cleared behind the accepted bytes (calls only)"),
    ("soundness", "a waiting header's region not tested (calls only)"),
];
const DENIED: usize = 0;
const TRUNCATE: usize = 1;
const REQUESTED: usize = 2;
const FREED: usize = 3;
const KEPT: usize = 4;
const SOUNDNESS: usize = 5;

/// No printout shows these.
pub const CALLS_ONLY: [&str; 2] = ["kept", "soundness"];

static CHOSEN: AtomicUsize = AtomicUsize::new(0);

/// Chooses the error of `Planted`; false if there is none of this name.
pub fn choose(name: &str) -> bool {
    let found = PLANTS.iter().position(|p| p.0 == name);
    CHOSEN.store(found.unwrap_or(0), Ordering::Relaxed);
    found.is_some()
}

fn planted(n: usize) -> bool {
    CHOSEN.load(Ordering::Relaxed) == n
}

/// The plain implementation, wrong.
pub struct Planted;

fn denies(e: &Entry, q: &Request, operation: u32) -> bool {
    e.uid != ANY && e.uid != q.uid || e.options & operation == 0
}

fn entries_mut(t: &mut Target) -> &mut [HeldEntry] {
    let n = t.entries.count.min(ENTRIES);
    &mut t.entries.slots[..n]
}

/// Entries that deny the request cannot match it while `call` is made: they ask for another nid.
fn past_denials(t: &mut Target, q: Request, operation: u32, call: impl FnOnce(&mut Target) -> Reply) -> Reply {
    let other = if q.nid == 1 { 2 } else { 1 };
    let mut hidden = Vec::new();
    for x in entries_mut(t).iter_mut().filter(|x| denies(&x.entry, &q, operation)) {
        hidden.push((x.handle, x.entry.nid));
        x.entry.nid = other;
    }
    let reply = call(t);
    for x in entries_mut(t) {
        if let Some((_, nid)) = hidden.iter().find(|(handle, _)| *handle == x.handle) {
            x.entry.nid = *nid;
        }
    }
    reply
}

fn room(x: &HeldEntry, q: &Request) -> u64 {
    let offset = if x.entry.options & MANAGE_LOCAL != 0 { x.local.into() } else { q.offset };
    u64::from(x.entry.length).saturating_sub(offset)
}

/// The entry that would be chosen if NO_TRUNCATE were no part of the match.
fn first_without_truncate<'a>(t: &'a Target, q: &Request) -> Option<&'a HeldEntry> {
    let agrees = |asked: u32, its: u32| asked == ANY || asked == its;
    let matches = |e: &Entry| (e.matchbits ^ q.matchbits) & !e.ignorebits == 0 && agrees(e.nid, q.nid) && agrees(e.pid, q.pid);
    let held = &t.entries.slots[..t.entries.count.min(ENTRIES)];
    let is_in = |x: &HeldEntry, list: u8| x.retired == 0 && x.entry.portal == q.portal && x.entry.list == list;
    let first = |list: u8| held.iter().find(|x| is_in(x, list) && matches(&x.entry));
    first(0).or_else(|| first(1))
}

/// Such an entry that has not the room is taken all the same, and the request then dropped.
fn truncated(t: &mut Target, q: Request, requested: usize, call: impl FnOnce(&mut Target) -> Reply) -> Reply {
    let short = |x: &HeldEntry| x.entry.options & NO_TRUNCATE != 0 && room(x, &q) < requested as u64;
    let fails = first_without_truncate(t, &q).is_some_and(short);
    let before = Box::new(*t);
    let reply = call(t);
    if !fails || reply.answer == REFUSED {
        return reply;
    }
    *t = *before;
    t.registers.dropped = t.registers.dropped.wrapping_add(1);
    Reply { answer: DROPPED, value: 0, second: 0, ..reply }
}

/// The entry of which `part` changed in a call: its place in `t`, and what it was.
fn changed<T: PartialEq>(before: &Target, t: &Target, part: fn(&HeldEntry) -> T) -> Option<(usize, HeldEntry)> {
    let olds = &before.entries.slots[..before.entries.count.min(ENTRIES)];
    let news = &t.entries.slots[..t.entries.count.min(ENTRIES)];
    news.iter().enumerate().find_map(|(i, new)| {
        let old = olds.iter().find(|old| old.handle == new.handle)?;
        (part(old) != part(new)).then_some((i, *old))
    })
}

fn moved_by_requested(before: &Target, t: &mut Target, requested: usize) {
    if let Some((i, old)) = changed(before, t, |x| x.local) {
        t.entries.slots[i].local = old.local.wrapping_add(requested as u32);
    }
}

fn freed_at_unlinking(before: &Target, t: &mut Target) {
    let Some((i, old)) = changed(before, t, |x| x.retired) else { return };
    if old.entry.options & EVENT_UNLINK_DISABLE != 0 || t.queue.count >= EVENTS {
        return;
    }
    let e = &t.entries.slots[i].entry;
    let (portal, user, owner) = (e.portal, e.user, old.handle);
    let gap = u16::from(t.queue.lost != 0);
    let event = Event { kind: EV_AUTO_FREE, portal, list: 1, user, owner, gap, ..EMPTY.queue.slots[0] };
    t.queue.lost = 0;
    t.queue.slots[(t.queue.head % EVENTS + t.queue.count) % EVENTS] = event;
    t.queue.count += 1;
}

/// A put or a get with the errors of a request.
fn request(t: &mut Target, q: Request, operation: u32, requested: usize, call: impl FnOnce(&mut Target) -> Reply) -> Reply {
    if !sound(t) {
        return call(t);
    }
    if planted(DENIED) {
        return past_denials(t, q, operation, call);
    }
    if planted(TRUNCATE) {
        return truncated(t, q, requested, call);
    }
    let before = Box::new(*t);
    let reply = call(t);
    if planted(REQUESTED) {
        moved_by_requested(&before, t, requested);
    }
    if planted(FREED) {
        freed_at_unlinking(&before, t);
    }
    reply
}

/// The state as a test sees it that does not look at regions: each waiting header stands at its entry's start, no longer
/// than it.
fn without_regions(t: &Target) -> Box<Target> {
    let mut seen = Box::new(*t);
    let n = seen.unexpected.count.min(HEADERS);
    for h in &mut seen.unexpected.slots[..n] {
        if let Some(x) = t.entries.slots.iter().take(t.entries.count).find(|x| x.handle == h.handle) {
            h.place = x.entry.start;
            h.accepted = h.accepted.min(x.entry.length);
        }
    }
    seen
}

/// A call that does not touch the headers.
fn tested<R>(t: &mut Target, call: impl FnOnce(&mut Target) -> R) -> R {
    if !planted(SOUNDNESS) || sound(t) {
        return call(t);
    }
    let headers = t.unexpected;
    let mut seen = without_regions(t);
    let reply = call(&mut seen);
    *t = *seen;
    t.unexpected = headers;
    reply
}

fn tested_read(t: &Target, call: impl FnOnce(&Target) -> Reply) -> Reply {
    if !planted(SOUNDNESS) || sound(t) {
        return call(t);
    }
    call(&without_regions(t))
}

impl Calls for Planted {
    fn new(place: &mut Target, s: Settings) -> Reply {
        Plain::new(place, s)
    }
    fn append(t: &mut Target, e: Entry) -> Reply {
        Plain::append(t, e)
    }
    fn unlink(t: &mut Target, handle: u32) -> Reply {
        tested(t, |t| Plain::unlink(t, handle))
    }
    fn search(t: &mut Target, e: Entry) -> Reply {
        Plain::search(t, e)
    }
    fn put(t: &mut Target, memory: &mut [u8], q: Request, payload: &[u8]) -> Reply {
        request(t, q, OP_PUT, payload.len(), |t| Plain::put(t, memory, q, payload))
    }
    fn get(t: &mut Target, memory: &[u8], q: Request, reply: &mut [u8]) -> Reply {
        let r = request(t, q, OP_GET, reply.len(), |t| Plain::get(t, memory, q, reply));
        if planted(KEPT) && (r.answer == PRIORITY || r.answer == OVERFLOW) {
            reply[r.value as usize..].fill(0);
        }
        r
    }
    fn read_event(t: &mut Target) -> EventReply {
        tested(t, Plain::read_event)
    }
    fn set_counter(t: &mut Target, x: CounterChange) -> Reply {
        tested(t, |t| Plain::set_counter(t, x))
    }
    fn increment(t: &mut Target, x: CounterChange) -> Reply {
        tested(t, |t| Plain::increment(t, x))
    }
    fn read_counter(t: &Target, k: u64) -> Reply {
        tested_read(t, |t| Plain::read_counter(t, k))
    }
    fn read_register(t: &Target, k: u64) -> Reply {
        tested_read(t, |t| Plain::read_register(t, k))
    }
    fn ready(t: &Target, x: CounterTest) -> Reply {
        tested_read(t, |t| Plain::ready(t, x))
    }
    fn poll(t: &Target, ks: &[u64], tests: &[u64]) -> Reply {
        tested_read(t, |t| Plain::poll(t, ks, tests))
    }
}
