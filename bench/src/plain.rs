//! The target side of one matching interface in plain Rust: in place, without heap or unsafe code.
//!
//! Each call takes a constant `SOUND`. True: the state is tested first, and BAD_STATE answered if it is not sound; no bits in the
//! state make the call panic. False: the test is left out, and the state is taken to be sound. A refused call changes nothing.

#![forbid(unsafe_code)]

use crate::calls::Calls;
use crate::layout::*;

// The refusals, in the order in which they are tested.
pub const BAD_STATE: u32 = 1;
pub const BAD_MEMORY: u32 = 2;
pub const ARG_INVALID: u32 = 3;
pub const NO_SPACE: u32 = 4;
pub const IN_USE: u32 = 5;

// Option bits of an entry.
pub const OP_PUT: u32 = 1 << 0;
pub const OP_GET: u32 = 1 << 1;
pub const MANAGE_LOCAL: u32 = 1 << 2;
pub const NO_TRUNCATE: u32 = 1 << 3;
pub const USE_ONCE: u32 = 1 << 4;
pub const ACK_DISABLE: u32 = 1 << 5;
pub const UNEXPECTED_HDR_DISABLE: u32 = 1 << 6;
pub const EVENT_LINK_DISABLE: u32 = 1 << 7;
pub const EVENT_COMM_DISABLE: u32 = 1 << 8;
pub const EVENT_SUCCESS_DISABLE: u32 = 1 << 9;
pub const EVENT_OVER_DISABLE: u32 = 1 << 10;
pub const EVENT_UNLINK_DISABLE: u32 = 1 << 11;
pub const CT_COMM: u32 = 1 << 12;
pub const CT_OVERFLOW: u32 = 1 << 13;
pub const CT_BYTES: u32 = 1 << 14;
const OPTIONS_END: u32 = 1 << 15;

// Event kinds and fail types.
pub const EV_LINK: u32 = 0;
pub const EV_PUT: u32 = 1;
pub const EV_GET: u32 = 2;
pub const EV_PUT_OVERFLOW: u32 = 3;
pub const EV_GET_OVERFLOW: u32 = 4;
pub const EV_SEARCH: u32 = 5;
pub const EV_AUTO_UNLINK: u32 = 6;
pub const EV_AUTO_FREE: u32 = 7;
pub const NI_OK: u16 = 0;
pub const NI_NO_MATCH: u16 = 1;

// Sizes.
pub const MEMORY_MAX: u32 = 65_536;
pub const PORTALS: u16 = 8;
pub const ENTRIES: usize = 64;
pub const HEADERS: usize = 32;
pub const EVENTS: usize = 64;
pub const COUNTERS: usize = 16;

/// An identity that takes any.
pub const ANY: u32 = u32::MAX;
/// The counter number of an entry that counts nothing.
pub const NO_COUNTER: u8 = 255;

// List numbers, and kinds of a waiting header.
const LIST_PRIORITY: u8 = 0;
const LIST_OVERFLOW: u8 = 1;
const MODE_LOOK: u8 = 0;
const KIND_PUT: u16 = 0;
const KIND_GET: u16 = 1;

const NO_ENTRY: Entry = Entry {
    portal: 0,
    list: 0,
    counter: 0,
    options: 0,
    start: 0,
    length: 0,
    minfree: 0,
    uid: 0,
    nid: 0,
    pid: 0,
    matchbits: 0,
    ignorebits: 0,
    user: 0,
};

const NO_HEADER: Header = Header {
    portal: 0,
    kind: 0,
    handle: 0,
    nid: 0,
    pid: 0,
    uid: 0,
    requested: 0,
    accepted: 0,
    place: 0,
    matchbits: 0,
    offset: 0,
    hdrdata: 0,
};

const NO_EVENT: Event = Event {
    kind: 0,
    fail: 0,
    gap: 0,
    portal: 0,
    list: 0,
    owner: 0,
    nid: 0,
    pid: 0,
    uid: 0,
    requested: 0,
    accepted: 0,
    place: 0,
    matchbits: 0,
    offset: 0,
    hdrdata: 0,
    user: 0,
};

/// An empty target of size 0: all numbers 0.
pub const EMPTY: Target = Target {
    size: 0,
    last: 0,
    entries: Entries { slots: [HeldEntry { entry: NO_ENTRY, handle: 0, local: 0, retired: 0 }; ENTRIES], count: 0 },
    unexpected: Unexpected { slots: [NO_HEADER; HEADERS], count: 0 },
    queue: Queue { slots: [NO_EVENT; EVENTS], head: 0, count: 0, lost: 0 },
    counters: Counters { slots: [Counter { success: 0, failure: 0 }; COUNTERS] },
    registers: Registers { dropped: 0, permission: 0, operation: 0 },
};

const fn reply(answer: u32, code: u32, value: u64, second: u64) -> Reply {
    Reply { answer, code, value, second }
}

const fn answer(answer: u32) -> Reply {
    reply(answer, 0, 0, 0)
}

const fn refused(code: u32) -> Reply {
    reply(REFUSED, code, 0, 0)
}

// ---- Soundness and arguments

/// "Refusals": whether the state is sound. Linear, up to a binary search for each header, while handles ascend.
pub fn sound(t: &Target) -> bool {
    if t.size > MEMORY_MAX || t.entries.count > ENTRIES || t.unexpected.count > HEADERS || t.queue.count > EVENTS {
        return false;
    }
    let held = &t.entries.slots[..t.entries.count];
    let mut ascending = true;
    let mut before = 0;
    // The places of retired entries for which no header has been seen.
    let mut bare = 0u64;
    for (i, h) in held.iter().enumerate() {
        let local_max = if h.entry.options & MANAGE_LOCAL != 0 { h.entry.length } else { 0 };
        if h.handle == 0 || h.handle > t.last || h.local > local_max || !valid(&h.entry, t.size) {
            return false;
        }
        ascending &= before < h.handle;
        before = h.handle;
        bare |= u64::from(h.retired != 0) << i;
    }
    if !ascending && held.iter().enumerate().any(|(i, h)| held[..i].iter().any(|g| g.handle == h.handle)) {
        return false;
    }
    for w in &t.unexpected.slots[..t.unexpected.count] {
        let place = if ascending {
            held.binary_search_by_key(&w.handle, |h| h.handle).ok()
        } else {
            held.iter().position(|h| h.handle == w.handle)
        };
        let Some(i) = place else { return false };
        let e = &held[i].entry;
        if e.list != LIST_OVERFLOW
            || e.portal != w.portal
            || e.options & UNEXPECTED_HDR_DISABLE != 0
            || w.accepted > w.requested
            || w.requested > MEMORY_MAX
            || w.place < e.start
            || u64::from(w.place) + u64::from(w.accepted) > u64::from(e.start) + u64::from(e.length)
        {
            return false;
        }
        bare &= !(1 << i);
    }
    bare == 0
}

/// "Entry": the tests of append, and of search with the mode in the list's place.
fn valid(e: &Entry, size: u32) -> bool {
    e.portal < PORTALS
        && e.list <= 1
        && (usize::from(e.counter) < COUNTERS || e.counter == NO_COUNTER)
        && e.options < OPTIONS_END
        && u64::from(e.start) + u64::from(e.length) <= u64::from(size)
}

// ---- Events

/// "Events": queues an event. In a full queue it is lost, and the next one queued carries gap 1.
fn post(q: &mut Queue, event: Event) {
    if q.count >= EVENTS {
        q.lost = 1;
        return;
    }
    q.slots[(q.head % EVENTS + q.count) % EVENTS] = Event { gap: u16::from(q.lost != 0), ..event };
    q.count += 1;
    q.lost = 0;
}

/// An event that carries nothing of a message: LINK, AUTO_UNLINK, AUTO_FREE and a failed SEARCH.
fn bare_event(kind: u32, e: &Entry, list: u8, owner: u32) -> Event {
    Event { kind, portal: e.portal, list: u16::from(list), owner, user: e.user, ..NO_EVENT }
}

/// An event that carries a message. Header data is 0 for get.
fn message_event(kind: u32, e: &Entry, list: u8, owner: u32, w: &Header) -> Event {
    Event {
        kind,
        fail: NI_OK,
        gap: 0,
        portal: e.portal,
        list: u16::from(list),
        owner,
        nid: w.nid,
        pid: w.pid,
        uid: w.uid,
        requested: w.requested,
        accepted: w.accepted,
        place: w.place,
        matchbits: w.matchbits,
        offset: w.offset,
        hdrdata: if w.kind == KIND_PUT { w.hdrdata } else { 0 },
        user: e.user,
    }
}

// ---- Matching

/// Rule 1: the offset of a message in an entry.
fn offset_in(e: &Entry, local: u32, w: &Header) -> u64 {
    if e.options & MANAGE_LOCAL != 0 {
        u64::from(local)
    } else {
        w.offset
    }
}

/// Rule 1: the bytes available from an offset on.
fn available(e: &Entry, offset: u64) -> u64 {
    u64::from(e.length).saturating_sub(offset)
}

/// Rule 2: whether an entry matches a message. The portal is the caller's to test.
fn matches(e: &Entry, local: u32, w: &Header) -> bool {
    (e.matchbits ^ w.matchbits) & !e.ignorebits == 0
        && (e.nid == w.nid || e.nid == ANY)
        && (e.pid == w.pid || e.pid == ANY)
        && (e.options & NO_TRUNCATE == 0 || u64::from(w.requested) <= available(e, offset_in(e, local, w)))
}

/// Rule 4: whether an entry allows a message's uid.
fn permits(e: &Entry, w: &Header) -> bool {
    e.uid == w.uid || e.uid == ANY
}

/// Rule 4: whether a message's kind is enabled.
fn enables(e: &Entry, w: &Header) -> bool {
    e.options & (if w.kind == KIND_PUT { OP_PUT } else { OP_GET }) != 0
}

/// "Early messages": whether a waiting header fits an entry that is appended or searched for.
fn fits(e: &Entry, w: &Header) -> bool {
    e.portal == w.portal && matches(e, 0, w) && permits(e, w) && enables(e, w)
}

/// Rule 3: the place of the chosen entry. A portal above 7 has no entries.
fn choose(entries: &Entries, w: &Header) -> Option<usize> {
    let mut overflow = None;
    for (i, h) in entries.slots[..entries.count].iter().enumerate() {
        let e = &h.entry;
        if e.portal != w.portal || h.retired != 0 || (e.list != LIST_PRIORITY && overflow.is_some()) || !matches(e, h.local, w) {
            continue;
        }
        if e.list == LIST_PRIORITY {
            return Some(i);
        }
        overflow = Some(i);
    }
    overflow
}

// ---- Slots and counters

/// Frees the slot at a place.
fn remove(entries: &mut Entries, i: usize) {
    entries.slots.copy_within(i + 1..entries.count, i);
    entries.count -= 1;
}

/// Frees a retired entry in which no message waits any more, with AUTO_FREE. A linked one stays.
fn free_retired(entries: &mut Entries, queue: &mut Queue, handle: u32) {
    let Some(i) = entries.slots[..entries.count].iter().position(|h| h.handle == handle) else { return };
    let h = &entries.slots[i];
    if h.retired == 0 {
        return;
    }
    if h.entry.options & EVENT_UNLINK_DISABLE == 0 {
        post(queue, bare_event(EV_AUTO_FREE, &h.entry, LIST_OVERFLOW, handle));
    }
    remove(entries, i);
}

/// "Counters": counts messages on an entry's counter, by number or by accepted bytes.
fn count(counters: &mut Counters, e: &Entry, messages: u64, bytes: u64) {
    if let Some(c) = counters.slots.get_mut(usize::from(e.counter)) {
        c.success = c.success.wrapping_add(if e.options & CT_BYTES != 0 { bytes } else { messages });
    }
}

/// "Early messages": hands out the waiting headers that fit, oldest first; only the first under USE_ONCE. Returns how many, and
/// their accepted bytes.
fn take(t: &mut Target, e: &Entry, owner: u32) -> (u64, u64) {
    let Target { entries, unexpected: Unexpected { slots, count }, queue, .. } = t;
    let once = e.options & USE_ONCE != 0;
    let shown = e.options & (EVENT_SUCCESS_DISABLE | EVENT_OVER_DISABLE) == 0;
    let (mut found, mut bytes) = (0, 0);
    // Headers up to `i` are seen, and those that stay moved down to end at `kept`.
    let (mut i, mut kept) = (0, 0);
    while i < *count && !(once && found != 0) {
        let w = &slots[i];
        if fits(e, w) {
            found += 1;
            bytes += u64::from(w.accepted);
            if shown {
                let kind = if w.kind == KIND_PUT { EV_PUT_OVERFLOW } else { EV_GET_OVERFLOW };
                post(queue, message_event(kind, e, LIST_PRIORITY, owner, w));
            }
            let same = |x: &Header| x.handle == w.handle;
            if !slots[..kept].iter().any(same) && !slots[i + 1..*count].iter().any(same) {
                free_retired(entries, queue, w.handle);
            }
        } else {
            if kept != i {
                slots[kept] = *w;
            }
            kept += 1;
        }
        i += 1;
    }
    if kept != i {
        slots.copy_within(i..*count, kept);
        *count -= i - kept;
    }
    (found, bytes)
}

/// "Early messages": the waiting headers that fit, as a looking search shows them. Returns how many.
fn look(t: &mut Target, e: &Entry) -> u64 {
    let once = e.options & USE_ONCE != 0;
    let shown = e.options & (EVENT_COMM_DISABLE | EVENT_SUCCESS_DISABLE) == 0;
    let mut found = 0;
    for w in t.unexpected.slots[..t.unexpected.count].iter().filter(|w| fits(e, w)) {
        found += 1;
        if shown {
            post(&mut t.queue, message_event(EV_SEARCH, e, LIST_PRIORITY, 0, w));
        }
        if once {
            break;
        }
    }
    found
}

// ---- The calls

/// Makes a target. One of more than 65,536 bytes is refused, beside an empty target of size 0.
pub fn new(place: &mut Target, s: Settings) -> Reply {
    *place = EMPTY;
    if s.size > MEMORY_MAX {
        return refused(ARG_INVALID);
    }
    place.size = s.size;
    answer(MADE)
}

/// Appends an entry: LINKED, or TAKEN where USE_ONCE met an early message.
pub fn append<const SOUND: bool>(t: &mut Target, e: Entry) -> Reply {
    if SOUND && !sound(t) {
        return refused(BAD_STATE);
    }
    if !valid(&e, t.size) {
        return refused(ARG_INVALID);
    }
    if t.entries.count >= ENTRIES || t.last == u32::MAX {
        return refused(NO_SPACE);
    }
    let handle = t.last + 1;
    if e.list == LIST_PRIORITY {
        let once = e.options & USE_ONCE != 0;
        let (found, bytes) = take(t, &e, if once { 0 } else { handle });
        if e.options & CT_OVERFLOW != 0 {
            count(&mut t.counters, &e, found, bytes);
        }
        if once && found != 0 {
            return answer(TAKEN);
        }
    }
    t.last = handle;
    t.entries.slots[t.entries.count] = HeldEntry { entry: e, handle, local: 0, retired: 0 };
    t.entries.count += 1;
    if e.options & EVENT_LINK_DISABLE == 0 {
        post(&mut t.queue, bare_event(EV_LINK, &e, e.list, handle));
    }
    reply(LINKED, 0, u64::from(handle), 0)
}

/// Removes a linked entry, without event: IN_USE while messages wait in it.
pub fn unlink<const SOUND: bool>(t: &mut Target, handle: u32) -> Reply {
    if SOUND && !sound(t) {
        return refused(BAD_STATE);
    }
    let held = &t.entries.slots[..t.entries.count];
    let Some(i) = held.iter().position(|h| h.handle == handle && h.retired == 0) else {
        return refused(ARG_INVALID);
    };
    if held[i].entry.list == LIST_OVERFLOW && t.unexpected.slots[..t.unexpected.count].iter().any(|w| w.handle == handle) {
        return refused(IN_USE);
    }
    remove(&mut t.entries, i);
    answer(DONE)
}

/// Searches the waiting headers, with a mode in the list's place: 0 look, 1 delete. Counts nothing.
pub fn search<const SOUND: bool>(t: &mut Target, e: Entry) -> Reply {
    if SOUND && !sound(t) {
        return refused(BAD_STATE);
    }
    if !valid(&e, t.size) {
        return refused(ARG_INVALID);
    }
    let found = if e.list == MODE_LOOK { look(t, &e) } else { take(t, &e, 0).0 };
    if (e.options & USE_ONCE == 0 || found == 0) && e.options & EVENT_COMM_DISABLE == 0 {
        post(&mut t.queue, Event { fail: NI_NO_MATCH, ..bare_event(EV_SEARCH, &e, LIST_PRIORITY, 0) });
    }
    reply(SEARCHED, 0, found, 0)
}

/// "Request": its refusals behind BAD_STATE.
fn bad_request(t: &Target, memory: usize, q: &Request, requested: usize) -> Option<Reply> {
    if memory != t.size as usize {
        return Some(refused(BAD_MEMORY));
    }
    if q.nid == ANY || q.pid == ANY || q.uid == ANY || q.ack > 3 || requested > MEMORY_MAX as usize {
        return Some(refused(ARG_INVALID));
    }
    None
}

/// A request as a message of which nothing is accepted yet. A get has no header data.
fn message(q: &Request, kind: u16, requested: usize) -> Header {
    Header {
        portal: q.portal,
        kind,
        handle: 0,
        nid: q.nid,
        pid: q.pid,
        uid: q.uid,
        requested: requested as u32,
        accepted: 0,
        place: 0,
        matchbits: q.matchbits,
        offset: q.offset,
        hdrdata: if kind == KIND_PUT { q.hdrdata } else { 0 },
    }
}

/// Rules 1 to 7 but for the bytes: the answer, and the place in memory of the accepted bytes.
fn admit(t: &mut Target, mut w: Header, ack: u32) -> (Reply, usize) {
    let denied = |register: &mut u64, answer: u32| {
        *register = register.wrapping_add(1);
        (reply(answer, ack, 0, 0), 0)
    };
    // Rule 3.
    let Some(i) = choose(&t.entries, &w) else {
        return denied(&mut t.registers.dropped, DROPPED);
    };
    let h = &mut t.entries.slots[i];
    let e = &h.entry;
    let overflow = e.list != LIST_PRIORITY;
    let waits = overflow && e.options & UNEXPECTED_HDR_DISABLE == 0;
    // Rule 4.
    if !permits(e, &w) {
        return denied(&mut t.registers.permission, PERM);
    }
    if !enables(e, &w) {
        return denied(&mut t.registers.operation, OP);
    }
    if waits && t.unexpected.count >= HEADERS {
        return denied(&mut t.registers.dropped, DROPPED);
    }
    // Rule 5.
    let offset = offset_in(e, h.local, &w);
    w.handle = h.handle;
    w.accepted = available(e, offset).min(u64::from(w.requested)) as u32;
    w.place = e.start + offset.min(u64::from(e.length)) as u32;
    if e.options & CT_COMM != 0 {
        count(&mut t.counters, e, 1, u64::from(w.accepted));
    }
    if e.options & (EVENT_COMM_DISABLE | EVENT_SUCCESS_DISABLE) == 0 {
        let kind = if w.kind == KIND_PUT { EV_PUT } else { EV_GET };
        post(&mut t.queue, message_event(kind, e, e.list, h.handle, &w));
    }
    let ack = if e.options & ACK_DISABLE != 0 { 0 } else { ack };
    let result = reply(if overflow { OVERFLOW } else { PRIORITY }, ack, u64::from(w.accepted), offset);
    // Rule 6.
    let managed = e.options & MANAGE_LOCAL != 0;
    if managed {
        h.local += w.accepted;
    }
    if waits {
        t.unexpected.slots[t.unexpected.count] = w;
        t.unexpected.count += 1;
    }
    // Rule 7.
    if e.options & USE_ONCE != 0 || (managed && e.length - h.local < e.minfree) {
        if e.options & EVENT_UNLINK_DISABLE == 0 {
            post(&mut t.queue, bare_event(EV_AUTO_UNLINK, e, e.list, h.handle));
        }
        // This request's own header still waits in an overflow entry that takes headers.
        if waits {
            h.retired = 1;
        } else {
            remove(&mut t.entries, i);
        }
    }
    (result, w.place as usize)
}

/// A put: writes the accepted payload bytes to memory.
pub fn put<const SOUND: bool>(t: &mut Target, memory: &mut [u8], q: Request, payload: &[u8]) -> Reply {
    if SOUND && !sound(t) {
        return refused(BAD_STATE);
    }
    if let Some(refusal) = bad_request(t, memory.len(), &q, payload.len()) {
        return refusal;
    }
    let (result, place) = admit(t, message(&q, KIND_PUT, payload.len()), u32::from(q.ack));
    let accepted = result.value as usize;
    memory[place..place + accepted].copy_from_slice(&payload[..accepted]);
    result
}

/// A get: fills the accepted reply bytes from memory and keeps the rest. Its ack is always 0.
pub fn get<const SOUND: bool>(t: &mut Target, memory: &[u8], q: Request, reply: &mut [u8]) -> Reply {
    if SOUND && !sound(t) {
        return refused(BAD_STATE);
    }
    if let Some(refusal) = bad_request(t, memory.len(), &q, reply.len()) {
        return refusal;
    }
    let (result, place) = admit(t, message(&q, KIND_GET, reply.len()), 0);
    let accepted = result.value as usize;
    reply[..accepted].copy_from_slice(&memory[place..place + accepted]);
    result
}

/// Reads the oldest event, or NONE.
pub fn read_event<const SOUND: bool>(t: &mut Target) -> EventReply {
    if SOUND && !sound(t) {
        return EventReply { answer: REFUSED, code: BAD_STATE, event: NO_EVENT };
    }
    let q = &mut t.queue;
    if q.count == 0 {
        return EventReply { answer: NONE, code: 0, event: NO_EVENT };
    }
    let head = q.head % EVENTS;
    q.head = (head + 1) % EVENTS;
    q.count -= 1;
    EventReply { answer: EVENT, code: 0, event: q.slots[head] }
}

/// The slot of a counter 0 to 15.
fn slot(k: u64) -> Option<usize> {
    if k < COUNTERS as u64 {
        Some(k as usize)
    } else {
        None
    }
}

/// Sets both fields of a counter.
pub fn set_counter<const SOUND: bool>(t: &mut Target, x: CounterChange) -> Reply {
    if SOUND && !sound(t) {
        return refused(BAD_STATE);
    }
    let Some(k) = slot(x.counter) else { return refused(ARG_INVALID) };
    t.counters.slots[k] = Counter { success: x.success, failure: x.failure };
    answer(DONE)
}

/// Increments both fields of a counter, modulo 2^64.
pub fn increment<const SOUND: bool>(t: &mut Target, x: CounterChange) -> Reply {
    if SOUND && !sound(t) {
        return refused(BAD_STATE);
    }
    let Some(k) = slot(x.counter) else { return refused(ARG_INVALID) };
    let c = &mut t.counters.slots[k];
    c.success = c.success.wrapping_add(x.success);
    c.failure = c.failure.wrapping_add(x.failure);
    answer(DONE)
}

/// Reads a counter.
pub fn read_counter<const SOUND: bool>(t: &Target, k: u64) -> Reply {
    if SOUND && !sound(t) {
        return refused(BAD_STATE);
    }
    let Some(k) = slot(k) else { return refused(ARG_INVALID) };
    let c = &t.counters.slots[k];
    reply(COUNTER, 0, c.success, c.failure)
}

/// Reads a register: 0 drop, 1 permission, 2 operation.
pub fn read_register<const SOUND: bool>(t: &Target, k: u64) -> Reply {
    if SOUND && !sound(t) {
        return refused(BAD_STATE);
    }
    let value = match k {
        0 => t.registers.dropped,
        1 => t.registers.permission,
        2 => t.registers.operation,
        _ => return refused(ARG_INVALID),
    };
    reply(REGISTER, 0, value, 0)
}

/// Whether a counter's success is at least the test, or its failure not 0.
pub fn ready<const SOUND: bool>(t: &Target, x: CounterTest) -> Reply {
    if SOUND && !sound(t) {
        return refused(BAD_STATE);
    }
    let Some(k) = slot(x.counter) else { return refused(ARG_INVALID) };
    let c = &t.counters.slots[k];
    answer(if c.success >= x.test || c.failure != 0 { READY } else { NOT_READY })
}

/// The lowest place whose counter's success has reached its test, or NONE_REACHED. Failures play no part.
pub fn poll<const SOUND: bool>(t: &Target, ks: &[u64], tests: &[u64]) -> Reply {
    if SOUND && !sound(t) {
        return refused(BAD_STATE);
    }
    if ks.len() != tests.len() || ks.iter().any(|&k| slot(k).is_none()) {
        return refused(ARG_INVALID);
    }
    match ks.iter().zip(tests).position(|(&k, &test)| t.counters.slots[k as usize].success >= test) {
        Some(place) => reply(REACHED, 0, place as u64, 0),
        None => answer(NONE_REACHED),
    }
}

// ---- All of them together

/// The calls that test the state, or those that do not. None is inlined, so that each can be measured.
pub struct Rust<const SOUND: bool>;

/// The plain implementation.
pub type Plain = Rust<true>;
/// It without the test of the state, for sound states only.
pub type Trusting = Rust<false>;

macro_rules! not_inlined {
    ($($name:ident($($x:ident: $t:ty),*) -> $r:ty;)*) => {
        impl<const SOUND: bool> Calls for Rust<SOUND> {
            #[inline(never)]
            fn new(place: &mut Target, s: Settings) -> Reply {
                new(place, s)
            }
            $(
                #[inline(never)]
                fn $name($($x: $t),*) -> $r {
                    $name::<SOUND>($($x),*)
                }
            )*
        }
    };
}

not_inlined! {
    append(t: &mut Target, e: Entry) -> Reply;
    unlink(t: &mut Target, handle: u32) -> Reply;
    search(t: &mut Target, e: Entry) -> Reply;
    put(t: &mut Target, memory: &mut [u8], q: Request, payload: &[u8]) -> Reply;
    get(t: &mut Target, memory: &[u8], q: Request, reply: &mut [u8]) -> Reply;
    read_event(t: &mut Target) -> EventReply;
    set_counter(t: &mut Target, x: CounterChange) -> Reply;
    increment(t: &mut Target, x: CounterChange) -> Reply;
    read_counter(t: &Target, k: u64) -> Reply;
    read_register(t: &Target, k: u64) -> Reply;
    ready(t: &Target, x: CounterTest) -> Reply;
    poll(t: &Target, ks: &[u64], tests: &[u64]) -> Reply;
}
