//! Random direct calls: a target to start with, and steps that look at what the target holds.

use super::Chooser;
use crate::cases::{bytes, bytes_mut, Call, Case, Damage, Step};
use crate::layout::*;
use crate::plain::*;
use crate::random::Random;
use std::mem::offset_of;

/// The memory is so much longer than the target's, so that too much of it can be lent.
const SPARE: usize = 8;
/// About so many calls are in a sequence.
pub const CALLS: usize = 40;

pub struct Sequence {
    c: Chooser,
    memory: usize,
    steps: usize,
    made: usize,
}

impl Sequence {
    /// Sequence `n` of a run: what it starts with, and who makes its steps.
    pub fn new(seed: u64, n: u64) -> (Case, Sequence) {
        let mut r = Random::part(seed, n);
        let size = r.pick(&[0, 1, 16, 16, 64, 64, 64, 256, 1_000]);
        let size = if r.one_in(60) { r.pick(&[4_096, 65_535, 65_536]) } else { size };
        let memory = r.bytes(size as usize + SPARE);
        let mut c = Chooser::new(r);
        let built = c.r.one_in(2);
        let start = if built { c.target(size) } else { garbage(&mut c.r) };
        let steps = 20 + c.r.index(2 * (CALLS - 20) + 1);
        let length = memory.len();
        (Case { start, memory, steps: Vec::new() }, Sequence { c, memory: length, steps, made: usize::from(built) })
    }

    /// The next step, by what the target holds now; none at the end.
    pub fn step(&mut self, t: &Target) -> Option<Step> {
        if self.steps == 0 {
            return None;
        }
        self.steps -= 1;
        if self.made == 0 {
            self.made = 1;
            return Some(Step { damage: Vec::new(), call: self.first() });
        }
        let damage = if self.c.r.one_in(5) { self.c.damage(t) } else { Vec::new() };
        Some(Step { damage, call: self.call(t) })
    }

    fn first(&mut self) -> Call {
        Call::New(Settings { size: (self.memory - SPARE) as u32 })
    }

    fn call(&mut self, t: &Target) -> Call {
        let c = &mut self.c;
        let mut kind = c.kind();
        // full lists are made room in, mostly
        if kind == 1 && t.entries.count >= ENTRIES && !c.r.one_in(4) {
            kind = 2;
        }
        match kind {
            0 => self.again(),
            1 => Call::Append(c.appended_to(t)),
            2 => Call::Unlink(c.handle(t)),
            3 => Call::Search(c.searched_in(t)),
            4 => self.put(t),
            5 => self.get(t),
            6 => Call::ReadEvent,
            7 => Call::SetCounter(c.counter_change()),
            8 => Call::Increment(c.counter_change()),
            9 => Call::ReadCounter(c.counter_number()),
            10 => Call::ReadRegister(if c.bad() { c.r.pick(&[3, 4, 1 << 32, u64::MAX]) } else { c.r.below(3) }),
            11 => Call::Ready(c.test(t)),
            _ => c.poll(t),
        }
    }

    /// Makes the target anew, now and then too large.
    fn again(&mut self) -> Call {
        let fits = (self.memory - SPARE) as u32;
        let size = if self.c.r.one_in(3) { self.c.r.pick(&[65_537, 65_538, u32::MAX, 65_536]) } else { fits };
        Call::New(Settings { size })
    }

    /// How many bytes are lent: as many as the target has, or not.
    fn lent(&mut self, t: &Target) -> usize {
        let right = (t.size as usize).min(self.memory);
        if !self.c.r.one_in(30) {
            return right;
        }
        self.c.r.pick(&[0, right.saturating_sub(1), (right + 1).min(self.memory), self.memory])
    }

    fn requested(&mut self, t: &Target, e: Option<&HeldEntry>) -> usize {
        if self.c.r.one_in(400) {
            return self.c.r.pick(&[65_535, 65_536, 65_537, 70_000]);
        }
        let room = e.map(|x| x.entry.length.saturating_sub(x.local) as usize);
        match room {
            Some(room) if self.c.r.one_in(2) => self.c.r.pick(&[room, room + 1, room.saturating_sub(1), room / 2]).min(70_000),
            _ => self.c.length(t.size.min(65_536)),
        }
    }

    fn put(&mut self, t: &Target) -> Call {
        let (q, i) = self.c.request_to(t);
        let n = self.requested(t, i.map(|i| &t.entries.slots[i]));
        Call::Put { lent: self.lent(t), q, payload: self.c.r.bytes(n) }
    }

    fn get(&mut self, t: &Target) -> Call {
        let (q, i) = self.c.request_to(t);
        let n = self.requested(t, i.map(|i| &t.entries.slots[i]));
        Call::Get { lent: self.lent(t), q, reply: self.c.r.bytes(n) }
    }
}

fn garbage(r: &mut Random) -> Box<Target> {
    let mut t = zero_target();
    let n = size_of::<Target>();
    bytes_mut(&mut t).copy_from_slice(&r.bytes(n));
    t
}

fn entries(t: &Target) -> &[HeldEntry] {
    &t.entries.slots[..t.entries.count.min(ENTRIES)]
}

fn headers(t: &Target) -> &[Header] {
    &t.unexpected.slots[..t.unexpected.count.min(HEADERS)]
}

// ## The calls' arguments
impl Chooser {
    fn counter_number(&mut self) -> u64 {
        if self.bad() {
            self.r.pick(&[16, 17, 255, 256, 1 << 32, u64::MAX])
        } else {
            self.r.pick(&[0, 1, 7, 15, 2])
        }
    }

    fn counter_change(&mut self) -> CounterChange {
        let k = self.counter_number();
        self.change(k)
    }

    fn test(&mut self, t: &Target) -> CounterTest {
        let counter = self.counter_number();
        let success = t.counters.slots.get(counter as usize).map_or(0, |c| c.success);
        CounterTest { counter, test: self.r.pick(&[success, success.wrapping_add(1), success.wrapping_sub(1), 0, u64::MAX]) }
    }

    fn poll(&mut self, t: &Target) -> Call {
        let n = self.r.pick(&[0, 1, 2, 3, 5, 20]);
        let (mut ks, mut tests): (Vec<_>, Vec<_>) = (0..n).map(|_| self.test(t)).map(|x| (x.counter, x.test)).unzip();
        if self.r.one_in(3) {
            tests.fill(u64::MAX);
        }
        match self.r.below(30) {
            0 => drop(ks.pop()),
            1 => drop(tests.pop()),
            2 => tests.push(0),
            3 => ks.push(0),
            _ => {}
        }
        Call::Poll { ks, tests }
    }

    fn handle(&mut self, t: &Target) -> u32 {
        if entries(t).is_empty() || self.r.one_in(8) {
            return self.r.pick(&[0, t.last, t.last.wrapping_add(1), u32::MAX]);
        }
        entries(t)[self.r.index(entries(t).len())].handle
    }

    /// Makes an entry that a waiting header fits, in half of the calls; whether it did.
    fn fit(&mut self, t: &Target, e: &mut Entry) -> bool {
        if headers(t).is_empty() || self.r.one_in(2) {
            return false;
        }
        let h = headers(t)[self.r.index(headers(t).len())];
        e.portal = h.portal;
        e.matchbits = h.matchbits ^ (self.r.word() & e.ignorebits);
        for (id, its) in [(&mut e.nid, h.nid), (&mut e.pid, h.pid), (&mut e.uid, h.uid)] {
            // any in a header is no any: an entry that asks for another identity does not match it
            *id = if its == ANY { self.r.pick(&[1, ANY]) } else { self.r.pick(&[its, its, ANY]) };
        }
        if !self.r.one_in(6) {
            e.options |= OP_PUT | OP_GET;
        }
        true
    }

    /// A portal that does not fit in a byte, now and then.
    fn long_portal(&mut self, e: &mut Entry) {
        if self.r.one_in(200) {
            e.portal = self.r.pick(&[256, 256 + e.portal % 256, u16::MAX]);
        }
    }

    fn appended_to(&mut self, t: &Target) -> Entry {
        let mut e = self.appended(t.size.min(MEMORY_MAX));
        if self.fit(t, &mut e) && !self.r.one_in(4) {
            e.list = 0;
        }
        self.long_portal(&mut e);
        e
    }

    fn searched_in(&mut self, t: &Target) -> Entry {
        let mut e = self.searched(t.size.min(MEMORY_MAX));
        self.fit(t, &mut e);
        self.long_portal(&mut e);
        e
    }

    /// A request that an entry matches, mostly, and which entry.
    fn request_to(&mut self, t: &Target) -> (Request, Option<usize>) {
        let mut q = self.request(t.size.min(MEMORY_MAX));
        if self.r.one_in(100) {
            q.portal = self.r.pick(&[8, 256, u16::MAX]);
            q.ack = self.r.pick(&[3, 4, 256, u16::MAX]);
        }
        if entries(t).is_empty() || self.r.one_in(3) {
            return (q, None);
        }
        let i = self.r.index(entries(t).len());
        let e = &entries(t)[i].entry;
        q.portal = e.portal;
        q.matchbits = e.matchbits ^ (self.r.word() & e.ignorebits);
        for (id, its) in [(&mut q.nid, e.nid), (&mut q.pid, e.pid), (&mut q.uid, e.uid)] {
            if its != ANY && !self.r.one_in(10) {
                *id = its;
            }
        }
        if self.r.one_in(3) {
            let length = u64::from(e.length);
            q.offset = self.r.pick(&[length, length + 1, length.saturating_sub(1), length.saturating_sub(3), length / 2]);
        }
        (q, Some(i))
    }
}

// ## Targets near the limits
impl Chooser {
    /// A sound target that a list of calls may or may not lead to; what is not in use holds anything.
    fn target(&mut self, size: u32) -> Box<Target> {
        let mut t = garbage(&mut self.r);
        t.size = size;
        self.good = u64::MAX;
        self.build_entries(&mut t);
        self.build_headers(&mut t);
        self.build_queue(&mut t.queue);
        for c in &mut t.counters.slots {
            *c = Counter { success: self.r.odd(5), failure: if self.r.one_in(4) { self.r.odd(3) } else { 0 } };
        }
        t.registers = Registers { dropped: self.r.odd(5), permission: self.r.odd(5), operation: self.r.odd(5) };
        self.good = self.r.pick(&[40, 100, 400]);
        t
    }

    fn count(&mut self, most: usize) -> usize {
        let any = self.r.index(most + 1);
        self.r.pick(&[0, 1, any, any, most - 1, most, most])
    }

    fn build_entries(&mut self, t: &mut Target) {
        let n = self.count(ENTRIES);
        let least = n as u32;
        // from small numbers, or so that the last handle is given or nearly
        let more = least + 1 + self.r.below(9) as u32;
        let top = if self.r.one_in(4) { self.r.pick(&[u32::MAX, u32::MAX - 1, u32::MAX - 2]) } else { self.r.pick(&[least, more]) };
        t.last = top;
        t.entries.count = n;
        for i in 0..n {
            let entry = self.appended(t.size);
            let managed = entry.options & MANAGE_LOCAL != 0;
            let local = if managed { self.r.below(u64::from(entry.length) + 1) as u32 } else { 0 };
            let handle = top - (n - 1 - i) as u32;
            t.entries.slots[i] = HeldEntry { entry, handle, local, retired: 0 };
        }
        if self.r.one_in(4) {
            self.shuffle(&mut t.entries.slots[..n]);
        }
    }

    /// Other handles in other places: only that they are distinct is asked.
    fn shuffle(&mut self, slots: &mut [HeldEntry]) {
        for i in 1..slots.len() {
            let k = self.r.index(i + 1);
            slots.swap(i, k);
        }
    }

    fn build_headers(&mut self, t: &mut Target) {
        let takes = |x: &HeldEntry| x.entry.list == 1 && x.entry.options & UNEXPECTED_HDR_DISABLE == 0;
        let holders: Vec<usize> = (0..t.entries.count).filter(|i| takes(&t.entries.slots[*i])).collect();
        let n = if holders.is_empty() { 0 } else { self.count(HEADERS) };
        t.unexpected.count = n;
        let few = 1 + self.r.index(holders.len().max(1));
        for j in 0..n {
            let i = holders[self.r.index(few)];
            t.unexpected.slots[j] = self.header(&t.entries.slots[i], t.size);
            if self.r.one_in(6) {
                t.entries.slots[i].retired = self.r.pick(&[1, 1, 2, u64::MAX]);
            }
        }
    }

    fn header(&mut self, x: &HeldEntry, size: u32) -> Header {
        let mut q = self.request(size);
        // no request that is let in has them, but a sound header may
        for id in [&mut q.nid, &mut q.pid, &mut q.uid] {
            if self.r.one_in(12) {
                *id = ANY;
            }
        }
        let e = &x.entry;
        let at = self.r.below(u64::from(e.length) + 1) as u32;
        let room = e.length - at;
        let accepted = self.r.pick(&[0, room, room / 2, room.min(3)]);
        let more = self.r.pick(&[0, 0, 1, MEMORY_MAX - accepted]);
        Header {
            portal: e.portal,
            kind: self.r.pick(&[0, 0, 1, 1, 1, 2, u16::MAX]),
            handle: x.handle,
            nid: q.nid,
            pid: q.pid,
            uid: q.uid,
            requested: accepted + more,
            accepted,
            place: e.start + at,
            matchbits: q.matchbits,
            offset: q.offset,
            hdrdata: q.hdrdata,
        }
    }

    /// Its slots hold anything, so its events do; their gap is above 1, which tells them from those that calls queue.
    fn build_queue(&mut self, q: &mut Queue) {
        q.count = self.count(EVENTS);
        q.head = if self.r.one_in(4) { self.r.word() as usize } else { self.r.index(EVENTS) };
        q.lost = self.r.pick(&[0, 0, 1, 2, u64::MAX]);
        for e in &mut q.slots {
            e.kind = self.r.pick(&[0, 1, 2, 3, 4, 5, 6, 7, 8, u32::MAX]);
            e.fail = self.r.pick(&[0, 0, 1, u16::MAX]);
            e.gap |= 2;
        }
    }
}

// ## Damage

const ENTRY_FIELDS: [(usize, usize); 16] = [
    (offset_of!(HeldEntry, handle), 4),
    (offset_of!(HeldEntry, handle), 4),
    (offset_of!(HeldEntry, local), 4),
    (offset_of!(HeldEntry, local), 4),
    (offset_of!(HeldEntry, retired), 8),
    (offset_of!(HeldEntry, retired), 8),
    (offset_of!(HeldEntry, entry.portal), 2),
    (offset_of!(HeldEntry, entry.list), 1),
    (offset_of!(HeldEntry, entry.counter), 1),
    (offset_of!(HeldEntry, entry.options), 4),
    (offset_of!(HeldEntry, entry.options), 4),
    (offset_of!(HeldEntry, entry.start), 4),
    (offset_of!(HeldEntry, entry.length), 4),
    (offset_of!(HeldEntry, entry.minfree), 4),
    (offset_of!(HeldEntry, entry.uid), 4),
    (offset_of!(HeldEntry, entry.ignorebits), 8),
];

const HEADER_FIELDS: [(usize, usize); 10] = [
    (offset_of!(Header, handle), 4),
    (offset_of!(Header, portal), 2),
    (offset_of!(Header, kind), 2),
    (offset_of!(Header, place), 4),
    (offset_of!(Header, place), 4),
    (offset_of!(Header, accepted), 4),
    (offset_of!(Header, requested), 4),
    (offset_of!(Header, nid), 4),
    (offset_of!(Header, pid), 4),
    (offset_of!(Header, uid), 4),
];

const NUMBERS: [(usize, usize); 7] = [
    (offset_of!(Target, size), 4),
    (offset_of!(Target, last), 4),
    (offset_of!(Target, entries.count), 8),
    (offset_of!(Target, unexpected.count), 8),
    (offset_of!(Target, queue.count), 8),
    (offset_of!(Target, queue.head), 8),
    (offset_of!(Target, queue.lost), 8),
];

fn read(t: &Target, at: usize, width: usize) -> u64 {
    let mut word = [0; 8];
    word[..width].copy_from_slice(&bytes(t)[at..at + width]);
    u64::from_le_bytes(word)
}

impl Chooser {
    fn damage(&mut self, t: &Target) -> Vec<Damage> {
        let n = if self.r.one_in(5) { 2 } else { 1 };
        (0..n).map(|_| self.one_damage(t)).collect()
    }

    fn one_damage(&mut self, t: &Target) -> Damage {
        match self.r.below(8) {
            0 => Damage { at: 8 * self.r.index(size_of::<Target>() / 8), width: 8, value: self.r.odd(100) },
            1 | 2 => self.damage_at(t, 0, &NUMBERS, 0, 1),
            3..=5 => self.damage_at(t, offset_of!(Target, entries.slots), &ENTRY_FIELDS, size_of::<HeldEntry>(), entries(t).len()),
            _ => self.damage_at(t, offset_of!(Target, unexpected.slots), &HEADER_FIELDS, size_of::<Header>(), headers(t).len()),
        }
    }

    /// Of `n` slots from `start` on, one field of one.
    fn damage_at(&mut self, t: &Target, start: usize, fields: &[(usize, usize)], slot: usize, n: usize) -> Damage {
        let (field, width) = self.r.pick(fields);
        let (i, other) = (self.r.index(n.max(1)), self.r.index(n.max(1)));
        let at = start + i * slot + field;
        let old = read(t, at, width);
        let value = self.other(old, read(t, start + other * slot + field, width));
        Damage { at, width, value }
    }

    /// Another value of a field: near the old one, that of another slot, a limit, any.
    fn other(&mut self, old: u64, others: u64) -> u64 {
        match self.r.below(9) {
            0 | 1 => old.wrapping_add(1),
            2 => old.wrapping_sub(1),
            3 => others,
            4 => old ^ (1 << self.r.below(16)),
            5 => self.r.pick(&[7, 8, 15, 16, 32, 33, 64, 65, 65_536, 65_537, 1 << 15]),
            6 => self.r.pick(&[0, 1, 2, u64::MAX]),
            _ => self.r.odd(70),
        }
    }
}
