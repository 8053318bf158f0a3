//! What counts as a difference between two implementations.
//!
//! Compared are the reply with all its fields, every byte of the memory and of the reply buffer, and what the target holds. Left free
//! are the slots that are not in use, where the ring of events begins, and which number stands for a flag that is set. After a
//! refusal, and after a call that only reads, every byte of the target is as it was; of `new` every byte is compared. Where a call
//! moved no bytes, memory and reply buffer are as they were.
//!
//! The proved side also leaves a sound target unless it refuses, what it is lent to read only as it was, and the guards around all
//! that it is lent. Beside plain Rust that tests the state runs the one that does not, wherever the state is sound.

use crate::calls::Calls;
use crate::cases::{bytes, Answer, Call, Case, Side, Step};
use crate::layout::*;
use crate::plain::{sound, Trusting};

/// A field's name and value.
pub type Field = (&'static str, u64);
/// What each of two is.
type Names = [&'static str; 2];

const SIDES: Names = ["proved", "plain"];
const UNTESTED: Names = ["trusting", "plain"];
const TIMES: Names = ["before the call", "after it"];

fn first(a: &[Field], b: &[Field], names: Names) -> Option<String> {
    let (x, y) = a.iter().zip(b).find(|(x, y)| x != y)?;
    Some(format!("{}: {} {}, {} {}", x.0, names[0], x.1, names[1], y.1))
}

fn entry(x: &HeldEntry) -> [Field; 16] {
    let e = &x.entry;
    [
        ("portal", e.portal.into()),
        ("list", e.list.into()),
        ("counter", e.counter.into()),
        ("options", e.options.into()),
        ("start", e.start.into()),
        ("length", e.length.into()),
        ("minfree", e.minfree.into()),
        ("uid", e.uid.into()),
        ("nid", e.nid.into()),
        ("pid", e.pid.into()),
        ("matchbits", e.matchbits),
        ("ignorebits", e.ignorebits),
        ("user", e.user),
        ("handle", x.handle.into()),
        ("local", x.local.into()),
        ("retired", (x.retired != 0).into()),
    ]
}

fn header(h: &Header) -> [Field; 12] {
    [
        ("portal", h.portal.into()),
        ("kind", h.kind.into()),
        ("handle", h.handle.into()),
        ("nid", h.nid.into()),
        ("pid", h.pid.into()),
        ("uid", h.uid.into()),
        ("requested", h.requested.into()),
        ("accepted", h.accepted.into()),
        ("place", h.place.into()),
        ("matchbits", h.matchbits),
        ("offset", h.offset),
        ("hdrdata", h.hdrdata),
    ]
}

pub fn event(e: &Event) -> [Field; 16] {
    [
        ("kind", e.kind.into()),
        ("fail", e.fail.into()),
        ("gap", e.gap.into()),
        ("portal", e.portal.into()),
        ("list", e.list.into()),
        ("owner", e.owner.into()),
        ("nid", e.nid.into()),
        ("pid", e.pid.into()),
        ("uid", e.uid.into()),
        ("requested", e.requested.into()),
        ("accepted", e.accepted.into()),
        ("place", e.place.into()),
        ("matchbits", e.matchbits),
        ("offset", e.offset),
        ("hdrdata", e.hdrdata),
        ("user", e.user),
    ]
}

fn numbers(t: &Target) -> [Field; 9] {
    [
        ("size", t.size.into()),
        ("last handle given", t.last.into()),
        ("number of entries", t.entries.count as u64),
        ("number of waiting headers", t.unexpected.count as u64),
        ("number of queued events", t.queue.count as u64),
        ("events lost", (t.queue.lost != 0).into()),
        ("register dropped", t.registers.dropped),
        ("register permission", t.registers.permission),
        ("register operation", t.registers.operation),
    ]
}

fn slots<T, const N: usize>(name: &str, [a, b]: [&[T]; 2], names: Names, fields: fn(&T) -> [Field; N]) -> Option<String> {
    a.iter().zip(b).enumerate().find_map(|(i, (x, y))| Some(format!("{name} {i}, {}", first(&fields(x), &fields(y), names)?)))
}

fn entries(a: &Target, b: &Target, names: Names) -> Option<String> {
    let n = a.entries.count.min(a.entries.slots.len());
    slots("entry", [&a.entries.slots[..n], &b.entries.slots[..n]], names, entry)
}

fn headers(a: &Target, b: &Target, names: Names) -> Option<String> {
    let n = a.unexpected.count.min(a.unexpected.slots.len());
    slots("header", [&a.unexpected.slots[..n], &b.unexpected.slots[..n]], names, header)
}

/// The event at place `i` of the queue, the oldest at 0.
fn queued(q: &Queue, i: usize) -> &Event {
    let n = q.slots.len();
    &q.slots[(q.head % n + i) % n]
}

fn events(a: &Queue, b: &Queue, names: Names) -> Option<String> {
    let n = a.count.min(a.slots.len());
    (0..n).find_map(|i| Some(format!("queued event {i}, {}", first(&event(queued(a, i)), &event(queued(b, i)), names)?)))
}

fn counter(c: &Counter) -> [Field; 2] {
    [("success", c.success), ("failure", c.failure)]
}

/// The first difference between what two targets hold.
fn targets(a: &Target, b: &Target, names: Names) -> Option<String> {
    if bytes(a) == bytes(b) {
        return None;
    }
    let found = first(&numbers(a), &numbers(b), names)
        .or_else(|| entries(a, b, names))
        .or_else(|| headers(a, b, names))
        .or_else(|| events(&a.queue, &b.queue, names))
        .or_else(|| slots("counter", [&a.counters.slots, &b.counters.slots], names, counter));
    Some(format!("target: {}", found?))
}

fn reply(r: &Reply) -> [Field; 4] {
    [("answer", r.answer.into()), ("code", r.code.into()), ("value", r.value), ("second", r.second)]
}

fn answers(a: &Answer, b: &Answer, names: Names) -> Option<String> {
    let found = match (a, b) {
        (Answer::Reply(x), Answer::Reply(y)) => first(&reply(x), &reply(y), names),
        (Answer::Event(x), Answer::Event(y)) => {
            let head = |r: &EventReply| [("answer", r.answer.into()), ("code", r.code.into())];
            first(&head(x), &head(y), names).or_else(|| first(&event(&x.event), &event(&y.event), names))
        }
        _ => Some("a reply and an event".to_string()),
    };
    Some(format!("reply: {}", found?))
}

/// The first byte at which two buffers of the same length differ, with what each of them is.
fn buffers(name: &str, [a, b]: [&[u8]; 2], [is_a, is_b]: Names) -> Option<String> {
    if a == b {
        return None;
    }
    let i = a.iter().zip(b).position(|(x, y)| x != y)?;
    Some(format!("{name}, byte {i}: {is_a} {}, {is_b} {}", a[i], b[i]))
}

/// The first difference between two sides after a call, and their answers.
fn sides((x, a): (&Side, &Answer), (y, b): (&Side, &Answer), names: Names) -> Option<String> {
    answers(a, b, names)
        .or_else(|| targets(x.target(), y.target(), names))
        .or_else(|| buffers("memory", [x.memory.content(), y.memory.content()], names))
        .or_else(|| buffers("reply buffer", [x.reply.content(), y.reply.content()], names))
}

/// The proved and the plain side, with room to remember what they were.
pub struct Pair {
    pub proved: Side,
    pub plain: Side,
    trusting: Side,
    before: [Box<Target>; 2],
    memory: Vec<u8>,
    undamaged: Box<Target>,
}

impl Pair {
    pub fn new(case: &Case) -> Pair {
        let (room, side) = (|| case.start.clone(), || Side::new(case));
        let before = [room(), room()];
        Pair { proved: side(), plain: side(), trusting: side(), before, memory: Vec::new(), undamaged: room() }
    }

    /// Makes the call of a step on both sides: their answers, and a difference if there is one.
    pub fn step<A: Calls, B: Calls>(&mut self, step: &Step) -> (Answer, Answer, Option<String>) {
        self.damage(step);
        self.remember();
        let trusted = self.trusted(step);
        let a = self.proved.make::<A>(&step.call);
        let b = self.plain.make::<B>(&step.call);
        let found = self.difference(step, &a, &b).or_else(|| sides((&self.trusting, &trusted?), (&self.plain, &b), UNTESTED));
        if !step.damage.is_empty() && b.is_refusal() {
            self.repair();
        }
        (a, b, found)
    }

    /// Free slots may differ, and damage can bring them into use: so all sides get the same bytes.
    fn damage(&mut self, step: &Step) {
        if step.damage.is_empty() {
            return;
        }
        *self.undamaged = *self.plain.target();
        self.plain.damage(&step.damage);
        *self.proved.target_mut() = *self.plain.target();
        *self.trusting.target_mut() = *self.plain.target();
    }

    fn repair(&mut self) {
        for side in [&mut self.proved, &mut self.plain, &mut self.trusting] {
            *side.target_mut() = *self.undamaged;
        }
    }

    fn remember(&mut self) {
        *self.before[0] = *self.proved.target();
        *self.before[1] = *self.plain.target();
        self.memory.clear();
        self.memory.extend_from_slice(self.plain.memory.content());
    }

    /// The answer of plain Rust that does not test the state. Of an unsound one only `new` is asked of it; the others refuse.
    fn trusted(&mut self, step: &Step) -> Option<Answer> {
        let may = matches!(step.call, Call::New(_)) || sound(self.plain.target());
        may.then(|| self.trusting.make::<Trusting>(&step.call))
    }

    fn difference(&self, step: &Step, a: &Answer, b: &Answer) -> Option<String> {
        sides((&self.proved, a), (&self.plain, b), SIDES)
            .or_else(|| self.new_bytes(step))
            .or_else(|| self.kept_target(step, b))
            .or_else(|| self.kept_buffers(step, b))
            .or_else(|| Some(format!("the proved side wrote to {}", self.proved.strayed(&step.call)?)))
            .or_else(|| self.left_unsound(a))
    }

    fn left_unsound(&self, a: &Answer) -> Option<String> {
        (!a.is_refusal() && !sound(self.proved.target())).then(|| "target: the proved side left it unsound".to_string())
    }

    fn new_bytes(&self, step: &Step) -> Option<String> {
        match step.call {
            Call::New(_) => buffers("new target", [bytes(self.proved.target()), bytes(self.plain.target())], SIDES),
            _ => None,
        }
    }

    fn kept_target(&self, step: &Step, b: &Answer) -> Option<String> {
        let kept = step.call.only_reads() || b.is_refusal() && !matches!(step.call, Call::New(_));
        if !kept {
            return None;
        }
        buffers("proved target not kept", [bytes(&self.before[0]), bytes(self.proved.target())], TIMES)
            .or_else(|| buffers("plain target not kept", [bytes(&self.before[1]), bytes(self.plain.target())], TIMES))
    }

    /// Both sides agree here, so one is looked at.
    fn kept_buffers(&self, step: &Step, b: &Answer) -> Option<String> {
        let moved = b.answer() == PRIORITY || b.answer() == OVERFLOW;
        match &step.call {
            Call::Put { .. } if moved => None,
            Call::Get { reply, .. } if !moved => buffers("reply buffer not kept", [reply, self.plain.reply.content()], TIMES),
            _ => buffers("memory not kept", [&self.memory, self.plain.memory.content()], TIMES),
        }
    }
}

/// The first step at which two implementations differ, and how.
pub fn run<A: Calls, B: Calls>(case: &Case) -> Option<(usize, String)> {
    let mut pair = Pair::new(case);
    case.steps.iter().enumerate().find_map(|(i, step)| Some((i, pair.step::<A, B>(step).2?)))
}
