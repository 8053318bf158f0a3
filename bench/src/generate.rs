//! Random calls: few portals, match bits and identities, so that requests meet entries and entries meet waiting headers; now and then
//! any number at all.

pub mod calls;
pub mod scripts;

use crate::layout::*;
use crate::plain::*;
use crate::random::Random;

/// What a sequence is about.
#[derive(Clone, Copy)]
struct Style {
    /// how often each call comes, in the order of `cases::NAMES`
    weights: [u64; 13],
    /// of 8 appended entries, so many go to the overflow list
    overflow: u64,
    /// of 8 entries, so many use once; so many manage their local offset; so many take headers
    use_once: u64,
    manage_local: u64,
    takes_headers: u64,
}

const fn style(weights: [u64; 13], overflow: u64, use_once: u64, manage_local: u64, takes_headers: u64) -> Style {
    Style { weights, overflow, use_once, manage_local, takes_headers }
}

const MIXED: Style = style([1, 24, 8, 8, 30, 14, 20, 2, 4, 3, 3, 4, 4], 3, 3, 3, 6);
/// Messages arrive early and are taken, deleted or looked at.
const EARLY: Style = style([0, 20, 3, 16, 40, 16, 20, 1, 1, 2, 1, 1, 1], 4, 5, 4, 8);
/// Slots fill up.
const CROWDED: Style = style([0, 80, 3, 2, 8, 4, 10, 1, 1, 1, 1, 1, 1], 4, 0, 2, 6);
/// Headers fill up.
const WAITING: Style = style([0, 6, 4, 3, 70, 30, 12, 1, 1, 1, 1, 1, 1], 7, 1, 2, 8);
/// Events fill the queue.
const UNREAD: Style = style([0, 25, 2, 30, 60, 30, 4, 1, 1, 1, 1, 1, 1], 3, 2, 3, 6);
/// Entries run out of room.
const BOUNDED: Style = style([0, 20, 3, 4, 60, 8, 20, 1, 1, 2, 1, 1, 1], 3, 1, 8, 7);
const STYLES: [Style; 7] = [MIXED, MIXED, EARLY, CROWDED, WAITING, UNREAD, BOUNDED];

/// The numbers that a sequence chooses from.
struct Chooser {
    r: Random,
    style: Style,
    portals: u64,
    bits: u64,
    ids: u64,
    /// one argument in so many is a bad one
    good: u64,
    users: u64,
}

impl Chooser {
    fn new(mut r: Random) -> Chooser {
        let style = r.pick(&STYLES);
        let (portals, bits, ids, good) = (r.pick(&[1, 1, 2, 3]), r.pick(&[1, 2, 2, 4]), r.pick(&[1, 1, 2]), r.pick(&[40, 100, 400]));
        Chooser { r, style, portals, bits, ids, good, users: 0 }
    }

    fn bad(&mut self) -> bool {
        let n = self.good;
        self.r.one_in(n)
    }

    fn of_8(&mut self, n: u64) -> bool {
        self.r.below(8) < n
    }

    /// Which call comes next.
    fn kind(&mut self) -> usize {
        let weights = self.style.weights;
        let mut n = self.r.below(weights.iter().sum());
        for (kind, w) in weights.iter().enumerate() {
            if n < *w {
                return kind;
            }
            n -= w;
        }
        0
    }

    fn options(&mut self) -> u32 {
        let mut o = 0;
        let Style { use_once, manage_local, takes_headers, .. } = self.style;
        let main =
            [(OP_PUT, 7), (OP_GET, 6), (MANAGE_LOCAL, manage_local), (USE_ONCE, use_once), (UNEXPECTED_HDR_DISABLE, 8 - takes_headers)];
        for (bit, of_8) in main {
            if self.of_8(of_8) {
                o |= bit;
            }
        }
        for (bit, of_16) in [
            (NO_TRUNCATE, 4),
            (ACK_DISABLE, 3),
            (EVENT_LINK_DISABLE, 3),
            (EVENT_COMM_DISABLE, 1),
            (EVENT_SUCCESS_DISABLE, 1),
            (EVENT_OVER_DISABLE, 1),
            (EVENT_UNLINK_DISABLE, 2),
            (CT_COMM, 6),
            (CT_OVERFLOW, 6),
            (CT_BYTES, 6),
        ] {
            if self.r.below(16) < of_16 {
                o |= bit;
            }
        }
        if self.bad() {
            o | 1 << self.r.pick(&[15, 16, 31])
        } else {
            o
        }
    }

    /// A region: any, all of the memory, empty, at the edge, beyond it.
    fn region(&mut self, size: u32) -> (u32, u32) {
        let size = size as u64;
        let (start, length) = match self.r.below(10) {
            0 | 1 => (0, size),
            2 => (size, 0),
            3 => (self.r.below(size + 1), 0),
            4 => (self.r.below(size + 1).min(4), 8.min(size.saturating_sub(4))),
            _ => {
                let start = self.r.below(size + 1);
                (start, self.r.below(size + 1 - start))
            }
        };
        if !self.bad() {
            return (start as u32, length as u32);
        }
        let most = u32::MAX;
        self.r.pick(&[(start as u32, (size + 1 - start) as u32), (size as u32 + 1, 0), (most, 1), (1, most), (most, most)])
    }

    fn identity(&mut self) -> u32 {
        if self.of_8(6) {
            ANY
        } else {
            1 + self.r.below(self.ids) as u32
        }
    }

    fn ignore_bits(&mut self) -> u64 {
        match self.r.below(8) {
            0..=2 => 0,
            3 => 1,
            4..=6 => u64::MAX,
            _ => self.r.word(),
        }
    }

    fn counter(&mut self) -> u8 {
        if self.bad() {
            return self.r.pick(&[16, 17, 254, 128]);
        }
        self.r.pick(&[255, 0, 1, 15, 7, 0])
    }

    fn portal(&mut self) -> u16 {
        if self.r.one_in(30) {
            self.r.below(8) as u16
        } else {
            self.r.below(self.portals) as u16
        }
    }

    fn user(&mut self) -> u64 {
        self.users += 1;
        if self.r.one_in(20) {
            self.r.word()
        } else {
            self.users
        }
    }

    fn match_bits(&mut self) -> u64 {
        if self.r.one_in(30) {
            self.r.odd(8)
        } else {
            self.r.below(self.bits)
        }
    }

    /// An entry whose list or mode is below 2 unless it is a bad one.
    fn entry(&mut self, size: u32, list: u8) -> Entry {
        let (start, length) = self.region(size);
        Entry {
            portal: if self.bad() { self.r.pick(&[8, 9, 255]) } else { self.portal() },
            list: if self.bad() { self.r.pick(&[2, 3, 255]) } else { list },
            counter: self.counter(),
            options: self.options(),
            start,
            length,
            minfree: self.r.pick(&[0, 0, 0, 1, 2, 4, length, length / 2, u32::MAX]),
            uid: self.identity(),
            nid: self.identity(),
            pid: self.identity(),
            matchbits: self.match_bits(),
            ignorebits: self.ignore_bits(),
            user: self.user(),
        }
    }

    fn appended(&mut self, size: u32) -> Entry {
        let overflow = self.of_8(self.style.overflow);
        self.entry(size, u8::from(overflow))
    }

    fn searched(&mut self, size: u32) -> Entry {
        let mode = self.r.below(2) as u8;
        self.entry(size, mode)
    }

    fn request(&mut self, size: u32) -> Request {
        let size = size as u64;
        let id = |r: &mut Random, ids| 1 + r.below(ids) as u32;
        let mut q = Request {
            portal: self.portal(),
            ack: self.r.below(4) as u16,
            nid: id(&mut self.r, self.ids),
            pid: id(&mut self.r, self.ids),
            uid: id(&mut self.r, self.ids),
            matchbits: self.match_bits(),
            offset: match self.r.below(10) {
                0..=4 => 0,
                5 | 6 => self.r.below(8),
                7 => self.r.below(size + 2),
                8 => size,
                _ => self.r.odd(size + 1),
            },
            hdrdata: self.r.word(),
        };
        if self.bad() {
            match self.r.below(5) {
                0 => q.nid = ANY,
                1 => q.pid = ANY,
                2 => q.uid = ANY,
                3 => q.ack = self.r.pick(&[4, 5, 255]),
                _ => q.portal = self.r.pick(&[8, 9, 255]),
            }
        }
        q
    }

    /// A requested length that is not very long.
    fn length(&mut self, size: u32) -> usize {
        match self.r.below(10) {
            0 => 0,
            1 => self.r.index(size as usize + 2),
            2 => size as usize,
            _ => self.r.index(12),
        }
    }

    fn change(&mut self, counter: u64) -> CounterChange {
        let value = |r: &mut Random| if r.one_in(3) { r.odd(4) } else { r.below(4) };
        CounterChange { counter, success: value(&mut self.r), failure: value(&mut self.r) }
    }
}
