//! Buffers between guards: marks at both ends that no call may write to.

use crate::layout::Target;
use std::hint::black_box;

/// So many marks stand at each end.
const WIDTH: usize = 32;
const MARK: u8 = 0xA5;

fn marked<T: PartialEq + From<u8>>(part: &[T]) -> bool {
    part.iter().all(|x| *x == T::from(MARK))
}

#[derive(Clone)]
pub struct Guarded<T> {
    all: Vec<T>,
}

// What a call was lent is looked at as if anything had written to it: hence `black_box`.
impl<T: Copy + PartialEq + From<u8>> Guarded<T> {
    pub fn new(content: &[T]) -> Guarded<T> {
        let mut it = Guarded { all: Vec::new() };
        it.set(content);
        it
    }

    pub fn set(&mut self, content: &[T]) {
        let marks = [T::from(MARK); WIDTH];
        self.all.clear();
        self.all.extend_from_slice(&marks);
        self.all.extend_from_slice(content);
        self.all.extend_from_slice(&marks);
    }

    /// An empty one points nowhere: a call that looks there faults.
    pub fn content(&self) -> &[T] {
        match self.all.len() - 2 * WIDTH {
            0 => &[],
            n => &self.all[WIDTH..WIDTH + n],
        }
    }

    pub fn content_mut(&mut self) -> &mut [T] {
        match self.all.len() - 2 * WIDTH {
            0 => &mut [],
            n => &mut self.all[WIDTH..WIDTH + n],
        }
    }

    pub fn holds(&self, content: &[T]) -> bool {
        black_box(self).content() == content
    }

    pub fn guards_kept(&self) -> bool {
        let all = &black_box(self).all;
        marked(&all[..WIDTH]) && marked(&all[all.len() - WIDTH..])
    }
}

#[derive(Clone)]
#[repr(C)]
pub struct GuardedTarget {
    before: [u8; WIDTH],
    pub target: Target,
    after: [u8; WIDTH],
}

impl GuardedTarget {
    pub fn new(target: &Target) -> Box<GuardedTarget> {
        Box::new(GuardedTarget { before: [MARK; WIDTH], target: *target, after: [MARK; WIDTH] })
    }

    pub fn guards_kept(&self) -> bool {
        let it = black_box(self);
        marked(&it.before) && marked(&it.after)
    }
}
