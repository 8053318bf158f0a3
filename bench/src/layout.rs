//! The structs that cross the boundary. They are the Rattle source itself, so they cannot differ from it.

pub mod matching {
    pub mod layout {
        include!("../../crates/matching/src/layout.rt");
    }
}

pub mod state {
    pub mod layout {
        use super::super::matching;
        include!("../../crates/state/src/layout.rt");
    }
}

pub mod gussetreed {
    pub mod layout {
        use super::super::state;
        include!("../../crates/gussetreed/src/layout.rt");
    }
}

pub use gussetreed::layout::*;
pub use matching::layout::*;
pub use state::layout::*;

/// A target with all numbers 0, for `new` to write to.
pub fn zero_target() -> Box<Target> {
    // it has numbers only
    unsafe { Box::<Target>::new_zeroed().assume_init() }
}
