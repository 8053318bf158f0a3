//! The proved library: its exported functions, and each behind a safe one.

use crate::calls::Calls;
use crate::layout::*;

mod exported {
    use crate::layout::*;
    #[rustfmt::skip]
    unsafe extern "C" {
        // a slice is a pointer, then a length
        pub fn gussetreed_new(place: *mut Target, s: Settings) -> Reply;
        pub fn gussetreed_append(t: *mut Target, e: Entry) -> Reply;
        pub fn gussetreed_unlink(t: *mut Target, handle: u32) -> Reply;
        pub fn gussetreed_search(t: *mut Target, e: Entry) -> Reply;
        pub fn gussetreed_put(t: *mut Target, memory: *mut u8, memory_len: usize, q: Request, payload: *const u8, payload_len: usize) -> Reply;
        pub fn gussetreed_get(t: *mut Target, memory: *const u8, memory_len: usize, q: Request, reply: *mut u8, reply_len: usize) -> Reply;
        pub fn gussetreed_read_event(t: *mut Target) -> EventReply;
        pub fn gussetreed_set_counter(t: *mut Target, x: CounterChange) -> Reply;
        pub fn gussetreed_increment(t: *mut Target, x: CounterChange) -> Reply;
        pub fn gussetreed_read_counter(t: *const Target, k: u64) -> Reply;
        pub fn gussetreed_read_register(t: *const Target, k: u64) -> Reply;
        pub fn gussetreed_ready(t: *const Target, x: CounterTest) -> Reply;
        pub fn gussetreed_poll(t: *const Target, ks: *const u64, ks_len: usize, tests: *const u64, tests_len: usize) -> Reply;
    }
}
use exported::*;

/// The proved implementation.
pub struct Proved;

// No function asks anything of its caller but what the types say: a reference is aligned, alone if it is `&mut`, and its bytes are
// initialised.
impl Calls for Proved {
    fn new(place: &mut Target, s: Settings) -> Reply {
        unsafe { gussetreed_new(place, s) }
    }
    fn append(t: &mut Target, e: Entry) -> Reply {
        unsafe { gussetreed_append(t, e) }
    }
    fn unlink(t: &mut Target, handle: u32) -> Reply {
        unsafe { gussetreed_unlink(t, handle) }
    }
    fn search(t: &mut Target, e: Entry) -> Reply {
        unsafe { gussetreed_search(t, e) }
    }
    fn put(t: &mut Target, memory: &mut [u8], q: Request, payload: &[u8]) -> Reply {
        unsafe { gussetreed_put(t, memory.as_mut_ptr(), memory.len(), q, payload.as_ptr(), payload.len()) }
    }
    fn get(t: &mut Target, memory: &[u8], q: Request, reply: &mut [u8]) -> Reply {
        unsafe { gussetreed_get(t, memory.as_ptr(), memory.len(), q, reply.as_mut_ptr(), reply.len()) }
    }
    fn read_event(t: &mut Target) -> EventReply {
        unsafe { gussetreed_read_event(t) }
    }
    fn set_counter(t: &mut Target, x: CounterChange) -> Reply {
        unsafe { gussetreed_set_counter(t, x) }
    }
    fn increment(t: &mut Target, x: CounterChange) -> Reply {
        unsafe { gussetreed_increment(t, x) }
    }
    fn read_counter(t: &Target, k: u64) -> Reply {
        unsafe { gussetreed_read_counter(t, k) }
    }
    fn read_register(t: &Target, k: u64) -> Reply {
        unsafe { gussetreed_read_register(t, k) }
    }
    fn ready(t: &Target, x: CounterTest) -> Reply {
        unsafe { gussetreed_ready(t, x) }
    }
    fn poll(t: &Target, ks: &[u64], tests: &[u64]) -> Reply {
        unsafe { gussetreed_poll(t, ks.as_ptr(), ks.len(), tests.as_ptr(), tests.len()) }
    }
}

const fn field_size<T, F>(_: fn(&T) -> &F) -> usize {
    size_of::<F>()
}

// A struct without padding is as long as its fields together. A change of the layout stops the build here.
macro_rules! no_padding {
    ($($t:ident: $($f:ident)*;)*) => {
        const _: () = { $( assert!(size_of::<$t>() == 0 $( + field_size(|x: &$t| &x.$f) )*, concat!(stringify!($t), " has padding")); )* };
    };
}

no_padding! {
    Settings: size;
    Entry: portal list counter options start length minfree uid nid pid matchbits ignorebits user;
    Request: portal ack nid pid uid matchbits offset hdrdata;
    HeldEntry: entry handle local retired;
    Entries: slots count;
    Header: portal kind handle nid pid uid requested accepted place matchbits offset hdrdata;
    Unexpected: slots count;
    Event: kind fail gap portal list owner nid pid uid requested accepted place matchbits offset hdrdata user;
    Queue: slots head count lost;
    Counter: success failure;
    Counters: slots;
    Registers: dropped permission operation;
    Target: size last entries unexpected queue counters registers;
    CounterChange: counter success failure;
    CounterTest: counter test;
    Reply: answer code value second;
    EventReply: answer code event;
}

// as C's header says too
const _: () = assert!(size_of::<Target>() == 11_336 && align_of::<Target>() == 8);
