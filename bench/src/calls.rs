//! The calls on a target, so that one driver can run any implementation of them.

use crate::layout::{CounterChange, CounterTest, Entry, EventReply, Reply, Request, Settings, Target};

/// The public calls. Each tests its state first, and answers BAD_STATE if it is not sound.
pub trait Calls {
    #[allow(clippy::new_ret_no_self)]
    fn new(place: &mut Target, s: Settings) -> Reply;
    fn append(t: &mut Target, e: Entry) -> Reply;
    fn unlink(t: &mut Target, handle: u32) -> Reply;
    fn search(t: &mut Target, e: Entry) -> Reply;
    fn put(t: &mut Target, memory: &mut [u8], q: Request, payload: &[u8]) -> Reply;
    fn get(t: &mut Target, memory: &[u8], q: Request, reply: &mut [u8]) -> Reply;
    fn read_event(t: &mut Target) -> EventReply;
    fn set_counter(t: &mut Target, x: CounterChange) -> Reply;
    fn increment(t: &mut Target, x: CounterChange) -> Reply;
    fn read_counter(t: &Target, k: u64) -> Reply;
    fn read_register(t: &Target, k: u64) -> Reply;
    fn ready(t: &Target, x: CounterTest) -> Reply;
    fn poll(t: &Target, ks: &[u64], tests: &[u64]) -> Reply;
}
