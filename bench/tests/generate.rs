//! What the generator is to make now and then, it makes.

use gussetreed_bench::cases::Call;
use gussetreed_bench::compare::Pair;
use gussetreed_bench::generate::calls::Sequence;
use gussetreed_bench::generate::scripts::{script, Line, Script};
use gussetreed_bench::layout::{Entry, Target};
use gussetreed_bench::plain::{Plain, ANY};
use gussetreed_bench::script::run;

#[test]
fn scripts_at_the_limits() {
    let good = |file: &[u8]| !run::<Plain>(file).starts_with("BAD_SCRIPT");
    let (mut calls, mut bytes, mut gets) = ([0; 2], [0; 2], 0);
    for n in 0..2_000 {
        let file = script(1, n);
        let Some(parts) = Script::of(&file) else { continue };
        match parts.lines.len() {
            1_024 if good(&file) => calls[0] += 1,
            1_025 if !good(&file) => calls[1] += 1,
            _ => {}
        }
        match file.len() {
            32_768 if good(&file) => bytes[0] += 1,
            32_769 if !good(&file) => bytes[1] += 1,
            _ => {}
        }
        let longest = |l: &Line| l.kind == 4 && l.body.get(32..36) == Some(&16_384u32.to_le_bytes());
        gets += if good(&file) { parts.lines.iter().filter(|l| longest(l)).count() } else { 0 };
    }
    assert!(!calls.contains(&0) && !bytes.contains(&0) && gets > 0, "calls {calls:?}, bytes {bytes:?}, gets {gets}");
}

/// Portals 256 and 65,535; headers whose nid or pid is any.
#[derive(Default)]
struct Seen {
    appends: [u64; 2],
    searches: [u64; 2],
    headers: [u64; 2],
}

impl Seen {
    fn entry(seen: &mut [u64; 2], e: &Entry) {
        seen[0] += u64::from(e.portal == 256);
        seen[1] += u64::from(e.portal == u16::MAX);
    }

    fn headers(&mut self, t: &Target) {
        for h in t.unexpected.slots.iter().take(t.unexpected.count) {
            self.headers[0] += u64::from(h.nid == ANY);
            self.headers[1] += u64::from(h.pid == ANY);
        }
    }
}

#[test]
fn calls_at_the_limits() {
    let mut seen = Seen::default();
    for n in 0..1_000 {
        let (case, mut maker) = Sequence::new(1, n);
        let mut pair = Pair::new(&case);
        while let Some(step) = maker.step(pair.plain.target()) {
            match &step.call {
                Call::Append(e) => Seen::entry(&mut seen.appends, e),
                Call::Search(e) => Seen::entry(&mut seen.searches, e),
                _ => {}
            }
            assert_eq!(pair.step::<Plain, Plain>(&step).2, None);
            seen.headers(pair.plain.target());
        }
    }
    let Seen { appends, searches, headers } = seen;
    assert!(![appends, searches, headers].as_flattened().contains(&0), "appends {appends:?}, searches {searches:?}, headers {headers:?}");
}
