//! Cases as text: what is written is read again, and no file makes the reader or the calls panic.

use gussetreed_bench::cases::Case;
use gussetreed_bench::compare;
use gussetreed_bench::generate::calls::Sequence;
use gussetreed_bench::plain::Plain;
use gussetreed_bench::random::Random;

/// A short case with damage in it.
fn case(n: u64) -> Case {
    let (mut case, mut maker) = Sequence::new(3, n);
    let mut pair = compare::Pair::new(&case);
    while let Some(step) = maker.step(pair.plain.target()) {
        pair.step::<Plain, Plain>(&step);
        case.steps.push(step);
    }
    case
}

fn refused(text: &str, why: &str) {
    let text = format!("gussetreed calls\n{text}");
    let said = Case::parse(&text).err().unwrap_or_else(|| panic!("taken:\n{text}"));
    assert!(said.contains(why), "{said}\n{text}");
}

#[test]
fn written_and_read() {
    for n in 0..50 {
        let text = case(n).text();
        assert_eq!(Case::parse(&text).unwrap().text(), text);
    }
}

#[test]
fn refusals() {
    refused("memory 16\nmemory 16\n", "a second time");
    refused("target 11336\ntarget 11336\n", "a second time");
    refused("read_event\nmemory 16\n", "behind a call");
    refused("damage 0 1 1\ntarget 11336\n", "behind a call");
    refused("memory 16\nread_event\nat 0 00\n", "not behind memory or target");
    refused("memory 4294967295\n", "are the most");
    refused("memory 16\nat 16 00\n", "beyond the end");
    refused("read_event\ndamage 0 1 1\n", "damage behind the last call");
    refused("damage 11336 1 1\nread_event\n", "beyond the target");
    refused("memory 16\nput 17 0 0 0 0 0 0 0 0 -\n", "17 bytes lent");
    refused("memory 16\nput 16 0 0 0 0 0 0 0 0 +1\n", "not bytes in hex");
}

/// Changes some lines of a case: their order, their words, their bytes.
fn edited(r: &mut Random, text: &str) -> String {
    let mut lines: Vec<String> = text.lines().map(str::to_string).collect();
    for _ in 0..1 + r.index(3) {
        let (i, k) = (r.index(lines.len()), r.index(lines.len()));
        let words = lines[i].split(' ').count();
        let w = r.index(words);
        let other = r.pick(&["0", "1", "-", "4294967295", "18446744073709551615", "-1", "ff", "new", "é", "8", "11336"]);
        match r.below(6) {
            0 => lines.swap(i, k),
            1 => drop(lines.remove(i)),
            2 => lines.insert(i, lines[k].clone()),
            _ => lines[i] = lines[i].split(' ').enumerate().map(|(j, x)| if j == w { other } else { x }).collect::<Vec<_>>().join(" "),
        }
    }
    lines.join("\n")
}

#[test]
fn edited_by_hand() {
    let mut r = Random::new(5);
    let mut taken = 0;
    for n in 0..60 {
        let text = case(n).text();
        for _ in 0..20 {
            if let Ok(case) = Case::parse(&edited(&mut r, &text)) {
                assert_eq!(compare::run::<Plain, Plain>(&case), None);
                taken += 1;
            }
        }
    }
    assert!(taken > 100, "{taken} taken");
}
