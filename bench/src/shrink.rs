//! Makes a failing case smaller.

/// Drops parts of a list for as long as it still fails: halves first, then ever smaller parts. At most `tries` lists are tried.
pub fn shrink<T: Clone>(list: &[T], mut tries: usize, mut fails: impl FnMut(&[T]) -> bool) -> Vec<T> {
    let mut list = list.to_vec();
    let mut part = list.len().div_ceil(2);
    while part > 0 {
        let dropped = pass(&mut list, part, &mut tries, &mut fails);
        if part == 1 && !dropped || tries == 0 {
            break;
        }
        part = part.div_ceil(2).min(list.len());
    }
    list
}

/// Tries to drop each part of this length once.
fn pass<T: Clone>(list: &mut Vec<T>, part: usize, tries: &mut usize, fails: &mut impl FnMut(&[T]) -> bool) -> bool {
    let mut dropped = false;
    let mut end = list.len();
    while end > 0 && *tries > 0 {
        let start = end.saturating_sub(part);
        let mut rest = list[..start].to_vec();
        rest.extend_from_slice(&list[end..]);
        *tries -= 1;
        if fails(&rest) {
            *list = rest;
            dropped = true;
        }
        end = start;
    }
    dropped
}
