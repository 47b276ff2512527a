//! "Copy": an entry goes to place `cnt` of one list unless its number stands before that.

use crate::call::{Answer, Outcome};
use crate::image::{Entry, Machine, LISTS, PLACES};

pub fn copy(machine: &mut Machine, cnt: u64, lidx: u64, entry: &Entry) -> Outcome {
    if cnt >= PLACES as u64 || lidx >= LISTS as u64 {
        return Err(14);
    }
    let (cnt, list) = (cnt as usize, &mut machine.refp[lidx as usize]);
    if list[..cnt].iter().any(|first| first.poc == entry.poc) {
        return Err(13);
    }
    list[cnt] = *entry;
    Ok(Answer::Done)
}
