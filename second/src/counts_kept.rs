//! What the library's own swaps and runs must keep: every root's count and
//! share, as the library itself tells them.

use crate::hold::hex;
use crate::input::Input;
use crate::library;
use crate::lists::{Lengths, Lists, NUMBERS, PLACES};
use crate::model::Question;

/// How many roots were counted, each before and after. The library has left
/// the input `after`: it was held to it.
pub fn counts_kept(before: &Input, after: &Input) -> Result<usize, String> {
    let roots = before.root_list().len();
    for position in 0..roots as u32 {
        let [told_before, told_after] = [told(before, position)?, told(after, position)?];
        if told_before != told_after {
            return Err(format!(
                "root {position} has another count\n\
                 before: {} written, {}\nafter:  {} written, {}\n\
                 before:\n{}\nafter:\n{}",
                told_before.0,
                told_before.1.text(),
                told_after.0,
                told_after.1.text(),
                hex(before),
                hex(after)
            ));
        }
    }
    Ok(roots)
}

/// How many numbers the library writes where it is asked for a root's count, and
/// what: count and share, or why it refuses.
fn told(input: &Input, position: u32) -> Result<(usize, Lists), String> {
    let lengths = Lengths {
        numbers: NUMBERS,
        counts: PLACES,
        shares: PLACES,
    };
    let mut lists = Lists::untouched();
    let mut question = Question::Count { position };
    let written = library::ask(&mut input.clone(), &mut question, &mut lists, lengths)?;
    Ok((written, lists))
}
