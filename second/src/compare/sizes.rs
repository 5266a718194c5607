//! The largest stores that there may be, counted in each comparison.

use crate::input::Input;
use crate::layout::{MOST_RECORDS, MOST_VARIABLES};
use crate::tally::{written, Tally};

/// A tally with a line more for the longest table, for the most variables, and
/// for both at once.
pub fn lines(tally: Tally, what: &str, fewest: usize) -> Tally {
    tally
        .line(&with_most_records(what), fewest)
        .line(&with_most_variables(what), fewest)
        .line(&with_both(what), fewest)
}

pub fn count(input: &Input, what: &str, tally: &mut Tally) {
    let is_longest = input.store().record_count() == MOST_RECORDS;
    let has_most_variables = input.order.len() == MOST_VARIABLES;
    tally.count_if(is_longest, &with_most_records(what));
    tally.count_if(has_most_variables, &with_most_variables(what));
    tally.count_if(is_longest && has_most_variables, &with_both(what));
}

pub fn with_most_records(what: &str) -> String {
    format!("{what}, {} records", written(MOST_RECORDS))
}

fn with_most_variables(what: &str) -> String {
    format!("{what}, n = {MOST_VARIABLES}")
}

fn with_both(what: &str) -> String {
    format!("{}, n = {MOST_VARIABLES}", with_most_records(what))
}
