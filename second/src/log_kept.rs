//! What the model must keep about the log, found without the way in which it is
//! written: from the buffers before and after.

use crate::commit::{logged_swap, Obstacle, Short};
use crate::hold::hex;
use crate::input::Input;
use crate::log::{empty_log, Log, LOG_RECORD_BYTES, SEALED};
use crate::model::{answer, Answer, Question};

/// The log of a made swap: sealed again it leads back to the table and the order
/// before, it has no entry too many, and nothing else in it has changed.
pub fn log_keeps(before: &Input, after: &Input) -> Result<(), String> {
    leads_back(before, after)?;
    let (old, new) = (Log(&before.log), Log(&after.log));
    let beyond = new.count() * LOG_RECORD_BYTES..new.held() * LOG_RECORD_BYTES;
    if before.log.len() != after.log.len() || old.0[beyond.clone()] != new.0[beyond] {
        return Err(report("a swap logs beyond its entries", before));
    }
    let seal = new.seal();
    if seal[..2] != [0; 2] || seal[4..] != [0; 12] {
        return Err(report("a swap leaves another seal", after));
    }
    Ok(())
}

/// Sealed again, the log is recovered from: what is there before is there again,
/// by just as many entries as there are records that differ, and one.
pub fn leads_back(before: &Input, after: &Input) -> Result<(), String> {
    let mut cut = after.clone();
    let place_of_seal = cut.log.len() - LOG_RECORD_BYTES;
    cut.log[place_of_seal] = SEALED;
    let entries = changed_records(before, after) + 1;
    if answer(&mut cut, &Question::Recover) != (Answer::PutBack { entries }) {
        return Err(report("the log has other entries than it should", after));
    }
    if cut.store() != before.store() || cut.log != after.log {
        return Err(report("the log doesn't lead back", after));
    }
    Ok(())
}

fn changed_records(before: &Input, after: &Input) -> usize {
    let (old, new) = (before.store(), after.store());
    let numbers = old.record_numbers();
    numbers
        .filter(|&number| old.bytes(number) != new.bytes(number))
        .count()
}

/// A swap for which the log is short: one that holds the entries needed is just
/// enough, and one that holds one fewer isn't.
pub fn short_keeps(before: &Input, short: Short) -> Result<(), String> {
    let Short {
        level,
        needed,
        held,
    } = short;
    let with = |held: usize| {
        let lent = before.clone().with_log(empty_log(held + 1));
        logged_swap(&lent, level)
    };
    let just_enough = with(needed).is_ok();
    let one_fewer = matches!(
        with(needed - 1),
        Err(Obstacle::LogShort(told)) if told == Short { held: needed - 1, ..short }
    );
    let right = just_enough && one_fewer && (held + 1) * LOG_RECORD_BYTES == before.log.len();
    if right && held < needed {
        Ok(())
    } else {
        Err(report(&format!("{short:?} is miscounted"), before))
    }
}

fn report(what: &str, input: &Input) -> String {
    format!("the model itself: {what}\n{}", hex(input))
}

#[cfg(test)]
mod tests {
    use super::*;
    use crate::generate::busy;
    use crate::logs::cleared;
    use crate::random::Random;

    #[test]
    fn the_model_keeps_what_it_must_about_the_log() {
        for seed in 0..2_000 {
            let random = &mut Random::from_seed(seed);
            let before = busy(random);
            let records = random.between(1, 30);
            let log = cleared(&before, records, random);
            let before = before.with_log(log);
            for level in 0..before.order.len() - 1 {
                let kept = match logged_swap(&before, level) {
                    Ok(after) => log_keeps(&before, &after),
                    Err(Obstacle::LogShort(short)) => short_keeps(&before, short),
                    Err(Obstacle::NoRoom(_)) => Ok(()),
                };
                assert_eq!(kept, Ok(()), "seed {seed}, level {level}");
            }
        }
    }
}
