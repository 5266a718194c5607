//! Random inputs, accepted and damaged, with the kinds of damage made to them.

use crate::damage::{Aimed, AIMED, LOOSE};
use crate::generate::accepted;
use crate::input::Input;
use crate::model::Answer;
use crate::random::Random;
use crate::refusals::Refusal;
use crate::wild::WILD;

pub const WHOLE: &str = "whole";

pub struct Sample {
    pub input: Input,
    pub kinds: Vec<&'static str>,
    /// The answer of Check, where the making of the input tells it already.
    pub known: Option<Answer>,
}

pub fn sample(random: &mut Random) -> Sample {
    match random.below(100) {
        0..=24 => whole(random),
        25..=61 => {
            let aimed = &AIMED[random.below(AIMED.len())];
            one_aimed_damage(aimed, random)
        }
        62..=66 => one_loose_damage(random),
        67..=84 => two_damages(random),
        85..=89 => one_damage_twice(random),
        _ => wild(random),
    }
}

/// The names of all kinds, in the order in which they are printed; the first
/// column is the number aimed at, or none.
pub fn all_kinds() -> Vec<(Option<u32>, &'static str)> {
    let whole = [(None, WHOLE)];
    let aimed = AIMED.iter().map(|aimed| (Some(aimed.number), aimed.name));
    let loose = LOOSE.iter().map(|loose| (None, loose.name));
    let wild = WILD.iter().map(|wild| (None, wild.name));
    whole
        .into_iter()
        .chain(aimed)
        .chain(loose)
        .chain(wild)
        .collect()
}

fn whole(random: &mut Random) -> Sample {
    let (input, used) = accepted(random);
    Sample {
        input,
        kinds: vec![WHOLE],
        known: Some(Answer::Accepted { used }),
    }
}

/// Draws accepted inputs until one has what the damage needs.
pub fn one_aimed_damage(aimed: &Aimed, random: &mut Random) -> Sample {
    loop {
        let (mut input, _) = accepted(random);
        if let Some(place) = (aimed.make)(&mut input, random) {
            let number = aimed.number;
            return Sample {
                input,
                kinds: vec![aimed.name],
                known: Some(Answer::Refused(Refusal { number, place })),
            };
        }
    }
}

fn one_loose_damage(random: &mut Random) -> Sample {
    let (mut input, _) = accepted(random);
    let kinds = loose_damage(&mut input, random).into_iter().collect();
    Sample {
        input,
        kinds,
        known: None,
    }
}

fn two_damages(random: &mut Random) -> Sample {
    let (mut input, _) = accepted(random);
    let first = any_damage(&mut input, random);
    let second = any_damage(&mut input, random);
    Sample {
        input,
        kinds: first.into_iter().chain(second).collect(),
        known: None,
    }
}

/// The same check then speaks of two places, and the lower one counts.
fn one_damage_twice(random: &mut Random) -> Sample {
    let aimed = &AIMED[random.below(AIMED.len())];
    let mut sample = one_aimed_damage(aimed, random);
    if (aimed.make)(&mut sample.input, random).is_some() {
        sample.kinds.push(aimed.name);
        sample.known = None;
    }
    sample
}

fn wild(random: &mut Random) -> Sample {
    let wild = &WILD[random.below(WILD.len())];
    Sample {
        input: (wild.make)(random),
        kinds: vec![wild.name],
        known: None,
    }
}

/// The damage's name; none where the input has not got what it needs.
fn any_damage(input: &mut Input, random: &mut Random) -> Option<&'static str> {
    if random.once_in(5) {
        return loose_damage(input, random);
    }
    let aimed = &AIMED[random.below(AIMED.len())];
    (aimed.make)(input, random).map(|_| aimed.name)
}

fn loose_damage(input: &mut Input, random: &mut Random) -> Option<&'static str> {
    let loose = &LOOSE[random.below(LOOSE.len())];
    (loose.make)(input, random).map(|_| loose.name)
}
