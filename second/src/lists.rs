//! The lists that are lent for an answer: one for its numbers, and for Count
//! one for the count and one for the share.

use crate::model::Question;
use crate::random::Random;

/// What is lent lies at the start of so many entries.
pub const NUMBERS: usize = 8;
pub const PLACES: usize = 2;

/// What each entry holds before the call: no number, count or share of any
/// answer.
const UNTOUCHED: u32 = 0xA5A5_5A5A;
const UNTOUCHED_PLACE: u64 = 0xA5A5_5A5A_5A5A_A5A5;

/// The whole lists, before or after a call.
#[derive(Debug, PartialEq, Eq)]
pub struct Lists {
    pub numbers: [u32; NUMBERS],
    pub counts: [u64; PLACES],
    /// The bits of doubles.
    pub shares: [u64; PLACES],
}

impl Lists {
    pub fn untouched() -> Lists {
        Lists {
            numbers: [UNTOUCHED; NUMBERS],
            counts: [UNTOUCHED_PLACE; PLACES],
            shares: [UNTOUCHED_PLACE; PLACES],
        }
    }

    /// An entry that is left as it was is a dash, and a share its bits.
    pub fn text(&self) -> String {
        let numbers = self.numbers.map(|number| match number {
            UNTOUCHED => "-".to_string(),
            number => number.to_string(),
        });
        let counts = self.counts.map(|count| match count {
            UNTOUCHED_PLACE => "-".to_string(),
            count => count.to_string(),
        });
        let shares = self.shares.map(|share| match share {
            UNTOUCHED_PLACE => "-".to_string(),
            share => format!("{share:#018x}"),
        });
        format!(
            "list {}, counts {}, shares {}",
            numbers.join(" "),
            counts.join(" "),
            shares.join(" ")
        )
    }
}

/// How many entries of each list are lent.
#[derive(Clone, Copy, Debug)]
pub struct Lengths {
    pub numbers: usize,
    pub counts: usize,
    pub shares: usize,
}

impl Lengths {
    /// The fewest with which a question is answered: those of the longest
    /// answer.
    fn fewest(question: &Question) -> Lengths {
        let without_places = |numbers| Lengths {
            numbers,
            counts: 0,
            shares: 0,
        };
        match question {
            Question::Check | Question::Read { .. } | Question::Show { .. } | Question::Recover => {
                without_places(2)
            }
            Question::Label { .. } => without_places(3),
            Question::Swap { .. } => without_places(4),
            Question::Run { .. } => without_places(6),
            Question::Count { .. } => Lengths {
                numbers: 2,
                counts: 1,
                shares: 1,
            },
        }
    }

    /// Is this answered?
    pub fn suffice(self, question: &Question) -> bool {
        let fewest = Lengths::fewest(question);
        self.numbers >= fewest.numbers
            && self.counts >= fewest.counts
            && self.shares >= fewest.shares
    }

    /// All that can be lent for a question, too short ones among them.
    pub fn all(question: &Question) -> Vec<Lengths> {
        let most = Lengths::most(question);
        let mut all = Vec::new();
        for numbers in 0..=most.numbers {
            for counts in 0..=most.counts {
                for shares in 0..=most.shares {
                    all.push(Lengths {
                        numbers,
                        counts,
                        shares,
                    });
                }
            }
        }
        all
    }

    /// Only Count has places for a count and a share.
    fn most(question: &Question) -> Lengths {
        let places = match question {
            Question::Count { .. } => PLACES,
            _ => 0,
        };
        Lengths {
            numbers: NUMBERS,
            counts: places,
            shares: places,
        }
    }

    /// Some that suffice.
    pub fn enough(question: &Question, random: &mut Random) -> Lengths {
        Lengths::some(question, random, |lengths| lengths.suffice(question))
    }

    /// Some that don't.
    pub fn too_short(question: &Question, random: &mut Random) -> Lengths {
        Lengths::some(question, random, |lengths| !lengths.suffice(question))
    }

    fn some(question: &Question, random: &mut Random, wanted: impl Fn(Lengths) -> bool) -> Lengths {
        let mut all = Lengths::all(question);
        all.retain(|&lengths| wanted(lengths));
        random.pick(&all).expect("there are such lengths")
    }
}
