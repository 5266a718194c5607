//! Lists of labels made by hand, with the answers that the rules give to Label.
//! Neither the lists nor the answers are taken from the model.

use crate::by_hand::{label_record, Case};
use crate::input::Input;
use crate::labels::{Label, List};
use crate::model::{Answer, Question};

pub fn cases() -> Vec<Case> {
    [
        which_list(),
        first_record(),
        other_variables(),
        texts(),
        texts_like_variables(),
        full_lists(),
        bad_beside_good(),
        shortest_and_longest(),
        bad_lists(),
    ]
    .concat()
}

/// A label is asked for without a store.
fn case(name: &'static str, lists: [&[u8]; 2], variable: u32, label: Option<Label>) -> Case {
    let [site, factory] = lists.map(<[u8]>::to_vec);
    let question = Question::Label {
        site,
        factory,
        variable,
    };
    Case::unchanged(name, Input::default(), question, Answer::Label(label))
}

fn site(name: &'static str, lists: [&[u8]; 2], variable: u32, offset: usize) -> Case {
    case(name, lists, variable, part(List::Site, offset))
}

fn factory(name: &'static str, lists: [&[u8]; 2], variable: u32, offset: usize) -> Case {
    case(name, lists, variable, part(List::Factory, offset))
}

fn none(name: &'static str, lists: [&[u8]; 2], variable: u32) -> Case {
    case(name, lists, variable, None)
}

fn part(list: List, offset: usize) -> Option<Label> {
    Some(Label {
        list,
        offset,
        length: 15,
    })
}

/// A record for each of these variables.
fn list(variables: &[u8]) -> Vec<u8> {
    let record = |&variable| label_record(variable, b"52a closed");
    variables.iter().flat_map(record).collect()
}

/// Variable 0 is in both lists, 1 in the site's, 2 in the factory's.
fn which_list() -> Vec<Case> {
    let (own, other) = (list(&[1, 0]), list(&[2, 0]));
    let both: [&[u8]; 2] = [&own, &other];
    vec![
        site("in both", both, 0, 17),
        site("in the site's", both, 1, 1),
        factory("in the factory's", both, 2, 1),
        none("in neither", both, 3),
        none("no list", [&[], &[]], 0),
        site("the site's list alone", [&own, &[]], 0, 17),
        none("not in the site's list alone", [&own, &[]], 2),
        factory("the factory's list alone", [&[], &other], 0, 17),
        none("not in the factory's list alone", [&[], &other], 1),
        site("one list twice", [&own, &own], 1, 1),
    ]
}

/// Of several records for a variable the first counts, and all of the site's go
/// before the first of the factory's.
fn first_record() -> Vec<Case> {
    let (twice, thrice) = (list(&[9, 4, 8, 4]), list(&[4, 4, 9, 4]));
    vec![
        site("second and last", [&twice, &[]], 4, 17),
        factory("second and last, factory", [&[], &twice], 4, 17),
        site("first, second and last", [&thrice, &[]], 4, 1),
        factory("first, second and last, factory", [&[], &thrice], 4, 1),
        site("the site's second", [&twice, &thrice], 4, 17),
        site("the site's last", [&thrice, &twice], 9, 33),
        factory("the factory's third", [&thrice, &twice], 8, 33),
    ]
}

/// A byte names 0 to 255; a larger number is another, whatever its last bytes
/// are.
fn other_variables() -> Vec<Case> {
    let ends = list(&[255, 0, 254]);
    let [own, other]: [[&[u8]; 2]; 2] = [[&ends, &[]], [&[], &ends]];
    vec![
        site("variable 255", own, 255, 1),
        factory("variable 255, factory", other, 255, 1),
        site("variable 254", own, 254, 33),
        none("variable 256", own, 256),
        none("variable 256, factory", other, 256),
        none("variable 256 and 255", own, 511),
        none("variable 256 and 255, factory", other, 511),
        none("variable 65,536", own, 65_536),
        none("variable 65,536 and 255", other, 65_791),
        none("variable 2,147,483,648", own, 2_147_483_648),
        none("variable 4,294,967,040", other, 4_294_967_040),
        none("variable 4,294,967,295", own, 4_294_967_295),
        none("variable 4,294,967,295, factory", other, 4_294_967_295),
    ]
}

/// What the text is and how it is padded is all the same.
fn texts() -> Vec<Case> {
    let full = label_record(1, b"fifteen letters");
    let inside = label_record(2, b"a\0b\0\0c");
    let begins = label_record(3, b"\0behind a zero");
    let empty = label_record(4, b"");
    let own = [full, inside, begins, empty].concat();
    let other = list(&[1, 2, 3, 4]);
    vec![
        site("no zero", [&own, &other], 1, 1),
        site("zeros inside", [&own, &other], 2, 17),
        site("a zero first", [&own, &other], 3, 33),
        site("zeros only", [&own, &other], 4, 49),
        factory("no zero, factory", [&[], &own], 1, 1),
        factory("zeros inside, factory", [&[], &own], 2, 17),
        factory("a zero first, factory", [&[], &own], 3, 33),
        factory("zeros only, factory", [&[], &own], 4, 49),
    ]
}

/// Bytes of a text name nothing, and neither does the padding.
fn texts_like_variables() -> Vec<Case> {
    let sevens = label_record(5, &[7; 15]);
    let seven_later = [sevens.clone(), label_record(7, &[5; 15])].concat();
    vec![
        none("only in a text", [&sevens, &[]], 7),
        none("only in texts", [&sevens, &sevens], 7),
        none("only the padding", [&list(&[5]), &list(&[6])], 0),
        site("in a text, then named", [&seven_later, &[]], 7, 17),
        factory("in the site's text", [&sevens, &seven_later], 7, 17),
        factory("in a text, then named, factory", [&[], &seven_later], 7, 17),
        site("named, then in a text", [&seven_later, &sevens], 5, 1),
    ]
}

/// Records for variables 0 to 63: as many as a list may have.
fn full() -> Vec<u8> {
    list(&(0..64).collect::<Vec<u8>>())
}

fn full_lists() -> Vec<Case> {
    let full = full();
    let named_last = list(&[&[1; 63], [0].as_slice()].concat());
    vec![
        site("first of 64", [&full, &full], 0, 1),
        site("last of 64", [&full, &full], 63, 1_009),
        none("none of 64", [&full, &full], 64),
        factory("first of 64, factory", [&[], &full], 0, 1),
        factory("last of 64, factory", [&[], &full], 63, 1_009),
        factory("past 64 others", [&full, &list(&[64])], 64, 1),
        site("named last of 64", [&named_last, &full], 0, 1_009),
        site("63 and the last", [&full[..1_008], &full], 62, 993),
        factory("the last besides 63", [&full[..1_008], &full], 63, 1_009),
    ]
}

/// What each length that a list may not have is made of: the list of 64 records
/// and as much of it once more.
fn longer(length: usize) -> Vec<u8> {
    full().into_iter().cycle().take(length).collect()
}

/// Lengths that a list may not have.
const BAD_LENGTHS: [(&str, usize); 11] = [
    ("1 byte", 1),
    ("15 bytes", 15),
    ("17 bytes", 17),
    ("31 bytes", 31),
    ("1,008 bytes and 15", 1_023),
    ("1,025 bytes", 1_025),
    ("1,039 bytes", 1_039),
    ("1,040 bytes", 1_040),
    ("2,048 bytes", 2_048),
    ("65,536 bytes", 65_536),
    ("65,552 bytes", 65_552),
];

/// The other list names the variable, and the whole records of the bad list do
/// so too, as far as there are any.
fn bad_beside_good() -> Vec<Case> {
    let named = list(&[0]);
    let with = |(name, length)| {
        let bad = longer(length);
        [none(name, [&bad, &named], 0), none(name, [&named, &bad], 0)]
    };
    BAD_LENGTHS.into_iter().flat_map(with).collect()
}

/// The shortest and the longest list, beside one that names the variable.
fn shortest_and_longest() -> Vec<Case> {
    let named = list(&[0]);
    vec![
        factory("site of 0 bytes", [&[], &named], 0, 1),
        factory("site of 1,024 bytes", [&full(), &list(&[64])], 64, 1),
        site("factory of 0 bytes", [&named, &[]], 0, 1),
        site("factory of 1,024 bytes", [&named, &full()], 0, 1),
    ]
}

/// The bad list alone names the variable, or both are bad.
fn bad_lists() -> Vec<Case> {
    let (short, long) = (longer(17), longer(1_040));
    vec![
        none("in a site of 17 bytes", [&short, &[]], 0),
        none("in a factory of 17 bytes", [&[], &short], 0),
        none("in a site of 1,040 bytes", [&long, &[]], 63),
        none("in a factory of 1,040 bytes", [&[], &long], 63),
        none("both of 17 bytes", [&short, &short], 0),
        none("both of 1,040 bytes", [&long, &long], 0),
        none("17 bytes and 1,040", [&short, &long], 0),
        none("1,040 bytes and 17", [&long, &short], 0),
        none("both of 1 byte", [&[0], &[0]], 0),
    ]
}
