//! Labels: what the site and the factory call a variable.

use std::collections::HashMap;

/// A list: at most so many records of so many bytes, the first for the variable
/// and the others for its text.
pub const LABEL_BYTES: usize = 16;
pub const MOST_LABELS: usize = 64;
pub const TEXT_BYTES: usize = 15;

/// Whose list it is.
#[derive(Clone, Copy, Debug, PartialEq, Eq)]
pub enum List {
    Site,
    Factory,
}

/// Where a label's text is: the list, the text's first byte in it, and how many
/// there are.
#[derive(Clone, Copy, Debug, PartialEq, Eq)]
pub struct Label {
    pub list: List,
    pub offset: usize,
    pub length: usize,
}

/// The label of a variable, any number; none where it has got none. A bad
/// length of either list leaves every variable without one.
pub fn label(site: &[u8], factory: &[u8], variable: u32) -> Option<Label> {
    if !has_good_length(site) || !has_good_length(factory) {
        return None;
    }
    named(site, factory).get(&variable).copied()
}

/// The bytes of the label, padding and all.
pub fn text<'a>(site: &'a [u8], factory: &'a [u8], variable: u32) -> Option<&'a [u8]> {
    let label = label(site, factory, variable)?;
    let list = match label.list {
        List::Site => site,
        List::Factory => factory,
    };
    Some(&list[label.offset..][..label.length])
}

pub fn has_good_length(list: &[u8]) -> bool {
    list.len().is_multiple_of(LABEL_BYTES) && list.len() <= MOST_LABELS * LABEL_BYTES
}

/// Every variable that is named, with its label. The site's records go before
/// the factory's, and of each list the first before the last; of two entries the
/// map keeps the later one, so they are taken backwards.
fn named(site: &[u8], factory: &[u8]) -> HashMap<u32, Label> {
    let site = records(List::Site, site);
    let factory = records(List::Factory, factory);
    site.chain(factory).rev().collect()
}

fn records(list: List, bytes: &[u8]) -> impl DoubleEndedIterator<Item = (u32, Label)> + '_ {
    let records = bytes.chunks_exact(LABEL_BYTES).enumerate();
    records.map(move |(number, record)| {
        let label = Label {
            list,
            offset: number * LABEL_BYTES + 1,
            length: TEXT_BYTES,
        };
        (u32::from(record[0]), label)
    })
}

#[cfg(test)]
mod tests {
    use super::*;

    const SITE: &[u8; 48] =
        b"\x07seven          \x02two\0\0\0\0\0\0\0\0\0\0\0\0\x07once more\0\0\0\0\0\0";
    const FACTORY: &[u8; 32] =
        b"\x03\0\0\0\0\0\0\0\0\0\0\0\0\0\0\0\x02a\0b\0\0\0\0\0\0\0\0\0\0\0\0";

    #[test]
    fn the_site_goes_before_the_factory_and_the_first_before_the_last() {
        let of = |variable| label(SITE, FACTORY, variable);
        let part = |list, offset| {
            Some(Label {
                list,
                offset,
                length: 15,
            })
        };
        assert_eq!(of(7), part(List::Site, 1));
        assert_eq!(of(2), part(List::Site, 17));
        assert_eq!(of(3), part(List::Factory, 1));
        assert_eq!(label(&[], FACTORY, 2), part(List::Factory, 17));
        for variable in [0, 1, 255, 256, 256 + 7, u32::MAX] {
            assert_eq!(of(variable), None);
        }
    }

    #[test]
    fn a_text_has_all_of_its_bytes() {
        assert_eq!(text(SITE, FACTORY, 7), Some(b"seven          ".as_slice()));
        assert_eq!(text(SITE, FACTORY, 3), Some([0; 15].as_slice()));
        let zeros_inside = b"a\0b\0\0\0\0\0\0\0\0\0\0\0\0";
        assert_eq!(text(&[], FACTORY, 2), Some(zeros_inside.as_slice()));
        assert_eq!(text(SITE, FACTORY, 4), None);
    }

    #[test]
    fn a_bad_length_of_either_list_leaves_no_label() {
        for length in [1, 15, 17, 1_023, 1_025, 1_040, 65_536] {
            let bad = vec![2; length];
            assert_eq!(label(&bad, FACTORY, 2), None);
            assert_eq!(label(SITE, &bad, 2), None);
            assert_eq!(label(&bad, &bad, 2), None);
        }
        for length in [0, 16, 1_024] {
            assert!(label(SITE, &vec![2; length], 2).is_some());
            assert!(label(&vec![2; length], FACTORY, 2).is_some());
        }
    }
}
