//! The smallest whole file, word by word.

mod common;

use common::{whole_image, whole_shelf};
use njuolasti::{Mode, Shelf, Used};

const USED: Used = Used {
    words: 56,
    bytes: 2,
    files: 1,
};

/// The link part of its record.
const LINKS: [u32; 18] = [
    0, 0, 0, 0, 0, 0, 0, 0, 1, 4294967295, 0, 38, 0, 2, 1, 0, 0, 0,
];

#[test]
fn the_record_stands_in_front_and_the_rest_stays() {
    let image = whole_image();
    let mut shelf = Shelf::from_parts(vec![7; 60], vec![9; 4], Used::default());
    assert_eq!(shelf.link(&image.words, &image.pool), Ok(0));
    let words = [&image.words[..], &LINKS, &[7; 4]].concat();
    assert_eq!(shelf.parts(), (&words[..], &b"fA\x09\x09"[..], USED));
    assert_eq!(shelf.check(), Ok(()));
}

#[test]
fn the_record_may_fill_the_shelf() {
    let image = whole_image();
    let mut shelf = Shelf::new(56, 2);
    assert_eq!(shelf.link(&image.words, &image.pool), Ok(0));
    let words = [&image.words[..], &LINKS].concat();
    assert_eq!(shelf.parts(), (&words[..], &b"fA"[..], USED));
    assert_eq!(shelf.check(), Ok(()));
}

#[test]
fn its_message_is_found_by_its_name() {
    let shelf = whole_shelf();
    assert_eq!(shelf.message(0, ".A"), Ok(Some(0)));
    for name in ["", ".", "A", ".a", ".B", ".A.", ".A.A", ".f.A"] {
        assert_eq!(shelf.message(0, name), Ok(None), "{name}");
    }
    assert_eq!(shelf.message(1, ".A"), Ok(None));
    assert_eq!(shelf.message(u32::MAX, ".A"), Ok(None));
}

#[test]
fn its_message_has_a_name() {
    let shelf = whole_shelf();
    assert_eq!(shelf.message_name(0, 0), Ok(Some("A".to_owned())));
    assert_eq!(shelf.message_name(0, 1), Ok(None));
    assert_eq!(shelf.message_name(1, 0), Ok(None));
}

#[test]
fn it_has_no_enums_and_no_fields() {
    let shelf = whole_shelf();
    assert_eq!(shelf.enumeration(0, ".A"), Ok(None));
    assert_eq!(shelf.enum_name(0, 0), Ok(None));
    assert_eq!(shelf.value_by_number(0, 0, 0), Ok(None));
    assert_eq!(shelf.value_by_name(0, 0, "A"), Ok(None));
    assert_eq!(shelf.field_by_number(0, 0, 0), Ok(None));
    for mode in [Mode::Usual, Mode::Own, Mode::OwnOrJson] {
        assert_eq!(shelf.field_by_name(0, 0, mode, ""), Ok(None));
        assert_eq!(shelf.field_by_name(0, 0, mode, "A"), Ok(None));
    }
}

#[test]
fn an_empty_shelf_is_well_formed_and_answers_nothing() {
    for shelf in [Shelf::new(0, 0), Shelf::full_size()] {
        assert_eq!(shelf.check(), Ok(()));
        assert_eq!(shelf.message(0, ".A"), Ok(None));
        assert_eq!(shelf.message_name(0, 0), Ok(None));
    }
}
