//! Refused files leave the shelf as it was, and shelves that are not well formed are refused by every call.

mod common;

use common::{demo_image, whole_image, whole_shelf};
use njuolasti::{Image, Kind, Mode, Refusal, Shelf, ShelfError, Used};

/// Linking the image is refused so, and changes no word, byte or number.
fn assert_refused(shelf: &mut Shelf, image: &Image, kind: Kind, place: u32) {
    let before = shelf.clone();
    let refusal = Refusal { kind, place };
    assert_eq!(shelf.link(&image.words, &image.pool), Err(refusal));
    assert!(*shelf == before, "the shelf is changed by: {refusal}");
}

/// Every call that only reads the shelf answers with the error.
fn assert_unreadable(shelf: &Shelf, error: ShelfError) {
    assert_eq!(shelf.check(), Err(error));
    assert_eq!(shelf.message(0, ".A"), Err(error));
    assert_eq!(shelf.enumeration(0, ".A"), Err(error));
    assert_eq!(shelf.value_by_number(0, 0, 0), Err(error));
    assert_eq!(shelf.value_by_name(0, 0, "A"), Err(error));
    assert_eq!(shelf.field_by_number(0, 0, 1), Err(error));
    assert_eq!(shelf.field_by_name(0, 0, Mode::Usual, "a"), Err(error));
    assert_eq!(shelf.message_name(0, 0), Err(error));
    assert_eq!(shelf.enum_name(0, 0), Err(error));
    // A file that is not there does not hide it.
    assert_eq!(shelf.message(9, ".A"), Err(error));
}

/// The shelf of the whole case, with its parts changed.
fn changed(change: impl FnOnce(&mut Vec<u32>, &mut Vec<u8>, &mut Used)) -> Shelf {
    let whole = whole_shelf();
    let (words, bytes, mut used) = whole.parts();
    let (mut words, mut bytes) = (words.to_vec(), bytes.to_vec());
    change(&mut words, &mut bytes, &mut used);
    Shelf::from_parts(words, bytes, used)
}

/// The whole case's image under another file name, of one byte.
fn renamed(name: u8) -> Image {
    let mut image = whole_image();
    image.pool[0] = name;
    image
}

#[test]
fn a_name_is_taken_once() {
    let mut shelf = whole_shelf();
    assert_refused(&mut shelf, &whole_image(), Kind::NameTaken, 0);
    let other = renamed(b'g');
    assert_eq!(shelf.link(&other.words, &other.pool), Ok(1));
}

#[test]
fn there_must_be_room_for_words_and_bytes() {
    assert_refused(&mut Shelf::new(55, 2), &whole_image(), Kind::NoRoom, 0);
    assert_refused(&mut Shelf::new(56, 1), &whole_image(), Kind::NoRoom, 0);
    assert_refused(&mut Shelf::new(0, 0), &whole_image(), Kind::NoRoom, 0);
}

#[test]
fn a_second_file_needs_room_too() {
    let mut shelf = Shelf::new(111, 4);
    let image = whole_image();
    assert_eq!(shelf.link(&image.words, &image.pool), Ok(0));
    assert_refused(&mut shelf, &renamed(b'g'), Kind::NoRoom, 0);
}

#[test]
fn broken_shelves_are_refused() {
    let broken = [
        changed(|_, _, used| used.files = 0),
        changed(|_, _, used| used.files = 2),
        changed(|_, _, used| used.files = 33),
        changed(|_, _, used| used.words = 55),
        changed(|_, _, used| used.bytes = 1),
        changed(|_, _, used| used.bytes = 3),
        changed(|words, _, _| words.truncate(55)),
        changed(|_, bytes, _| bytes.truncate(1)),
        // The layout number of the image.
        changed(|words, _, _| words[14] = 2),
        // The image row of the message.
        changed(|words, _, _| words[38] = 1),
        // Always initialised, with a distance.
        changed(|words, _, _| words[47] = 0),
        // The count of messages in the record's last words.
        changed(|words, _, _| words[52] = 2),
    ];
    for mut shelf in broken {
        assert_unreadable(&shelf, ShelfError::Broken);
        assert_refused(&mut shelf, &renamed(b'g'), Kind::ShelfBroken, 0);
    }
}

#[test]
fn what_is_not_used_may_hold_anything() {
    let shelf = changed(|words, bytes, _| {
        words[56..].fill(7);
        bytes[2..].fill(7);
    });
    assert_eq!(shelf.check(), Ok(()));
    assert_eq!(shelf.message(0, ".A"), Ok(Some(0)));
}

#[test]
fn shelves_past_their_limits_are_refused() {
    let (words, bytes) = (Shelf::MOST_WORDS, Shelf::MOST_BYTES);
    for mut shelf in [
        Shelf::new(words + 1, bytes),
        Shelf::new(words, bytes + 1),
        // Too long comes before broken.
        Shelf::from_parts(
            vec![0; words + 1],
            vec![0; bytes],
            Used {
                words: 1,
                bytes: 0,
                files: 1,
            },
        ),
    ] {
        assert_unreadable(&shelf, ShelfError::TooLong);
        assert_refused(&mut shelf, &whole_image(), Kind::TooLong, 0);
    }
}

#[test]
fn images_past_their_limits_are_refused() {
    let long = |words: usize, bytes: usize| Image {
        words: vec![0; words],
        pool: vec![0; bytes],
    };
    let mut shelf = whole_shelf();
    assert_refused(&mut shelf, &long(65_537, 0), Kind::TooLong, 0);
    assert_refused(&mut shelf, &long(0, 32_769), Kind::TooLong, 0);
    assert_refused(&mut shelf, &long(65_536, 32_768), Kind::LayoutBroken, 0);
}

#[test]
fn an_image_must_be_laid_out() {
    let mut shelf = whole_shelf();
    assert_refused(&mut shelf, &Image::default(), Kind::LayoutBroken, 0);
    let mut image = renamed(b'g');
    image.words.pop();
    assert_refused(&mut shelf, &image, Kind::LayoutBroken, 0);
    let mut image = renamed(b'g');
    image.pool.push(b'A');
    assert_refused(&mut shelf, &image, Kind::LayoutBroken, 0);
}

#[test]
fn a_name_is_an_identifier() {
    let mut image = whole_image();
    image.pool[1] = b'1';
    assert_refused(&mut Shelf::full_size(), &image, Kind::TextWrong, 0);
}

#[test]
fn imports_must_be_there() {
    let mut shelf = Shelf::full_size();
    assert_refused(&mut shelf, &demo_image("agent"), Kind::ImportMissing, 0);
    let ports = demo_image("ports");
    assert_eq!(shelf.link(&ports.words, &ports.pool), Ok(0));
    // Its first import is there now, and its second is not.
    assert_refused(&mut shelf, &demo_image("bookings"), Kind::ImportMissing, 1);
}
