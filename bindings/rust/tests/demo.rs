//! The demo's files: how they are numbered and marked, and what lookups find in them.

mod common;

use common::{demo_shelf, AGENT, BOOKINGS, DANGEROUS, DEMO, PORTS, VEHICLES};
use njuolasti::{Mode, Shelf};

/// Each message by file and flat number, with its name, and its distance if it can be incomplete.
const MESSAGES: [(u32, u32, &str, Option<u32>); 18] = [
    (PORTS, 0, "ferry.ports.Port", None),
    (PORTS, 1, "ferry.ports.Port.Berth", None),
    (PORTS, 2, "ferry.ports.Region", None),
    (PORTS, 3, "ferry.ports.Crossing", None),
    (VEHICLES, 0, "ferry.vehicles.Vehicle", None),
    (VEHICLES, 1, "ferry.vehicles.Consignment", Some(0)),
    (VEHICLES, 2, "ferry.vehicles.Load", Some(1)),
    (BOOKINGS, 0, "ferry.bookings.Booking", Some(0)),
    (BOOKINGS, 1, "ferry.bookings.Lane", Some(1)),
    (BOOKINGS, 2, "ferry.bookings.Deck", Some(2)),
    (BOOKINGS, 3, "ferry.bookings.Deck.LanesEntry", Some(2)),
    (BOOKINGS, 4, "ferry.bookings.Sailing", Some(3)),
    (AGENT, 0, "ferry.agent.Request", Some(0)),
    (AGENT, 1, "ferry.agent.Standby", None),
    (AGENT, 2, "ferry.agent.Cancellation", None),
    (AGENT, 3, "ferry.agent.Envelope", Some(1)),
    (AGENT, 4, "ferry.agent.Batch", Some(2)),
    (DANGEROUS, 0, "ferry.dangerous.Goods", Some(0)),
];

/// How many messages each file has.
const COUNTS: [(u32, u32); 5] = [
    (PORTS, 4),
    (VEHICLES, 3),
    (BOOKINGS, 5),
    (AGENT, 5),
    (DANGEROUS, 1),
];

/// The link rows of the file's messages, ten words each, found from the records' ends.
fn message_rows(shelf: &Shelf, file: u32) -> &[u32] {
    let (words, _, used) = shelf.parts();
    let mut end = used.words as usize;
    for _ in file + 1..used.files {
        end = words[end - 8] as usize;
    }
    let last = &words[end - 8..end];
    let first = (last[0] + last[1]) as usize;
    &words[first..first + 10 * last[4] as usize]
}

#[test]
fn all_files_are_accepted() {
    let shelf = demo_shelf();
    assert_eq!(shelf.check(), Ok(()));
    let (_, _, used) = shelf.parts();
    assert_eq!(used.files as usize, DEMO.len());
}

#[test]
fn messages_are_numbered_and_found() {
    let shelf = demo_shelf();
    for (file, message, name, _) in MESSAGES {
        assert_eq!(shelf.message_name(file, message), Ok(Some(name.to_owned())));
        assert_eq!(shelf.message(file, &format!(".{name}")), Ok(Some(message)));
        assert_eq!(shelf.message(file, name), Ok(None));
    }
    for (file, count) in COUNTS {
        assert_eq!(shelf.message_name(file, count), Ok(None));
    }
    // A file's own messages are found, and not those that it imports.
    let vehicle = shelf.message(BOOKINGS, ".ferry.vehicles.Vehicle");
    assert_eq!(vehicle, Ok(None));
}

#[test]
fn messages_that_can_be_incomplete_are_marked() {
    let shelf = demo_shelf();
    for (file, count) in COUNTS {
        assert_eq!(message_rows(&shelf, file).len(), 10 * count as usize);
    }
    for (file, message, name, distance) in MESSAGES {
        let row = &message_rows(&shelf, file)[10 * message as usize..][..10];
        let mark = match distance {
            Some(distance) => [0, distance],
            None => [1, 4294967295],
        };
        assert_eq!(row[8..], mark, "{name}");
    }
}

#[test]
fn enums_are_found_by_name() {
    let shelf = demo_shelf();
    let enums = [
        (PORTS, "ferry.ports.Country"),
        (VEHICLES, "ferry.vehicles.Kind"),
        (BOOKINGS, "ferry.bookings.Status"),
        (DANGEROUS, "ferry.dangerous.Goods.Packing"),
    ];
    for (file, name) in enums {
        assert_eq!(shelf.enumeration(file, &format!(".{name}")), Ok(Some(0)));
        assert_eq!(shelf.enum_name(file, 0), Ok(Some(name.to_owned())));
        assert_eq!(shelf.enum_name(file, 1), Ok(None));
    }
    assert_eq!(shelf.enum_name(AGENT, 0), Ok(None));
    assert_eq!(
        shelf.enumeration(VEHICLES, ".ferry.vehicles.Vehicle"),
        Ok(None)
    );
}

#[test]
fn of_two_values_the_last_is_found() {
    let shelf = demo_shelf();
    let by_number = |number| shelf.value_by_number(VEHICLES, 0, number);
    assert_eq!(by_number(0), Ok(Some(0)));
    // A lorry is a truck.
    assert_eq!(by_number(2), Ok(Some(4)));
    assert_eq!(by_number(-1), Ok(Some(5)));
    assert_eq!(by_number(4), Ok(None));
    let by_name = |name| shelf.value_by_name(VEHICLES, 0, name);
    assert_eq!(by_name("LORRY"), Ok(Some(2)));
    assert_eq!(by_name("TRUCK"), Ok(Some(4)));
    assert_eq!(by_name("truck"), Ok(None));
    assert_eq!(shelf.value_by_name(VEHICLES, 1, "CAR"), Ok(None));
}

#[test]
fn fields_are_found_by_number() {
    let shelf = demo_shelf();
    let booking = |number| shelf.field_by_number(BOOKINGS, 0, number);
    assert_eq!(booking(2), Ok(Some(1)));
    assert_eq!(booking(7), Ok(Some(6)));
    assert_eq!(booking(0), Ok(None));
    assert_eq!(booking(-2), Ok(None));
    // Numbers are flat: the deck's lanes come behind the fields of bookings and lanes.
    assert_eq!(shelf.field_by_number(BOOKINGS, 2, 2), Ok(Some(10)));
    assert_eq!(shelf.field_by_number(BOOKINGS, 5, 1), Ok(None));
}

#[test]
fn fields_are_found_by_own_and_by_json_name() {
    let shelf = demo_shelf();
    let booking = |mode, name| shelf.field_by_name(BOOKINGS, 0, mode, name);
    for mode in [Mode::Usual, Mode::Own, Mode::OwnOrJson] {
        assert_eq!(booking(mode, "metres"), Ok(Some(1)));
        assert_eq!(booking(mode, "registered_in"), Ok(Some(3)));
        assert_eq!(booking(mode, "lanes"), Ok(None));
    }
    for mode in [Mode::Usual, Mode::Own] {
        assert_eq!(booking(mode, "registeredIn"), Ok(None));
        assert_eq!(booking(mode, "bookingNumber"), Ok(None));
    }
    assert_eq!(booking(Mode::OwnOrJson, "registeredIn"), Ok(Some(3)));
    assert_eq!(booking(Mode::OwnOrJson, "bookingNumber"), Ok(Some(0)));
}

#[test]
fn extensions_are_no_fields_of_their_message() {
    let shelf = demo_shelf();
    let goods = |name| shelf.field_by_name(DANGEROUS, 0, Mode::Own, name);
    assert_eq!(goods("packing"), Ok(Some(1)));
    assert_eq!(goods("goods"), Ok(None));
    assert_eq!(goods("emergency_phone"), Ok(None));
}

#[test]
fn a_stored_shelf_is_the_same_shelf() {
    let shelf = demo_shelf();
    let file = shelf.to_bytes().unwrap();
    assert_eq!(Shelf::from_bytes(&file).as_ref(), Ok(&shelf));
    let (words, bytes, used) = shelf.parts();
    let loaded = Shelf::from_parts(words.to_vec(), bytes.to_vec(), used);
    assert!(loaded == shelf);
}
