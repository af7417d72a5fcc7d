//! Rule 17 in messages of few and of many fields, and rule 8 in files of few and of many messages: one clash, of each kind and at several
//! places, or none.

use std::collections::BTreeSet;

use protobuf::descriptor::{FieldDescriptorProto, FileDescriptorProto};

use crate::case::{Case, Expect};
use crate::limits::{numbered_field, with_messages};
use crate::make::{case_by_hand, enumeration, file, message, message_with};

/// Around the sizes at which a linker may change its ways, and the most that a message may have.
const SIZES: [usize; 8] = [2, 31, 32, 33, 64, 255, 300, 2048];

/// Makes a later field clash with an earlier one. Names in use have letters alone, so one with a digit is new.
type Way = fn(&mut [FieldDescriptorProto], usize, usize);

const WAYS: [(&str, Way); 6] = [
    ("number", |fields, earlier, later| {
        fields[later].number = fields[earlier].number;
    }),
    ("name", |fields, earlier, later| {
        fields[later].name = fields[earlier].name.clone();
    }),
    ("json-is-name", |fields, earlier, later| {
        fields[later].json_name = fields[earlier].name.clone();
    }),
    ("name-is-json", |fields, earlier, later| {
        fields[earlier].json_name = fields[later].name.clone();
    }),
    ("json-is-json", |fields, earlier, later| {
        fields[earlier].json_name = Some("j1".to_owned());
        fields[later].json_name = Some("j1".to_owned());
    }),
    ("name-is-derived", |fields, earlier, later| {
        fields[earlier].name = Some("q_1r".to_owned());
        fields[later].name = Some("q1r".to_owned());
    }),
];

/// How many messages a file has, up to the most that it may have.
const FILES: [usize; 6] = [2, 16, 64, 128, 255, 256];

/// Gives two messages or enums of a file one full name.
type Twin = fn(&mut FileDescriptorProto, usize, usize);

const TWINS: [(&str, Twin); 3] = [
    ("messages", |f, earlier, later| {
        f.message_type[later].name = f.message_type[earlier].name.clone();
    }),
    ("enum", |f, earlier, _| {
        let name = f.message_type[earlier].name().to_owned();
        f.enum_type.push(enumeration(&name, &[("V", 0)]));
    }),
    ("nested", |f, earlier, later| {
        let mut outer = message("Outer");
        outer.nested_type = f.message_type.split_off(1);
        outer.nested_type[later - 1].name = outer.nested_type[earlier.max(1) - 1].name.clone();
        f.message_type = vec![outer];
    }),
];

pub fn cases() -> Vec<Case> {
    let fields = SIZES.into_iter().flat_map(of_size);
    fields
        .chain(FILES.into_iter().flat_map(of_messages))
        .collect()
}

/// An earlier and a later one of so many.
fn places(size: usize) -> BTreeSet<(usize, usize)> {
    let places = [
        (0, 1),
        (0, size - 1),
        (size / 2, size - 1),
        (size - 2, size - 1),
    ];
    places.into_iter().filter(|(a, b)| a < b).collect()
}

/// With none a message in each has the same own name, and so has an enum.
fn of_messages(size: usize) -> Vec<Case> {
    let mut apart = with_messages("f", size / 2);
    for m in &mut apart.message_type {
        m.nested_type.push(message("Same"));
        m.enum_type.push(enumeration("Other", &[("V", 0)]));
    }
    let name = format!("crowded-messages-{size}");
    let mut cases = vec![case_by_hand(
        &format!("{name}-none"),
        &[apart],
        Expect::Domain,
    )];
    for (earlier, later) in places(size) {
        for (way, twin) in TWINS {
            // Message 0 becomes the one that the others stand in.
            if way == "nested" && earlier.max(1) == later {
                continue;
            }
            let mut f = with_messages("f", size);
            twin(&mut f, earlier, later);
            let name = format!("{name}-{way}-{earlier}-{later}");
            cases.push(case_by_hand(&name, &[f], Expect::RefusedAt(8, 0)));
        }
    }
    cases
}

fn of_size(size: usize) -> Vec<Case> {
    let mut cases = vec![case(size, "none", |_| (), Expect::Domain)];
    for (earlier, later) in places(size) {
        for (way, clash) in WAYS {
            let name = format!("{way}-{earlier}-{later}");
            let expect = Expect::RefusedAt(17, later as u32);
            cases.push(case(size, &name, |f| clash(f, earlier, later), expect));
        }
    }
    cases
}

fn case(
    size: usize,
    name: &str,
    change: impl Fn(&mut [FieldDescriptorProto]),
    expect: Expect,
) -> Case {
    let mut fields: Vec<_> = (0..size).map(numbered_field).collect();
    change(&mut fields);
    let mut f = file("f", "", 3);
    f.message_type = vec![message_with("A", fields)];
    case_by_hand(&format!("crowded-{size}-{name}"), &[f], expect)
}
