//! Each refusal on purpose, at several places, with number and place said by hand; two refusals in one file, for their order; the slips that
//! would look right; the worked table.

use protobuf::descriptor::field_descriptor_proto::Type;
use protobuf::descriptor::{DescriptorProto, FieldDescriptorProto, FileDescriptorProto};

use crate::case::{Case, Expect, FileCase, Image};
use crate::image;
use crate::make::*;

pub fn cases() -> Vec<Case> {
    let groups = [
        whole(),
        layout(),
        bytes_and_names(),
        map_entries(),
        defaults(),
        resolving(),
        clashes(),
        oneofs(),
        marks(),
        order(),
        slips(),
        worked_table(),
    ];
    groups.into_iter().flatten().collect()
}

fn at(number: u32, place: u32) -> Expect {
    Expect::RefusedAt(number, place)
}

/// A file with these messages, and a case of it alone.
fn of_messages(messages: Vec<DescriptorProto>) -> FileDescriptorProto {
    let mut f = file("f", "", 2);
    f.message_type = messages;
    f
}

fn alone(name: &str, f: FileDescriptorProto, expect: Expect) -> Case {
    case_by_hand(name, &[f], expect)
}

fn of_fields(name: &str, fields: Vec<FieldDescriptorProto>, expect: Expect) -> Case {
    alone(name, of_messages(vec![message_with("A", fields)]), expect)
}

/// One file with one empty message: the case that is written out in full where the record is described.
fn whole() -> Vec<Case> {
    vec![case_of_image("whole", whole_image(), Expect::Domain)]
}

fn whole_image() -> Image {
    let message = [1, 1, 0, 0, 0, 0, 0, 0, 0, 0, 0, 0, 0, 0];
    let trailer = [
        1, 0, 1, 0, 0, 3, 0, 0, 0, 1, 14, 0, 14, 0, 14, 0, 14, 0, 1, 0, 0, 0, 2, 14,
    ];
    Image {
        words: [&message[..], &trailer[..]].concat(),
        pool: b"fA".to_vec(),
    }
}

// ------------------------------------------------------------------------------------------------------------------------ 3, 5, 6, 7 and 8

/// One word of the whole case changed, each so that a layout rule breaks; and some changes that break none.
fn layout() -> Vec<Case> {
    let broken = [
        ("name-past-pool", 0, 2),
        ("name-length-past-pool", 1, 4_294_967_295),
        ("nested-range-beyond", 3, 1),
        ("empty-range-not-at-0", 2, 1),
        ("map-entry-word", 13, 2),
        ("layout-number", 14, 2),
        ("syntax", 19, 1),
        ("section-start", 22, 1),
        ("section-count", 23, 2),
        ("top-level-messages", 32, 0),
        ("extension-range", 35, 1),
        ("pool-length", 36, 3),
        ("trailer-start", 37, 13),
    ];
    let mut cases: Vec<Case> = broken
        .iter()
        .map(|(what, word, value)| {
            let mut image = whole_image();
            image.words[*word] = *value;
            case_of_image(&format!("layout-{what}"), image, at(3, 0))
        })
        .collect();
    let mut absent = whole_image();
    absent.words[17] = 2;
    cases.push(case_of_image(
        "layout-absent-text-at-pool-end",
        absent.clone(),
        Expect::Domain,
    ));
    absent.words[17] = 3;
    cases.push(case_of_image(
        "layout-absent-text-past-pool",
        absent,
        at(3, 0),
    ));
    let short = Image {
        words: whole_image().words[..23].to_vec(),
        pool: b"fA".to_vec(),
    };
    cases.push(case_of_image("layout-too-short", short, at(3, 0)));
    cases.push(case_of_image("layout-nothing", Image::default(), at(3, 0)));
    cases
}

fn bytes_and_names() -> Vec<Case> {
    let mut cases = Vec::new();
    for (i, name) in ["9a", "a-b", "a.b", "", "a b"].iter().enumerate() {
        let f = of_messages(vec![message(name)]);
        cases.push(alone(&format!("bytes-name-{i}"), f, at(5, 0)));
    }
    for (i, package) in [".foo", "foo.", "foo..bar", "foo.9"].iter().enumerate() {
        let f = file("f", package, 3);
        cases.push(alone(&format!("bytes-package-{i}"), f, at(5, 0)));
    }
    for (i, name) in ["A", ".", ".A.", "..A", ""].iter().enumerate() {
        let fields = vec![typed("a", 1, OPTIONAL, MESSAGE, name)];
        cases.push(of_fields(&format!("bytes-type-name-{i}"), fields, at(5, 0)));
    }
    let ignored = vec![typed("a", 1, OPTIONAL, INT32, "no name")];
    cases.push(of_fields(
        "bytes-type-name-of-a-scalar",
        ignored,
        Expect::Domain,
    ));
    let extendee = vec![extending(field("a", 1, OPTIONAL, INT32), "A")];
    cases.push(of_fields("bytes-extendee", extendee, at(5, 0)));
    let json = vec![with_json(field("a", 1, OPTIONAL, INT32), "\t")];
    cases.push(of_fields("bytes-json-name", json, at(5, 0)));
    let default = vec![with_default(field("a", 1, OPTIONAL, STRING), "\n")];
    cases.push(of_fields("bytes-default", default, at(5, 0)));
    cases.push(alone("bytes-file-name", file("a b", "", 3), at(5, 0)));
    cases.push(alone("bytes-no-file-name", file("", "", 3), at(5, 0)));

    let twice = [file("f", "", 3), file("f", "", 2)];
    cases.push(case_by_hand("file-name-twice", &twice, at(6, 0)));
    for (i, (imports, row)) in [
        (vec!["x"], 0),
        (vec!["g", "x", "y"], 1),
        (vec!["f"], 0),
        (vec!["g", "g", "+x"], 2),
    ]
    .iter()
    .enumerate()
    {
        let mut f = file("f", "", 3);
        import(&mut f, imports);
        let name = format!("import-missing-{i}");
        cases.push(case_by_hand(&name, &[file("g", "", 3), f], at(7, *row)));
    }
    cases.extend(full_names_twice());
    cases
}

fn full_names_twice() -> Vec<Case> {
    let messages = of_messages(vec![message("A"), message("A")]);
    let mut mixed = of_messages(vec![message("A")]);
    mixed.enum_type.push(enumeration("A", &[]));
    let mut outer = message("A");
    outer.nested_type.push(message("B"));
    outer.enum_type.push(enumeration("B", &[]));
    let mut enums = file("f", "", 3);
    enums.enum_type = vec![enumeration("E", &[]), enumeration("E", &[])];
    // The same name in another scope is another full name.
    let mut apart = message("A");
    apart.nested_type.push(message("A"));
    vec![
        alone("full-name-messages", messages, at(8, 0)),
        alone("full-name-message-and-enum", mixed, at(8, 0)),
        alone("full-name-nested", of_messages(vec![outer]), at(8, 0)),
        alone("full-name-enums", enums, at(8, 0)),
        alone("full-name-apart", of_messages(vec![apart]), Expect::Domain),
    ]
}

// ----------------------------------------------------------------------------------------------------------------------------- 9, 10 and 11

fn plain_entry(name: &str) -> DescriptorProto {
    let any = || field("x", 1, OPTIONAL, INT32);
    map_entry(name, any(), any())
}

/// The entry alone, behind another message, and inside a nested message: flat messages 0, 1 and 3.
fn entry_cases(name: &str, entry: &DescriptorProto, number: u32) -> Vec<Case> {
    let first = of_messages(vec![entry.clone()]);
    let behind = of_messages(vec![message("M"), entry.clone()]);
    let mut inner = message("N");
    inner.nested_type = vec![message("O"), entry.clone()];
    let mut outer = message("M");
    outer.nested_type.push(inner);
    let nested = of_messages(vec![outer, message("P")]);
    vec![
        alone(&format!("{name}-first"), first, at(number, 0)),
        alone(&format!("{name}-behind"), behind, at(number, 1)),
        alone(&format!("{name}-nested"), nested, at(number, 3)),
    ]
}

fn map_entries() -> Vec<Case> {
    let changed = |change: fn(&mut DescriptorProto)| {
        let mut entry = plain_entry("AEntry");
        change(&mut entry);
        entry
    };
    let mut cases = Vec::new();
    for (i, name) in ["A", "Entr", "entry", "EntryA"].iter().enumerate() {
        cases.extend(entry_cases(
            &format!("entry-name-{i}"),
            &plain_entry(name),
            9,
        ));
    }
    let holds_more: [fn(&mut DescriptorProto); 4] = [
        |m| m.extension.push(field("x", 9, OPTIONAL, INT32)),
        |m| add_ranges(m, 1),
        |m| m.nested_type.push(message("X")),
        |m| m.enum_type.push(enumeration("X", &[])),
    ];
    for (i, change) in holds_more.into_iter().enumerate() {
        cases.extend(entry_cases(
            &format!("entry-holds-{i}"),
            &changed(change),
            10,
        ));
    }
    let wrong_fields: [fn(&mut DescriptorProto); 11] = [
        |m| m.field.clear(),
        |m| m.field.truncate(1),
        |m| m.field.push(field("more", 3, OPTIONAL, INT32)),
        |m| m.field.reverse(),
        |m| m.field[0].set_number(2),
        |m| m.field[1].set_number(1),
        |m| m.field[0].set_name("Key".to_owned()),
        |m| m.field[1].set_name("values".to_owned()),
        |m| m.field[0].set_label(REQUIRED),
        |m| m.field[1].set_label(REPEATED),
        |m| m.field[1].set_label(REQUIRED),
    ];
    for (i, change) in wrong_fields.into_iter().enumerate() {
        cases.extend(entry_cases(
            &format!("entry-fields-{i}"),
            &changed(change),
            11,
        ));
    }
    cases.push(alone(
        "entry-bare-name",
        of_messages(vec![plain_entry("Entry")]),
        Expect::Domain,
    ));
    let mut with_oneof = plain_entry("AEntry");
    with_oneof.oneof_decl.push(oneof("o"));
    cases.push(alone(
        "entry-with-oneof",
        of_messages(vec![with_oneof]),
        Expect::Domain,
    ));
    let not_marked = message_with("AEntry", vec![field("more", 3, REPEATED, INT32)]);
    cases.push(alone(
        "entry-not-marked",
        of_messages(vec![not_marked]),
        Expect::Domain,
    ));
    cases
}

// ----------------------------------------------------------------------------------------------------------------------------- 12, 13 and 14

/// Texts that read and texts that do not, for each type with integers and for bool.
fn readings(t: Type) -> (&'static [&'static str], &'static [&'static str]) {
    match t {
        Type::TYPE_INT32 | Type::TYPE_SINT32 | Type::TYPE_SFIXED32 => (
            &[
                "-0",
                "+0",
                "2147483647",
                "-2147483648",
                "+2147483647",
                "-007",
            ],
            &[
                "",
                "-",
                "+",
                "2147483648",
                "-2147483649",
                "1 ",
                " 1",
                "0x1",
                "1.0",
                "+-1",
                "1e3",
            ],
        ),
        Type::TYPE_INT64 | Type::TYPE_SINT64 | Type::TYPE_SFIXED64 => (
            &[
                "9223372036854775807",
                "-9223372036854775808",
                "4294967296",
                "-1",
            ],
            &["9223372036854775808", "-9223372036854775809", "", "--1"],
        ),
        Type::TYPE_UINT32 | Type::TYPE_FIXED32 => (
            &["0", "+4294967295", "00"],
            &["4294967296", "-0", "-1", "", "+"],
        ),
        Type::TYPE_UINT64 | Type::TYPE_FIXED64 => (
            &["18446744073709551615", "4294967296"],
            &[
                "18446744073709551616",
                "-0",
                "",
                "99999999999999999999999999999999",
            ],
        ),
        Type::TYPE_BOOL => (&["true", "false"], &["True", "1", "", "true "]),
        Type::TYPE_STRING => (&["", "x", " ~\\\""], &[]),
        _ => (&[], &[]),
    }
}

fn defaults() -> Vec<Case> {
    let mut cases = Vec::new();
    for (number, t) in (1..).zip(TYPES) {
        let (readable, unreadable) = readings(t);
        for (i, text) in readable.iter().enumerate() {
            let fields = vec![with_default(field("a", 1, OPTIONAL, t), text)];
            cases.push(of_fields(
                &format!("default-{number}-reads-{i}"),
                fields,
                Expect::Domain,
            ));
        }
        for (i, text) in unreadable.iter().enumerate() {
            let bad = with_default(field("b", 2, OPTIONAL, t), text);
            let fields = vec![field("a", 1, OPTIONAL, INT32), bad];
            cases.push(of_fields(
                &format!("default-{number}-unreadable-{i}"),
                fields,
                at(12, 1),
            ));
        }
        if matches!(number, 1 | 2 | 12) {
            for text in ["0", "", "x"] {
                let fields = vec![with_default(field("a", 1, OPTIONAL, t), text)];
                cases.push(of_fields(
                    &format!("default-{number}-{text}"),
                    fields,
                    at(13, 0),
                ));
            }
        }
        if matches!(number, 10 | 11) {
            let fields = vec![with_default(typed("a", 1, OPTIONAL, t, ".A"), "")];
            cases.push(of_fields(&format!("default-{number}"), fields, at(12, 0)));
        }
    }
    cases.extend(enum_defaults());
    cases.extend(enums_behind_others());
    cases.extend(defaults_of_extensions());
    cases
}

fn enum_defaults() -> Vec<Case> {
    let with = |text: &str, type_name: &str| {
        let mut f = of_messages(vec![message_with(
            "A",
            vec![with_default(typed("a", 1, OPTIONAL, ENUM, type_name), text)],
        )]);
        f.enum_type
            .push(enumeration("E", &[("X", 0), ("Y", 1), ("X", 2)]));
        f.enum_type.push(enumeration("None", &[]));
        f
    };
    vec![
        alone("enum-default-first-of-two", with("X", ".E"), Expect::Domain),
        alone("enum-default-other", with("Y", ".E"), Expect::Domain),
        alone("enum-default-unknown", with("Z", ".E"), at(12, 0)),
        alone("enum-default-empty", with("", ".E"), at(12, 0)),
        alone("enum-default-of-no-values", with("X", ".None"), at(12, 0)),
        alone("enum-default-no-enum", with("X", ".Nowhere"), at(16, 0)),
        alone("enum-default-a-message", with("X", ".A"), at(16, 0)),
    ]
}

/// An enum of an import, behind a message of the same name here, and behind an enum here that its name would be beneath. The rules pass over both;
/// so does the crate, but with a default it panics.
fn enums_behind_others() -> Vec<Case> {
    let mut same = file("g", "", 2);
    same.enum_type.push(enumeration("X", &[("V", 0)]));
    let mut beneath = file("g", "X", 2);
    beneath.enum_type.push(enumeration("E", &[("V", 0)]));
    let user = |type_name: &str, default: bool| {
        let plain = typed("a", 1, OPTIONAL, ENUM, type_name);
        let a = if default {
            with_default(plain, "V")
        } else {
            plain
        };
        let mut f = of_messages(vec![message_with("A", vec![a])]);
        import(&mut f, &["g"]);
        f
    };
    let mut cases = Vec::new();
    for (suffix, default, expect) in [("", false, Expect::Domain), ("-default", true, Expect::Any)]
    {
        let mut behind_message = user(".X", default);
        behind_message.message_type.push(message("X"));
        let mut behind_enum = user(".X.E", default);
        behind_enum.enum_type.push(enumeration("X", &[]));
        let name = |what| format!("enum-behind-{what}{suffix}");
        cases.push(case_by_hand(
            &name("a-message"),
            &[same.clone(), behind_message],
            expect,
        ));
        cases.push(case_by_hand(
            &name("an-enum"),
            &[beneath.clone(), behind_enum],
            expect,
        ));
    }
    cases
}

fn defaults_of_extensions() -> Vec<Case> {
    let bad = |f| with_default(f, "x");
    let mut in_message = of_messages(vec![message_with(
        "A",
        vec![field("a", 1, OPTIONAL, INT32)],
    )]);
    let x = extending(field("x", 9, OPTIONAL, INT32), ".A");
    in_message.message_type[0].extension = vec![x.clone(), bad(x.clone())];
    let mut at_file = in_message.clone();
    at_file.message_type[0].extension.pop();
    at_file.extension = vec![x.clone(), bad(x.clone())];
    let mut repeated = of_messages(vec![message("A")]);
    repeated.message_type[0].field = vec![bad(field("a", 1, REPEATED, STRING))];
    let mut no_extendee = of_messages(vec![message("A")]);
    no_extendee.extension = vec![x.clone(), field("y", 1, OPTIONAL, INT32)];
    let mut bare = file("f", "", 3);
    bare.extension = vec![field("y", 1, OPTIONAL, INT32)];
    vec![
        alone("default-extension-in-message", in_message, at(12, 2)),
        alone("default-extension-at-file", at_file, at(12, 3)),
        alone("default-of-a-repeated-field", repeated, Expect::Domain),
        alone("no-extendee-second", no_extendee, at(14, 1)),
        alone("no-extendee-only", bare, at(14, 0)),
    ]
}

// --------------------------------------------------------------------------------------------------------------------------------- 15 and 16

fn resolving() -> Vec<Case> {
    let mut cases = Vec::new();
    for (i, t) in [MESSAGE, GROUP].into_iter().enumerate() {
        let missing = vec![
            field("a", 1, OPTIONAL, INT32),
            typed("b", 2, OPTIONAL, t, ".X"),
        ];
        cases.push(of_fields(&format!("type-missing-{i}"), missing, at(15, 1)));
    }
    let names_an_enum = |t| {
        let mut f = of_messages(vec![message_with(
            "A",
            vec![typed("a", 1, REPEATED, t, ".E")],
        )]);
        f.enum_type.push(enumeration("E", &[("X", 0)]));
        f
    };
    cases.push(alone("type-an-enum", names_an_enum(MESSAGE), at(15, 0)));
    cases.push(alone(
        "type-an-enum-rightly",
        names_an_enum(ENUM),
        Expect::Domain,
    ));
    let enum_a_message = vec![typed("a", 1, OPTIONAL, ENUM, ".A")];
    cases.push(of_fields("enum-a-message", enum_a_message, at(16, 0)));
    let no_enum = vec![
        field("a", 1, OPTIONAL, INT32),
        typed("b", 2, OPTIONAL, ENUM, ".X"),
    ];
    cases.push(of_fields("enum-missing", no_enum, at(16, 1)));
    let extendee = extending(field("a", 1, OPTIONAL, INT32), ".X");
    cases.push(of_fields(
        "extendee-missing-on-a-field",
        vec![extendee.clone()],
        at(15, 0),
    ));
    let mut in_message = of_messages(vec![message("A"), message("B")]);
    in_message.message_type[1].extension =
        vec![extending(extendee.clone(), ".A"), extendee.clone()];
    cases.push(alone("extendee-missing-in-message", in_message, at(15, 1)));
    let mut at_file = of_messages(vec![message_with(
        "A",
        vec![field("a", 1, OPTIONAL, INT32)],
    )]);
    at_file.extension.push(extendee);
    cases.push(alone("extendee-missing-at-file", at_file, at(15, 1)));
    cases.extend(imports_in_sight());
    cases.extend(maps_across_files());
    cases
}

/// What an import brings into sight: itself and its public imports, not its other ones.
fn imports_in_sight() -> Vec<Case> {
    let mut base = file("base", "p", 2);
    base.message_type.push(message("A"));
    let through = |mark: &str| {
        let mut f = file("through", "p", 2);
        import(&mut f, &[&format!("{mark}base")]);
        f
    };
    let mut user = file("user", "", 2);
    import(&mut user, &["through"]);
    user.message_type.push(message_with(
        "U",
        vec![typed("a", 1, OPTIONAL, MESSAGE, ".p.A")],
    ));
    let mut not_imported = user.clone();
    not_imported.dependency.clear();
    vec![
        case_by_hand(
            "sight-public",
            &[base.clone(), through("+"), user.clone()],
            Expect::Domain,
        ),
        case_by_hand(
            "sight-not-public",
            &[base.clone(), through(""), user],
            at(15, 0),
        ),
        case_by_hand("sight-not-imported", &[base, not_imported], at(15, 0)),
    ]
}

/// An entry of another file: its key's and value's types are resolved from the file that has the map field.
fn maps_across_files() -> Vec<Case> {
    let mut hidden = file("hidden", "h", 3);
    hidden.message_type.push(message("M"));
    hidden.enum_type.push(enumeration("E", &[("X", 0)]));
    let holder = |value: FieldDescriptorProto| {
        let mut f = file("holder", "h", 3);
        import(&mut f, &["hidden"]);
        let key = field("key", 1, OPTIONAL, STRING);
        f.message_type.push(map_entry("MapEntry", key, value));
        f
    };
    let user = |imports: &[&str]| {
        let mut f = file("user", "u", 3);
        import(&mut f, imports);
        let map = typed("m", 2, REPEATED, MESSAGE, ".h.MapEntry");
        f.message_type
            .push(message_with("U", vec![field("a", 1, OPTIONAL, INT32), map]));
        f
    };
    let of_message = || holder(typed("value", 2, OPTIONAL, MESSAGE, ".h.M"));
    let of_enum = || holder(typed("value", 2, OPTIONAL, ENUM, ".h.E"));
    let both: &[&str] = &["holder", "hidden"];
    let made = |name, holder, imports, expect| {
        case_by_hand(name, &[hidden.clone(), holder, user(imports)], expect)
    };
    vec![
        made("map-value-in-sight", of_message(), both, Expect::Domain),
        made(
            "map-value-out-of-sight",
            of_message(),
            &["holder"],
            at(15, 1),
        ),
        made("map-enum-in-sight", of_enum(), both, Expect::Domain),
        made("map-enum-out-of-sight", of_enum(), &["holder"], at(16, 1)),
    ]
}

// --------------------------------------------------------------------------------------------------------------------------------------- 17

fn clashes() -> Vec<Case> {
    let f = |name: &str, number| field(name, number, OPTIONAL, INT32);
    let json = |name: &str, number, json: &str| with_json(f(name, number), json);
    let lists = [
        ("number", vec![f("a", 1), f("b", 2), f("c", 1)], at(17, 2)),
        ("number-negative", vec![f("a", -1), f("b", -1)], at(17, 1)),
        ("name", vec![f("a", 1), f("a", 2)], at(17, 1)),
        (
            "json-and-json",
            vec![json("a", 1, "j"), json("b", 2, "j")],
            at(17, 1),
        ),
        (
            "json-and-name",
            vec![json("a", 1, "b"), f("b", 2)],
            at(17, 1),
        ),
        (
            "name-and-json",
            vec![f("b", 1), json("a", 2, "b")],
            at(17, 1),
        ),
        ("derived-and-name", vec![f("a_b", 1), f("aB", 2)], at(17, 1)),
        (
            "derived-and-derived",
            vec![f("a_b", 1), f("a__b", 2)],
            at(17, 1),
        ),
        ("derived-empty", vec![f("_", 1), f("__", 2)], at(17, 1)),
        (
            "json-own-name",
            vec![json("a", 1, "a"), f("b", 2)],
            Expect::Domain,
        ),
        (
            "json-case-differs",
            vec![f("ab", 1), f("aB", 2)],
            Expect::Domain,
        ),
        (
            "first-of-two",
            vec![f("a", 1), f("b", 1), f("a", 3)],
            at(17, 1),
        ),
    ];
    let mut cases: Vec<Case> = lists
        .into_iter()
        .map(|(name, fields, expect)| of_fields(&format!("clash-{name}"), fields, expect))
        .collect();
    let mut later = of_messages(vec![message_with("A", vec![f("a", 1)]), message("B")]);
    later.message_type[0].extension = vec![extending(f("a", 1), ".A"), extending(f("a", 1), ".A")];
    cases.push(alone("clash-of-extensions", later.clone(), Expect::Domain));
    later.message_type[1].field = vec![f("a", 1), f("b", 2), f("b", 3)];
    cases.push(alone("clash-in-a-later-message", later, at(17, 5)));
    let extendee = vec![f("a", 1), extending(f("a", 2), ".A")];
    cases.push(of_fields("clash-with-an-extendee", extendee, at(17, 1)));
    cases
}

// ------------------------------------------------------------------------------------------------------------------------ oneofs and marks

/// What makes a oneof synthetic, and who joins one.
fn oneofs() -> Vec<Case> {
    let f = |name: &str, number| field(name, number, OPTIONAL, INT32);
    let member = |name: &str, number| in_oneof(f(name, number), 0);
    let optional = |name: &str, number| proto3_optional(member(name, number));
    let lists = [
        ("no-members", vec![f("a", 1)]),
        ("one-member", vec![member("a", 1)]),
        ("synthetic", vec![f("a", 1), optional("b", 2)]),
        ("two-members", vec![optional("a", 1), optional("b", 2)]),
        ("optional-outside", vec![proto3_optional(f("a", 1))]),
        (
            "index-beyond",
            vec![in_oneof(optional("a", 1), 1), member("b", 2)],
        ),
        ("index-far-beyond", vec![in_oneof(f("a", 1), i32::MAX)]),
        (
            "repeated-member",
            vec![in_oneof(field("a", 1, REPEATED, INT32), 0)],
        ),
        (
            "member-with-extendee",
            vec![extending(optional("a", 1), ".A")],
        ),
    ];
    let with_oneof = |fields| {
        let mut f = of_messages(vec![message_with("A", fields)]);
        f.message_type[0].oneof_decl.push(oneof("o"));
        f
    };
    let mut cases: Vec<Case> = lists
        .into_iter()
        .map(|(name, fields)| alone(&format!("oneof-{name}"), with_oneof(fields), Expect::Domain))
        .collect();
    let mut outside = with_oneof(vec![member("a", 1)]);
    outside.message_type[0].extension = vec![extending(member("x", 9), ".A"), member("y", 10)];
    cases.push(alone("oneof-extensions-join-none", outside, Expect::Domain));
    let mut later = with_oneof(vec![member("a", 1)]);
    later.message_type.push(later.message_type[0].clone());
    later.message_type[1].set_name("B".to_owned());
    later.message_type[1].oneof_decl.insert(0, oneof("first"));
    cases.push(alone("oneof-of-a-later-message", later, Expect::Domain));
    cases
}

/// Messages that are not always initialised, and what does not make them so.
fn marks() -> Vec<Case> {
    let to = |target: &str| typed("t", 1, OPTIONAL, MESSAGE, target);
    let required = || message_with("R", vec![field("r", 1, REQUIRED, INT32)]);
    let mut ranged = message("R");
    add_ranges(&mut ranged, 1);
    let cycle = vec![
        message_with("A", vec![to(".B")]),
        message_with("B", vec![to(".A"), typed("c", 2, OPTIONAL, MESSAGE, ".C")]),
        message_with("C", vec![to(".R")]),
        required(),
    ];
    let entry = |value: &str| map_entry("VEntry", field("key", 1, OPTIONAL, INT32), to(value));
    let map = message_with("U", vec![typed("m", 1, REPEATED, MESSAGE, ".VEntry")]);
    let mut only_extension = message("U");
    only_extension.extension.push(extending(to(".R"), ".U"));
    let with_extendee = message_with("U", vec![extending(field("r", 1, REQUIRED, INT32), ".U")]);
    let mut required_extension = message("U");
    let extension = extending(field("r", 1, REQUIRED, INT32), ".U");
    required_extension.extension.push(extension);
    let mut proto3 = of_messages(vec![required(), message_with("U", vec![to(".R")])]);
    proto3.set_syntax("proto3".to_owned());
    let lists = [
        (
            "required",
            vec![required(), message_with("U", vec![to(".R")])],
        ),
        ("range", vec![message_with("U", vec![to(".R")]), ranged]),
        ("cycle", cycle),
        ("map-value", vec![map.clone(), entry(".R"), required()]),
        ("map-of-itself", vec![map, entry(".U")]),
        ("extension-refers", vec![only_extension, required()]),
        ("required-with-extendee", vec![with_extendee]),
        ("required-extension", vec![required_extension]),
    ];
    let mut cases: Vec<Case> = lists
        .into_iter()
        .map(|(name, messages)| {
            alone(
                &format!("mark-{name}"),
                of_messages(messages),
                Expect::Domain,
            )
        })
        .collect();
    cases.push(alone("mark-proto3", proto3, Expect::Domain));
    cases
}

// ---------------------------------------------------------------------------------------------------------------------------------- the order

/// Two refusals in one file: which comes first.
fn order() -> Vec<Case> {
    let f = |name: &str, number| field(name, number, OPTIONAL, INT32);
    let missing = typed("m", 3, OPTIONAL, MESSAGE, ".X");
    let bad = with_default(f("d", 4), "x");
    let both = with_default(missing.clone(), "x");
    let deep = entry_with_all_wrong();
    let lists = [
        // The default before the type, field by field, and all fields before 17.
        ("default-then-type", vec![both.clone()], at(12, 0)),
        (
            "type-then-default",
            vec![missing.clone(), bad.clone()],
            at(15, 0),
        ),
        (
            "default-before-extendee",
            vec![extending(bad.clone(), ".X")],
            at(12, 0),
        ),
        (
            "extendee-before-type",
            vec![extending(missing.clone(), ".X")],
            at(15, 0),
        ),
        (
            "clash-after-fields",
            vec![f("a", 1), f("a", 1), missing.clone()],
            at(15, 2),
        ),
        (
            "enum-default-before-type",
            vec![with_default(typed("e", 1, OPTIONAL, ENUM, ".X"), "x")],
            at(16, 0),
        ),
    ];
    let mut cases: Vec<Case> = lists
        .into_iter()
        .map(|(name, fields, expect)| of_fields(&format!("order-{name}"), fields, expect))
        .collect();

    let mut clash_before_extensions =
        of_messages(vec![message_with("A", vec![f("a", 1), f("a", 2)])]);
    clash_before_extensions.message_type[0]
        .extension
        .push(missing.clone());
    cases.push(alone(
        "order-clash-before-extensions",
        clash_before_extensions,
        at(17, 1),
    ));
    let messages = vec![
        message_with("A", vec![f("a", 1), f("b", 1)]),
        message_with("B", vec![missing.clone()]),
    ];
    cases.push(alone(
        "order-first-message-first",
        of_messages(messages),
        at(17, 1),
    ));
    let entries_first = vec![message_with("A", vec![missing.clone()]), deep.clone()];
    cases.push(alone(
        "order-entries-before-fields",
        of_messages(entries_first),
        at(9, 1),
    ));
    let mut named = deep.clone();
    named.set_name("XEntry".to_owned());
    cases.push(alone(
        "order-holds-before-fields",
        of_messages(vec![named.clone()]),
        at(10, 0),
    ));
    cases.push(alone(
        "order-entry-by-entry",
        of_messages(vec![named, deep.clone()]),
        at(10, 0),
    ));
    cases.push(alone(
        "order-name-first",
        of_messages(vec![deep.clone()]),
        at(9, 0),
    ));
    let mut twice = of_messages(vec![deep, message("A"), message("A")]);
    cases.push(alone(
        "order-full-names-before-entries",
        twice.clone(),
        at(8, 0),
    ));
    import(&mut twice, &["x"]);
    cases.push(alone(
        "order-imports-before-full-names",
        twice.clone(),
        at(7, 0),
    ));
    let shelved = file("f", "", 3);
    cases.push(case_by_hand(
        "order-file-name-before-imports",
        &[shelved.clone(), twice.clone()],
        at(6, 0),
    ));
    twice.set_package(".".to_owned());
    cases.push(case_by_hand(
        "order-bytes-before-file-name",
        &[shelved.clone(), twice.clone()],
        at(5, 0),
    ));
    twice.message_type[1].set_name("A".repeat(65));
    cases.push(case_by_hand(
        "order-limits-before-bytes",
        &[shelved, twice.clone()],
        at(4, 0),
    ));
    cases.push(broken_layout_first(&twice));
    let mut last = of_messages(vec![message("A")]);
    last.message_type[0].extension.push(missing.clone());
    last.extension = vec![f("y", 1)];
    cases.push(alone("order-file-extensions-last", last.clone(), at(15, 0)));
    last.message_type[0].extension.clear();
    last.extension = vec![bad, f("y", 1)];
    cases.push(alone(
        "order-default-before-no-extendee",
        last.clone(),
        at(12, 0),
    ));
    last.extension = vec![missing];
    cases.push(alone("order-no-extendee-before-type", last, at(14, 0)));
    cases
}

/// A map entry that would draw 9, 10 and 11.
fn entry_with_all_wrong() -> DescriptorProto {
    let mut m = message("X");
    mark_map_entry(&mut m);
    add_ranges(&mut m, 1);
    m
}

fn broken_layout_first(f: &FileDescriptorProto) -> Case {
    let mut image = image::encode(f).expect("a file that a maker writes has an image");
    if let Some(start) = image.words.last_mut() {
        *start += 1;
    }
    case_of_image("order-layout-before-limits", image, at(3, 0))
}

// ------------------------------------------------------------------------------------------------------------- the slips and the worked table

fn slips() -> Vec<Case> {
    // Package `foo` is no prefix of `.foobar.x`.
    let mut prefix = file("f", "foo", 3);
    prefix.message_type.push(message_with(
        "U",
        vec![typed("a", 1, OPTIONAL, MESSAGE, ".foobar.x")],
    ));
    prefix.message_type.push(message("x"));
    prefix.message_type.push(message("bar"));
    prefix.message_type[2].nested_type.push(message("x"));
    let mut other = file("g", "foobar", 3);
    other.message_type.push(message("x"));
    let mut found = prefix.clone();
    import(&mut found, &["g"]);
    // The JSON name of one field against the own name of another.
    let own_against_json = vec![
        field("a_b", 1, OPTIONAL, INT32),
        with_json(field("aB", 2, OPTIONAL, INT32), "z"),
    ];
    // A proto3 message that refers to a marked one of another file is marked.
    let mut marked = file("g", "", 2);
    marked
        .message_type
        .push(message_with("R", vec![field("r", 1, REQUIRED, INT32)]));
    let mut user = file("f", "", 3);
    import(&mut user, &["g"]);
    user.message_type.push(message_with(
        "U",
        vec![typed("a", 1, OPTIONAL, MESSAGE, ".R")],
    ));
    user.message_type.push(message_with(
        "V",
        vec![typed("a", 1, OPTIONAL, MESSAGE, ".U")],
    ));
    user.message_type
        .push(message_with("W", vec![field("r", 1, REQUIRED, INT32)]));
    vec![
        alone("slip-package-prefix", prefix, at(15, 0)),
        case_by_hand("slip-package-prefix-found", &[other, found], Expect::Domain),
        of_fields("slip-json-against-own-name", own_against_json, at(17, 1)),
        case_by_hand("slip-proto3-marked", &[marked, user], Expect::Domain),
    ]
}

fn worked_table() -> Vec<Case> {
    vec![
        name_row("table-beneath", ".foo.bar", Expect::Domain),
        name_row("table-equal", ".foo", at(15, 0)),
        name_row("table-elsewhere", ".foobar.x", at(15, 0)),
        of_fields(
            "table-json",
            vec![field("a_b", 1, OPTIONAL, INT32)],
            Expect::Domain,
        ),
        of_fields(
            "table-int32",
            vec![with_default(field("a", 1, OPTIONAL, INT32), "-0")],
            Expect::Domain,
        ),
        of_fields(
            "table-uint32",
            vec![with_default(
                field("a", 1, OPTIONAL, Type::TYPE_UINT32),
                "-0",
            )],
            at(12, 0),
        ),
        enum_row(),
        search_row(),
        distance_row(),
        of_fields(
            "table-itself",
            vec![typed("a", 1, OPTIONAL, MESSAGE, ".A")],
            Expect::Domain,
        ),
    ]
}

fn name_row(name: &str, type_name: &str, expect: Expect) -> Case {
    let mut f = file("f", "foo", 3);
    f.message_type.push(message_with(
        "bar",
        vec![typed("a", 1, OPTIONAL, MESSAGE, type_name)],
    ));
    alone(name, f, expect)
}

/// Values A=0, B=1, A=1: the default A is 0.
fn enum_row() -> Case {
    let a = with_default(typed("a", 1, OPTIONAL, ENUM, ".E"), "A");
    let mut f = of_messages(vec![message_with("M", vec![a])]);
    f.enum_type
        .push(enumeration("E", &[("A", 0), ("B", 1), ("A", 1)]));
    alone("table-enum", f, Expect::Domain)
}

/// Imports p, q where p publicly imports r, s: p, s, r, q. All of r, s and q have a message X; p has none.
fn search_row() -> Case {
    let with_x = |name: &str| {
        let mut f = file(name, "", 3);
        f.message_type.push(message("X"));
        f
    };
    let mut p = file("p", "", 3);
    import(&mut p, &["+r", "+s"]);
    let mut f = file("f", "", 3);
    import(&mut f, &["p", "q"]);
    f.message_type.push(message_with(
        "U",
        vec![typed("a", 1, OPTIONAL, MESSAGE, ".X")],
    ));
    let files: [FileCase; 5] = [with_x("r"), with_x("s"), p, with_x("q"), f].map(|f| FileCase {
        image: image::encode(&f).expect("a file that a maker writes has an image"),
        expect: Expect::Domain,
    });
    Case {
        name: "table-search".to_owned(),
        files: files.into(),
    }
}

/// A with a required field, B to A, C to B.
fn distance_row() -> Case {
    let to = |name: &str, target: &str| {
        message_with(name, vec![typed("a", 1, OPTIONAL, MESSAGE, target)])
    };
    let a = message_with("A", vec![field("r", 1, REQUIRED, INT32)]);
    let f = of_messages(vec![a, to("B", ".A"), to("C", ".B")]);
    alone("table-distance", f, Expect::Domain)
}

#[cfg(test)]
mod test {
    #[test]
    fn by_hand_and_judged_agree() {
        crate::domain::agrees_with(&super::cases());
    }
}
