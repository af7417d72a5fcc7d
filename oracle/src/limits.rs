//! Files at each limit exactly, and one past it.

use protobuf::descriptor::{DescriptorProto, FieldDescriptorProto, FileDescriptorProto};

use crate::case::{Case, Expect, FileCase, Image};
use crate::image;
use crate::make::*;

const PAST: Expect = Expect::RefusedAt(4, 0);

pub fn cases() -> Vec<Case> {
    let groups = [
        counts(),
        nesting(),
        texts(),
        full_names(),
        files(),
        lent_slices(),
        shelf_room(),
    ];
    groups.into_iter().flatten().collect()
}

/// The case at the limit and the one past it.
fn pair(what: &str, limit: usize, make: impl Fn(usize) -> FileDescriptorProto) -> [Case; 2] {
    [(limit, Expect::Domain), (limit + 1, PAST)]
        .map(|(n, expect)| case_by_hand(&format!("limit-{what}-{n}"), &[make(n)], expect))
}

/// The n-th of many short names.
pub fn name(n: usize) -> String {
    let letters = b"abcdefghijklmnopqrstuvwxyzABCDEFGHIJKLMNOPQRSTUVWXYZ";
    let mut text = String::new();
    let mut rest = n;
    loop {
        text.push(letters[rest % 52] as char);
        rest /= 52;
        if rest == 0 {
            return text;
        }
        rest -= 1;
    }
}

fn long_name(length: usize) -> String {
    "n".repeat(length)
}

/// A field by its place: names and numbers differ within a message.
pub fn numbered_field(n: usize) -> FieldDescriptorProto {
    field(&name(n), n as i32 + 1, OPTIONAL, INT32)
}

// ------------------------------------------------------------------------------------------------------------------------------------ counts

fn counts() -> Vec<Case> {
    let mut cases = Vec::new();
    cases.extend(pair("messages", 256, |n| with_messages("f", n)));
    cases.extend(pair("nested-messages", 256, |n| {
        let mut f = with_messages("f", 1);
        f.message_type[0].nested_type = with_messages("f", n - 1).message_type;
        f
    }));
    cases.extend(pair("enums", 256, |n| {
        let mut f = with_messages("f", 1);
        let enums = (0..n).map(|i| enumeration(&format!("E{i}"), &[]));
        f.message_type[0].enum_type = enums.collect();
        f
    }));
    cases.extend(pair("values", 4096, |n| {
        let mut f = file("f", "", 3);
        f.enum_type = vec![enumeration("E", &vec![("V", 0); 4000])];
        f.enum_type
            .push(enumeration("F", &vec![("V", 0); n - 4000]));
        f
    }));
    cases.extend(pair("oneofs", 256, |n| {
        let mut f = with_messages("f", 2);
        f.message_type[0].oneof_decl = vec![oneof("o"); 200];
        f.message_type[1].oneof_decl = vec![oneof("o"); n - 200];
        f
    }));
    cases.extend(pair("fields", 2048, |n| {
        let mut f = with_messages("f", 1);
        let name = format!(".{}", f.message_type[0].name());
        f.message_type[0].field = (0..2000).map(numbered_field).collect();
        let extension = |i| extending(numbered_field(i), &name);
        f.message_type[0].extension = (0..40).map(extension).collect();
        f.extension = (0..n - 2040).map(extension).collect();
        f
    }));
    for (n, expect) in [(32, Expect::Domain), (33, PAST)] {
        let mut f = file("f", "", 3);
        import(&mut f, &vec!["g"; n]);
        let files = [file("g", "", 3), f];
        cases.push(case_by_hand(&format!("limit-imports-{n}"), &files, expect));
    }
    cases
}

pub fn with_messages(file_name: &str, count: usize) -> FileDescriptorProto {
    let mut f = file(file_name, "", 3);
    f.message_type = (0..count).map(|i| message(&name(i))).collect();
    f
}

/// Messages one inside the other; the innermost has an enum.
fn nested(depth: usize) -> DescriptorProto {
    let mut m = message("M");
    m.enum_type.push(enumeration("E", &[("V", 0)]));
    for _ in 1..depth {
        let mut outer = message("M");
        outer.nested_type.push(m);
        m = outer;
    }
    m
}

fn nesting() -> Vec<Case> {
    let made = pair("nesting", 16, |depth| {
        let mut f = file("f", "", 3);
        f.message_type = vec![message("A"), nested(depth)];
        f
    });
    made.into()
}

// ------------------------------------------------------------------------------------------------------------------------------------- texts

fn texts() -> Vec<Case> {
    let mut cases = Vec::new();
    cases.extend(pair("message-name", 64, |n| {
        let mut f = file("f", "", 3);
        f.message_type.push(message(&long_name(n)));
        f
    }));
    cases.extend(pair("enum-name", 64, |n| {
        let mut f = file("f", "", 3);
        f.enum_type.push(enumeration(&long_name(n), &[]));
        f
    }));
    cases.extend(pair("value-name", 64, |n| {
        let mut f = file("f", "", 3);
        f.enum_type.push(enumeration("E", &[(&long_name(n), 0)]));
        f
    }));
    cases.extend(pair("oneof-name", 64, |n| {
        let mut f = with_messages("f", 1);
        f.message_type[0].oneof_decl.push(oneof(&long_name(n)));
        f
    }));
    cases.extend(pair("field-name", 64, |n| {
        of_field(field(&long_name(n), 1, OPTIONAL, INT32))
    }));
    cases.extend(pair("json-name", 64, |n| {
        of_field(with_json(numbered_field(0), &long_name(n)))
    }));
    cases.extend(pair("default", 256, |n| {
        of_field(with_default(field("a", 1, OPTIONAL, STRING), &long_name(n)))
    }));
    cases.extend(pair("default-digits", 256, |n| {
        of_field(with_default(numbered_field(0), &"0".repeat(n)))
    }));
    cases.extend(pair("file-name", 128, |n| file(&long_name(n), "", 3)));
    cases.extend(pair("package", 128, |n| {
        file("f", &format!("p.{}", long_name(n - 2)), 3)
    }));
    for (n, expect) in [(128, Expect::Domain), (129, PAST)] {
        let mut f = file("f", "", 3);
        import(&mut f, &[&long_name(n)]);
        let files = [file(&long_name(128), "", 3), f];
        cases.push(case_by_hand(
            &format!("limit-import-name-{n}"),
            &files,
            expect,
        ));
    }
    let unread = typed("a", 1, OPTIONAL, INT32, &long_name(513));
    cases.push(case_by_hand(
        "limit-type-name-of-a-scalar",
        &[of_field(unread)],
        Expect::Domain,
    ));
    cases
}

fn of_field(f: FieldDescriptorProto) -> FileDescriptorProto {
    let mut made = file("f", "", 3);
    made.message_type.push(message_with("A", vec![f]));
    made
}

/// A package and messages one inside the other, the innermost with a full name of so many bytes. The full name comes with it.
fn with_full_name(length: usize) -> (FileDescriptorProto, String) {
    let package = long_name(128);
    let mut left = length - package.len();
    let mut names = Vec::new();
    while left > 0 {
        // A dot and the name; nothing shorter than that may be left.
        let part = if left > 65 {
            left.min(65).min(left - 2)
        } else {
            left
        };
        names.push(long_name(part - 1));
        left -= part;
    }
    let full_name = format!("{package}.{}", names.join("."));
    let mut inner: Option<DescriptorProto> = None;
    for name in names.iter().rev() {
        let mut m = message(name);
        m.nested_type.extend(inner);
        inner = Some(m);
    }
    let mut f = file("f", &package, 2);
    f.message_type.extend(inner);
    (f, full_name)
}

fn full_names() -> Vec<Case> {
    let mut cases = Vec::new();
    cases.extend(pair("full-name", 512, |n| with_full_name(n).0));
    cases.extend(pair("enum-full-name", 512, |n| {
        let (mut f, _) = with_full_name(n - 2);
        let mut m = &mut f.message_type[0];
        while !m.nested_type.is_empty() {
            m = &mut m.nested_type[0];
        }
        m.enum_type.push(enumeration("E", &[]));
        f
    }));
    cases.extend(pair("type-name", 512, |n| {
        let (mut f, full_name) = with_full_name(n - 1);
        let user = typed("a", 1, OPTIONAL, MESSAGE, &format!(".{full_name}"));
        f.message_type.push(message_with("User", vec![user]));
        f
    }));
    cases.extend(pair("extendee", 512, |n| {
        let (mut f, full_name) = with_full_name(n - 1);
        let extension = extending(numbered_field(0), &format!(".{full_name}"));
        f.extension.push(extension);
        f
    }));
    cases
}

// ---------------------------------------------------------------------------------------------------------------- files, slices and the shelf

fn files() -> Vec<Case> {
    let many = |n: usize| (0..n).map(|i| file(&name(i), "", 3)).collect::<Vec<_>>();
    let mut again = many(32);
    again.push(file(&name(0), "", 3));
    let mut deep = many(1);
    for i in 1..32 {
        let mut f = file(&name(i), "", 3);
        import(&mut f, &[&format!("+{}", name(i - 1))]);
        deep.push(f);
    }
    deep[0].message_type.push(message("M"));
    let user = typed("a", 1, OPTIONAL, MESSAGE, ".M");
    deep[31].message_type.push(message_with("U", vec![user]));
    vec![
        case_by_hand("limit-files-32", &many(32), Expect::Domain),
        case_by_hand("limit-files-33", &many(33), PAST),
        case_by_hand("limit-files-33-known-name", &again, PAST),
        case_by_hand("limit-public-chain-32", &deep, Expect::Domain),
    ]
}

/// Bytes behind the texts that no text names.
fn with_pool_of(mut image: Image, bytes: usize) -> Image {
    image.pool.resize(bytes, b'x');
    let at = image.words.len() - 2;
    image.words[at] = bytes as u32;
    image
}

fn encoded(f: &FileDescriptorProto) -> Image {
    image::encode(f).expect("a file that a maker writes has an image")
}

fn lent_slices() -> Vec<Case> {
    let pool = |bytes| with_pool_of(encoded(&with_messages("f", 1)), bytes);
    let too_long = Expect::RefusedAt(1, 0);
    // 65,536 words are 4,679 message rows, 2 import rows and the trailer; an enum row instead of an import row is one more.
    let mut words = with_messages("f", 4679);
    import(&mut words, &["g", "g"]);
    let mut more = with_messages("f", 4679);
    import(&mut more, &["g"]);
    more.enum_type.push(enumeration("E", &[]));
    vec![
        case_of_image("limit-pool-32768", pool(32_768), Expect::Domain),
        case_of_image("limit-pool-32769", pool(32_769), too_long),
        case_of_image("limit-words-65536", encoded(&words), PAST),
        case_of_image("limit-words-65537", encoded(&more), too_long),
    ]
}

/// Every count at its limit: 50,296 words, and a record of 87,168.
fn largest(file_name: &str) -> FileDescriptorProto {
    let mut f = with_messages(file_name, 256);
    import(&mut f, &vec!["i"; 32]);
    f.enum_type = (0..256)
        .map(|i| enumeration(&format!("E{i}"), &vec![("V", 0); 16]))
        .collect();
    for m in &mut f.message_type {
        m.oneof_decl.push(oneof("o"));
        m.field = (0..8).map(numbered_field).collect();
    }
    f
}

fn shelf_room() -> Vec<Case> {
    let mut files = vec![file("i", "", 3)];
    files.extend(["a", "b", "c"].map(largest));
    // Three largest records and one of 32 words leave 608 of 262,144: a record with 4 messages and 15 fields.
    let mut rest = with_messages("r", 4);
    rest.message_type[0].field = (0..15).map(numbered_field).collect();
    let mut exact = files.clone();
    exact.push(rest.clone());
    let mut past = exact.clone();
    past[4].message_type[1].oneof_decl.push(oneof("o"));
    let mut full = exact.clone();
    full.push(file("z", "", 3));
    let no_room = Expect::RefusedAt(18, 0);
    vec![
        case_by_hand("limit-shelf-words-exact", &exact, Expect::Domain),
        case_by_hand("limit-shelf-words-past", &past, no_room),
        case_by_hand("limit-shelf-words-full", &full, no_room),
        shelf_bytes(),
    ]
}

/// Four pools of the greatest length fill the shelf's bytes; a fifth file has no room.
fn shelf_bytes() -> Case {
    let mut files: Vec<FileCase> = ["a", "b", "c", "d"]
        .map(|n| FileCase {
            image: with_pool_of(encoded(&file(n, "", 3)), 32_768),
            expect: Expect::Domain,
        })
        .into();
    files.push(FileCase {
        image: encoded(&file("e", "", 3)),
        expect: Expect::RefusedAt(18, 0),
    });
    Case {
        name: "limit-shelf-bytes".to_owned(),
        files,
    }
}

#[cfg(test)]
mod test {
    use super::*;

    #[test]
    fn by_hand_and_judged_agree() {
        let cases = cases();
        let has_descriptor = |f: &FileCase| image::decode(&f.image).is_ok();
        assert!(cases.iter().all(|c| c.files.iter().all(has_descriptor)));
        crate::domain::agrees_with(&cases);
    }
}
