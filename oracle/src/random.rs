//! Seeded random cases: several files each, mostly valid, now and then with one thing wrong.
//!
//! A file is made in two steps: first its messages and enums, so that everything in it has a name, then its fields, which may name anything in
//! sight. Names come from short lists, so that packages overlap and names shadow each other.

use protobuf::descriptor::field_descriptor_proto::{Label, Type};
use protobuf::descriptor::{
    DescriptorProto, EnumDescriptorProto, FieldDescriptorProto, FileDescriptorProto,
};
use protobuf::EnumOrUnknown;

use crate::case::{Case, FileCase};
use crate::domain::Shelf;
use crate::image;
use crate::make::*;
use crate::rng::Rng;

const PACKAGES: [&str; 7] = ["", "", "foo", "foo.bar", "foobar", "foo.bar.baz", "bar"];
const TYPE_NAMES: [&str; 12] = [
    "A", "B", "C", "D", "foo", "bar", "foobar", "baz", "Entry", "E_x", "_m", "Z9",
];
const FIELD_NAMES: [&str; 14] = [
    "a", "b", "c", "a_b", "aB", "a__c", "x1", "_y", "foo", "bar_baz", "barBaz", "id_", "K", "key",
];
const VALUE_NAMES: [&str; 6] = ["NONE", "ONE", "TWO", "x", "y_2", "MAX"];
const JSON_NAMES: [&str; 6] = ["j", "J1", "@type", "a b", "z", "aJson"];
const DEPTH: usize = 5;

pub fn cases(seed_from: u64, count: usize) -> Vec<Case> {
    (0..count as u64)
        .map(|i| case(seed_from.wrapping_add(i)))
        .collect()
}

fn case(seed: u64) -> Case {
    let mut rng = Rng::new(seed);
    let mut maker = Maker::new(&mut rng);
    let files = maker.files();
    let mut shelf = Shelf::default();
    let files = files
        .iter()
        .map(|f| {
            let image = if rng.one_in(3) {
                image::encode_shuffled(f, &mut rng)
            } else {
                image::encode(f)
            };
            let image = image.expect("a random file has an image");
            let expect = shelf.link(f, &image);
            FileCase { image, expect }
        })
        .collect();
    Case {
        name: format!("random-{seed}"),
        files,
    }
}

/// What can be named from a file: full names without the dot.
#[derive(Clone, Default)]
struct Sight {
    messages: Vec<String>,
    entries: Vec<String>,
    enums: Vec<(String, Vec<String>)>,
}

impl Sight {
    fn of(file: &FileDescriptorProto) -> Self {
        let mut sight = Sight::default();
        sight.add_enums(&file.enum_type, file.package());
        sight.add_messages(&file.message_type, file.package());
        sight
    }

    fn add_enums(&mut self, enums: &[EnumDescriptorProto], scope: &str) {
        for e in enums {
            let values = e.value.iter().map(|v| v.name().to_owned()).collect();
            self.enums.push((join(scope, e.name()), values));
        }
    }

    fn add_messages(&mut self, messages: &[DescriptorProto], scope: &str) {
        for m in messages {
            let name = join(scope, m.name());
            self.add_enums(&m.enum_type, &name);
            self.add_messages(&m.nested_type, &name);
            if is_entry(m) {
                self.entries.push(name);
            } else {
                self.messages.push(name);
            }
        }
    }

    fn add(&mut self, other: &Sight) {
        self.messages.extend(other.messages.iter().cloned());
        self.entries.extend(other.entries.iter().cloned());
        self.enums.extend(other.enums.iter().cloned());
    }
}

fn join(scope: &str, name: &str) -> String {
    if scope.is_empty() {
        name.to_owned()
    } else {
        format!("{scope}.{name}")
    }
}

struct Maker<'r> {
    rng: &'r mut Rng,
    /// What can be named from the file that is being made.
    sight: Sight,
    /// The messages and enums that the file may still get.
    room: usize,
}

impl<'r> Maker<'r> {
    fn new(rng: &'r mut Rng) -> Self {
        Maker {
            rng,
            sight: Sight::default(),
            room: 0,
        }
    }

    fn files(&mut self) -> Vec<FileDescriptorProto> {
        let count = if self.rng.one_in(20) {
            8 + self.rng.below(8)
        } else {
            1 + self.rng.below(4)
        };
        let mut files: Vec<FileDescriptorProto> = Vec::new();
        let mut wrong = self.rng.one_in(4);
        for i in 0..count {
            let mut f = self.file(i, &files);
            // The one thing wrong is mostly in the last file, so that most files of a case are linked.
            if wrong && (i + 1 == count || self.rng.one_in(8)) {
                self.spoil(&mut f, &files);
                wrong = false;
            }
            files.push(f);
        }
        files
    }

    fn file(&mut self, i: usize, earlier: &[FileDescriptorProto]) -> FileDescriptorProto {
        let name = *self
            .rng
            .pick(&["f", "dir/f.proto", "~f!", "f.proto", "F:\\f"]);
        let syntax = 2 + self.rng.below(2) as u32;
        let package = *self.rng.pick(&PACKAGES);
        let mut f = file(&format!("{name}{i}"), package, syntax);
        self.add_imports(&mut f, earlier);
        self.room = if self.rng.one_in(10) { 60 } else { 10 };
        let chain = self.rng.one_in(25);
        f.enum_type = self.enums(3, &[]);
        f.message_type = self.messages(1, &used_names(&[], &f.enum_type));
        if chain {
            self.nest_to(&mut f.message_type, 16);
        }
        self.sight = Sight::of(&f);
        for name in in_sight(&f, earlier) {
            let import = earlier.iter().find(|g| g.name() == name);
            self.sight.add(&Sight::of(import.expect("an earlier file")));
        }
        self.fill_messages(&mut f.message_type, syntax);
        for _ in 0..self.few(3) {
            let ext = self.extension(syntax);
            f.extension.extend(ext);
        }
        f
    }

    fn add_imports(&mut self, f: &mut FileDescriptorProto, earlier: &[FileDescriptorProto]) {
        let mut names: Vec<&str> = earlier.iter().map(|g| g.name()).collect();
        self.rng.shuffle(&mut names);
        for name in names {
            let times = match self.rng.below(20) {
                0..=6 => 0,
                7..=18 => 1,
                _ => 2,
            };
            for _ in 0..times {
                let mark = if self.rng.one_in(2) { "+" } else { "" };
                import(f, &[&format!("{mark}{name}")]);
            }
        }
    }

    /// A number below `n`, mostly a small one.
    fn few(&mut self, n: usize) -> usize {
        let below = 1 + self.rng.below(n);
        self.rng.below(below)
    }

    /// A name that is not used yet.
    fn fresh(&mut self, list: &[&str], used: &[String]) -> String {
        let name = self.rng.pick(list).to_string();
        if !used.contains(&name) {
            return name;
        }
        let numbered = (2..).map(|n| format!("{name}{n}"));
        numbered.into_iter().find(|n| !used.contains(n)).unwrap()
    }

    fn enums(&mut self, most: usize, used: &[String]) -> Vec<EnumDescriptorProto> {
        let mut used = used.to_vec();
        let mut enums = Vec::new();
        for _ in 0..self.few(most + 1) {
            if self.room == 0 {
                break;
            }
            self.room -= 1;
            let name = self.fresh(&TYPE_NAMES, &used);
            enums.push(self.enumeration(&name));
            used.push(name);
        }
        enums
    }

    /// Values may share a number, and now and then a name.
    fn enumeration(&mut self, name: &str) -> EnumDescriptorProto {
        let count = if self.rng.one_in(15) {
            0
        } else {
            1 + self.rng.below(5)
        };
        let mut used = Vec::new();
        let mut values = Vec::new();
        for _ in 0..count {
            let name = if self.rng.one_in(8) {
                self.rng.pick(&VALUE_NAMES).to_string()
            } else {
                self.fresh(&VALUE_NAMES, &used)
            };
            used.push(name.clone());
            let number = *self.rng.pick(&[0, 1, 1, 2, 3, -1, i32::MAX, i32::MIN]);
            values.push((name, number));
        }
        let values: Vec<(&str, i32)> = values.iter().map(|(n, i)| (n.as_str(), *i)).collect();
        enumeration(name, &values)
    }

    fn messages(&mut self, depth: usize, used: &[String]) -> Vec<DescriptorProto> {
        let mut used = used.to_vec();
        let mut messages = Vec::new();
        let least = if depth == 1 && !self.rng.one_in(12) {
            1
        } else {
            0
        };
        for _ in 0..least + self.few(4) {
            if self.room == 0 {
                break;
            }
            self.room -= 1;
            let name = self.fresh(&TYPE_NAMES, &used);
            messages.push(self.message(&name, depth));
            used.push(name);
        }
        // Map entries stand among the messages of any level; their types come with the fields.
        if self.room > 0 && self.rng.one_in(if depth == 1 { 10 } else { 3 }) {
            self.room -= 1;
            let name = self.fresh(&["Entry", "AEntry", "MapEntry", "x_Entry"], &used);
            if name.ends_with("Entry") {
                let any = || field("k", 1, OPTIONAL, INT32);
                messages.push(map_entry(&name, any(), any()));
            }
        }
        messages
    }

    fn message(&mut self, name: &str, depth: usize) -> DescriptorProto {
        let mut m = message(name);
        m.enum_type = self.enums(2, &[]);
        if depth < DEPTH {
            m.nested_type = self.messages(depth + 1, &used_names(&[], &m.enum_type));
        }
        for i in 0..self.few(4) {
            m.oneof_decl.push(oneof(&format!("o{i}")));
        }
        if self.rng.one_in(8) {
            add_ranges(&mut m, 1);
        }
        m
    }

    /// Adds one chain of messages, each inside the one before, down to the depth.
    fn nest_to(&mut self, messages: &mut Vec<DescriptorProto>, depth: usize) {
        let mut inner = message("N");
        for _ in 1..depth {
            let mut outer = message("N");
            outer.nested_type.push(inner);
            inner = outer;
        }
        messages.push(inner);
    }

    fn fill_messages(&mut self, messages: &mut [DescriptorProto], syntax: u32) {
        for m in messages {
            if is_entry(m) {
                m.field[0] = self.entry_field("key", 1);
                m.field[1] = self.entry_field("value", 2);
                continue;
            }
            self.add_fields(m, syntax);
            for _ in 0..self.few(3) {
                let ext = self.extension(syntax);
                m.extension.extend(ext);
            }
            // An extension inside a message may lack its extendee.
            if self.rng.one_in(15) {
                m.extension.push(self.field("plain", 7, syntax));
            }
            self.fill_messages(&mut m.nested_type, syntax);
        }
    }

    fn entry_field(&mut self, name: &str, number: i32) -> FieldDescriptorProto {
        let mut f = self.field(name, number, 2);
        f.label = Some(EnumOrUnknown::new(OPTIONAL));
        f
    }

    fn add_fields(&mut self, m: &mut DescriptorProto, syntax: u32) {
        let mut used: Vec<String> = Vec::new();
        let mut number = 0;
        let count = if self.rng.one_in(30) { 40 } else { self.few(9) };
        for _ in 0..count {
            number += 1 + self.rng.below(3) as i32;
            // Own and JSON names share one space, so a fresh name avoids both.
            let name = self.fresh(&FIELD_NAMES, &used);
            let derived = crate::domain::derived_json_name(&name);
            if derived != name && used.contains(&derived) {
                continue;
            }
            let mut f = self.field(&name, number, syntax);
            used.push(name);
            if self.rng.one_in(6) {
                let json = self.fresh(&JSON_NAMES, &used);
                used.push(json.clone());
                f.set_json_name(json);
            } else {
                used.push(derived);
            }
            self.put_in_oneof(&mut f, m.oneof_decl.len());
            if self.rng.one_in(20) {
                self.extend(&mut f);
            }
            m.field.push(f);
        }
        self.odd_number(m);
    }

    /// Numbers may be anything that is not there twice.
    fn odd_number(&mut self, m: &mut DescriptorProto) {
        if self.rng.one_in(6) {
            let odd = *self.rng.pick(&[0, -1, i32::MAX, i32::MIN, 536_870_911]);
            if let Some(f) = m.field.last_mut() {
                f.set_number(odd);
            }
        }
    }

    fn put_in_oneof(&mut self, f: &mut FieldDescriptorProto, oneofs: usize) {
        if self.rng.one_in(25) {
            // Beyond the message's oneofs: joins none.
            f.set_oneof_index(oneofs as i32 + *self.rng.pick(&[0, 1, 1000]));
        } else if oneofs > 0 && self.rng.one_in(2) {
            f.set_oneof_index(self.rng.below(oneofs) as i32);
        }
        if self.rng.one_in(5) {
            f.set_proto3_optional(true);
        }
    }

    /// A field with a type in sight, and perhaps a default.
    fn field(&mut self, name: &str, number: i32, syntax: u32) -> FieldDescriptorProto {
        let label = self.label(syntax);
        let t = self.type_in_sight();
        let mut f = field(name, number, label, t);
        match t {
            Type::TYPE_MESSAGE | Type::TYPE_GROUP => {
                let target = self.message_in_sight(label);
                f.set_type_name(format!(".{target}"));
            }
            Type::TYPE_ENUM => {
                let (target, _) = self.rng.pick(&self.sight.enums);
                f.set_type_name(format!(".{target}"));
            }
            // A type name that nobody looks at.
            _ if self.rng.one_in(40) => f.set_type_name("no name".to_owned()),
            _ => {}
        }
        if self.rng.one_in(if syntax == 2 { 3 } else { 12 }) {
            if let Some(text) = self.default_for(&f) {
                f.set_default_value(text);
            }
        }
        f
    }

    fn label(&mut self, syntax: u32) -> Label {
        match self.rng.below(10) {
            0 if syntax == 2 || self.rng.one_in(5) => REQUIRED,
            0..=3 => REPEATED,
            _ => OPTIONAL,
        }
    }

    fn type_in_sight(&mut self) -> Type {
        let t = match self.rng.below(4) {
            0 => MESSAGE,
            1 => *self.rng.pick(&[MESSAGE, GROUP, ENUM, ENUM]),
            _ => *self.rng.pick(&TYPES),
        };
        let no_message = self.sight.messages.is_empty() && self.sight.entries.is_empty();
        match t {
            Type::TYPE_MESSAGE | Type::TYPE_GROUP if no_message => INT32,
            Type::TYPE_ENUM if self.sight.enums.is_empty() => STRING,
            t => t,
        }
    }

    /// A repeated field of a map entry is a map, so entries are named by those above all.
    fn message_in_sight(&mut self, label: Label) -> String {
        let (messages, entries) = (&self.sight.messages, &self.sight.entries);
        let wants_entry = if label == REPEATED {
            self.rng.one_in(2)
        } else {
            self.rng.one_in(12)
        };
        let from = if messages.is_empty() || wants_entry && !entries.is_empty() {
            entries
        } else {
            messages
        };
        self.rng.pick(from).clone()
    }

    /// A readable default for the field, where its type can have one.
    fn default_for(&mut self, f: &FieldDescriptorProto) -> Option<String> {
        let rng = &mut *self.rng;
        let text = match f.type_() {
            Type::TYPE_INT32 | Type::TYPE_SINT32 | Type::TYPE_SFIXED32 => {
                *rng.pick(&["0", "-0", "+7", "007", "2147483647", "-2147483648", "-1"])
            }
            Type::TYPE_INT64 | Type::TYPE_SINT64 | Type::TYPE_SFIXED64 => *rng.pick(&[
                "0",
                "-0",
                "+7",
                "9223372036854775807",
                "-9223372036854775808",
                "-4294967296",
            ]),
            Type::TYPE_UINT32 | Type::TYPE_FIXED32 => {
                *rng.pick(&["0", "+0", "00012", "4294967295"])
            }
            Type::TYPE_UINT64 | Type::TYPE_FIXED64 => {
                *rng.pick(&["0", "+1", "4294967296", "18446744073709551615"])
            }
            Type::TYPE_BOOL => *rng.pick(&["true", "false"]),
            Type::TYPE_STRING => *rng.pick(&["", "x", "two words", "\\n\"'", "~ "]),
            Type::TYPE_ENUM => return self.value_of(f.type_name()),
            _ => return None,
        };
        Some(text.to_owned())
    }

    fn value_of(&mut self, dotted: &str) -> Option<String> {
        let named = self.sight.enums.iter().find(|(n, _)| *n == dotted[1..]);
        let (_, values) = named?;
        (!values.is_empty()).then(|| self.rng.pick(values).clone())
    }

    fn extension(&mut self, syntax: u32) -> Option<FieldDescriptorProto> {
        let name = *self.rng.pick(&FIELD_NAMES);
        let number = 100 + self.rng.below(50) as i32;
        let mut f = self.field(name, number, syntax);
        self.extend(&mut f);
        f.has_extendee().then_some(f)
    }

    fn extend(&mut self, f: &mut FieldDescriptorProto) {
        if !self.sight.messages.is_empty() {
            f.set_extendee(format!(".{}", self.rng.pick(&self.sight.messages)));
        }
    }
}

fn used_names(messages: &[DescriptorProto], enums: &[EnumDescriptorProto]) -> Vec<String> {
    let messages = messages.iter().map(|m| m.name().to_owned());
    let enums = enums.iter().map(|e| e.name().to_owned());
    messages.chain(enums).collect()
}

/// The names of the files that the imports lead to, public imports of imports included.
fn in_sight(f: &FileDescriptorProto, earlier: &[FileDescriptorProto]) -> Vec<String> {
    let mut names: Vec<String> = f.dependency.clone();
    let mut at = 0;
    while at < names.len() {
        let file = earlier.iter().find(|g| g.name() == names[at]);
        let public: Vec<String> = file
            .into_iter()
            .flat_map(|g| {
                g.public_dependency
                    .iter()
                    .map(|&i| g.dependency[i as usize].clone())
            })
            .collect();
        names.extend(public);
        at += 1;
    }
    names.sort();
    names.dedup();
    names
}

// ------------------------------------------------------------------------------------------------------------------------- one thing wrong

impl Maker<'_> {
    fn spoil(&mut self, f: &mut FileDescriptorProto, earlier: &[FileDescriptorProto]) {
        match self.rng.below(16) {
            0 => self.drop_import(f),
            1 => self.spoil_file(f, earlier),
            2 | 3 => self.spoil_entry(f),
            4 => self.repeat_a_name(f),
            _ => self.spoil_field(f),
        }
    }

    /// Names from that file are perhaps not found any more.
    fn drop_import(&mut self, f: &mut FileDescriptorProto) {
        if !f.dependency.is_empty() {
            let gone = self.rng.below(f.dependency.len());
            f.dependency.remove(gone);
            f.public_dependency.retain(|&i| i as usize != gone);
            for i in &mut f.public_dependency {
                *i -= i32::from(*i as usize > gone);
            }
        }
    }

    fn spoil_file(&mut self, f: &mut FileDescriptorProto, earlier: &[FileDescriptorProto]) {
        match self.rng.below(4) {
            0 => import(f, &["nowhere"]),
            1 => {
                let own = f.name().to_owned();
                import(f, &[&own]);
            }
            2 => f.set_package(
                self.rng
                    .pick(&[".foo", "foo.", "foo..bar", "1"])
                    .to_string(),
            ),
            _ => {
                if let Some(g) = earlier.first() {
                    f.set_name(g.name().to_owned());
                }
            }
        }
    }

    fn spoil_entry(&mut self, f: &mut FileDescriptorProto) {
        let Some(m) = self.pick_message(f, is_entry) else {
            return self.spoil_field(f);
        };
        match self.rng.below(10) {
            0 => m.set_name("entry".to_owned()),
            1 => m.nested_type.push(message("X")),
            2 => m.enum_type.push(enumeration("X", &[])),
            3 => add_ranges(m, 1),
            4 => m.extension.push(field("x", 9, OPTIONAL, INT32)),
            5 => m.field.reverse(),
            6 => m.field[1].set_label(REPEATED),
            7 => m.field[0].set_label(REQUIRED),
            8 => m.field[0].set_number(3),
            _ => m.field.push(field("more", 3, OPTIONAL, INT32)),
        }
    }

    fn pick_message<'a>(
        &mut self,
        f: &'a mut FileDescriptorProto,
        wanted: fn(&DescriptorProto) -> bool,
    ) -> Option<&'a mut DescriptorProto> {
        let count = count_messages(&f.message_type, wanted);
        let mut n = self.rng.below(count.max(1));
        nth_message(&mut f.message_type, wanted, &mut n)
    }

    fn repeat_a_name(&mut self, f: &mut FileDescriptorProto) {
        if let Some(name) = f.message_type.first().map(|m| m.name().to_owned()) {
            if self.rng.one_in(2) {
                f.message_type.push(message(&name));
            } else {
                f.enum_type.push(enumeration(&name, &[("V", 0)]));
            }
        }
    }

    fn spoil_field(&mut self, f: &mut FileDescriptorProto) {
        if !f.extension.is_empty() && self.rng.one_in(5) {
            let i = self.rng.below(f.extension.len());
            return self.spoil_one(&mut f.extension, i);
        }
        let Some(m) = self.pick_message(f, has_fields) else {
            return;
        };
        let fields = if !m.extension.is_empty() && self.rng.one_in(5) {
            &mut m.extension
        } else {
            &mut m.field
        };
        let i = self.rng.below(fields.len());
        self.spoil_one(fields, i);
    }

    fn spoil_one(&mut self, fields: &mut [FieldDescriptorProto], i: usize) {
        let other = fields[self.rng.below(fields.len())].clone();
        let f = &mut fields[i];
        match self.rng.below(14) {
            0 | 1 => f.set_default_value(self.unreadable_for(f.type_())),
            2 => f.set_default_value("1".to_owned()),
            3 => {
                f.set_type(MESSAGE);
                f.set_type_name(
                    self.rng
                        .pick(&[".Nowhere", ".foo", ".foo.bar", ".foobar.A"])
                        .to_string(),
                );
            }
            4 => f.set_extendee(self.rng.pick(&[".Nowhere", ".foo", ".foo.A.B"]).to_string()),
            5 => {
                f.set_type(ENUM);
                f.set_type_name(self.rng.pick(&[".Nowhere", ".A", ".foo.A"]).to_string());
            }
            6 | 7 => f.set_number(other.number()),
            8 => f.set_name(other.name().to_owned()),
            9 => f.set_json_name(other.name().to_owned()),
            10 => f.set_json_name(other.json_name().to_owned()),
            11 => f.clear_extendee(),
            12 => {
                f.set_type(*self.rng.pick(&TYPES));
                f.set_default_value(self.rng.pick(&["0", "true", "A", ""]).to_string());
                if is_named(f.type_()) && f.type_name().is_empty() {
                    f.set_type_name(".A".to_owned());
                }
            }
            _ => f.set_name(self.rng.pick(&["", "9", "a-b", "a.b"]).to_string()),
        }
    }

    fn unreadable_for(&mut self, t: Type) -> String {
        let texts: &[&str] = match t {
            Type::TYPE_INT32 | Type::TYPE_SINT32 | Type::TYPE_SFIXED32 => &[
                "",
                "-",
                "+",
                "2147483648",
                "-2147483649",
                "0x1",
                "1 ",
                "1.0",
                "+-1",
            ],
            Type::TYPE_INT64 | Type::TYPE_SINT64 | Type::TYPE_SFIXED64 => &[
                "",
                "--1",
                "9223372036854775808",
                "-9223372036854775809",
                "99999999999999999999999999",
            ],
            Type::TYPE_UINT32 | Type::TYPE_FIXED32 => &["", "-0", "-1", "4294967296", "+"],
            Type::TYPE_UINT64 | Type::TYPE_FIXED64 => &["", "-0", "18446744073709551616", "1_0"],
            Type::TYPE_BOOL => &["", "True", "1", "true ", "t"],
            _ => &["", "NOWHERE", "0"],
        };
        self.rng.pick(texts).to_string()
    }
}

/// The messages at any depth, in flat order, that are wanted.
fn count_messages(messages: &[DescriptorProto], wanted: fn(&DescriptorProto) -> bool) -> usize {
    messages
        .iter()
        .map(|m| usize::from(wanted(m)) + count_messages(&m.nested_type, wanted))
        .sum()
}

/// The one of them with that number; `n` counts down.
fn nth_message<'a>(
    messages: &'a mut [DescriptorProto],
    wanted: fn(&DescriptorProto) -> bool,
    n: &mut usize,
) -> Option<&'a mut DescriptorProto> {
    for m in messages {
        if wanted(m) {
            if *n == 0 {
                return Some(m);
            }
            *n -= 1;
        }
        if let Some(found) = nth_message(&mut m.nested_type, wanted, n) {
            return Some(found);
        }
    }
    None
}

fn is_entry(m: &DescriptorProto) -> bool {
    m.options.get_or_default().map_entry()
}

fn has_fields(m: &DescriptorProto) -> bool {
    !m.field.is_empty() && !is_entry(m)
}
