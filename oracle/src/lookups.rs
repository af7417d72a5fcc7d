//! Lookups in a shelved file, held against the crate's: every name and number that is there, and others that are not.

use protobuf::reflect::{EnumDescriptor, FieldDescriptor, FileDescriptor, MessageDescriptor};

use crate::link::View;
use crate::ours::{Found, Lent, Shelf, NOTHING};

/// Numbers that are asked for in every message and enum besides its own.
const OTHER_NUMBERS: [u32; 6] = [0, 1, 19_000, 0x7fff_ffff, 0x8000_0000, u32::MAX];
const OWN_NAME: [u32; 2] = [0, 1];
const OWN_OR_JSON_NAME: u32 = 2;
const OTHER_MODES: [u32; 2] = [3, u32::MAX];

/// The lookups in one file: how many were made, and which differ.
pub struct Lookups<'a> {
    shelf: &'a Shelf,
    file: u32,
    view: View,
    descriptor: &'a FileDescriptor,
    /// The flat number of each message's first field.
    first_fields: Vec<u32>,
    every: usize,
    pub made: usize,
    pub wrong: Vec<String>,
}

/// Something that is, or is not, at a number.
type Wanted = Option<usize>;

impl<'a> Lookups<'a> {
    /// Of the names and numbers every so many is asked for: each lookup checks the whole shelf first, which takes long on a large one.
    pub fn new(shelf: &'a Shelf, file: u32, descriptor: &'a FileDescriptor, every: usize) -> Self {
        let view = View::of(descriptor);
        let mut first_fields = Vec::new();
        let mut next = 0;
        for m in &view.messages {
            first_fields.push(next);
            next += (m.fields().count() + m.extensions().count()) as u32;
        }
        Lookups {
            shelf,
            file,
            view,
            descriptor,
            first_fields,
            every,
            made: 0,
            wrong: Vec::new(),
        }
    }

    /// Asks all of it.
    pub fn run(&mut self) {
        let full_names = self.full_names();
        for name in full_names.iter().step_by(self.every) {
            for sought in variants(name) {
                self.by_full_name(&sought);
            }
        }
        for sought in ["", ".", "..", ".x.y.z", "x"] {
            self.by_full_name(sought);
        }
        self.by_full_name(&format!(".{}", self.descriptor.package()));
        for message in (0..self.view.messages.len()).step_by(self.every) {
            let m = self.view.messages[message].clone();
            self.fields_of(message, &m);
        }
        for index in (0..self.view.enums.len()).step_by(self.every) {
            let e = self.view.enums[index].clone();
            self.values_of(index, &e);
        }
        self.written_names();
        self.nothing_there();
    }

    /// The full names of messages and enums, without the dot.
    fn full_names(&self) -> Vec<String> {
        let messages = self.view.messages.iter().map(|m| m.full_name().to_owned());
        let enums = self.view.enums.iter().map(|e| e.full_name().to_owned());
        messages.chain(enums).collect()
    }

    fn hold(&mut self, given: Found, wanted: Wanted, what: impl Fn() -> String) {
        self.made += 1;
        let wanted = wanted.map_or((NOTHING, 0), |n| (0, n as u32));
        if given != wanted {
            self.wrong.push(format!(
                "{}: the crate gives {wanted:?}, ours is {given:?}",
                what()
            ));
        }
    }

    /// Asks for a message and an enum of that name. The crate panics on a name without its dot; such a name finds nothing.
    fn by_full_name(&mut self, name: &str) {
        let (mut message, mut enumeration) = (None, None);
        if name.starts_with('.') {
            let found = self.descriptor.message_by_full_name(name);
            message = found.and_then(|m| self.view.messages.iter().position(|n| *n == m));
            let found = self.descriptor.enum_by_full_name(name);
            enumeration = found.and_then(|e| self.view.enums.iter().position(|n| *n == e));
        }
        let given = self.shelf.message(self.file, name.as_bytes());
        self.hold(given, message, || format!("message `{name}`"));
        let given = self.shelf.enumeration(self.file, name.as_bytes());
        self.hold(given, enumeration, || format!("enum `{name}`"));
    }

    fn fields_of(&mut self, message: usize, m: &MessageDescriptor) {
        let fields: Vec<FieldDescriptor> = m.fields().collect();
        let (index, first) = (message as u32, self.first_fields[message] as usize);
        let flat = |found: Option<FieldDescriptor>| {
            let found = found.and_then(|f| fields.iter().position(|g| *g == f));
            found.map(|place| first + place)
        };
        let own = fields.iter().map(|f| f.number() as u32);
        for number in numbers(own).into_iter().step_by(self.every) {
            let given = self.shelf.field_by_number(self.file, index, number);
            self.hold(given, flat(m.field_by_number(number)), || {
                format!("field {number} of message {message}")
            });
        }
        let own = fields.iter().flat_map(|f| [f.name(), f.json_name()]);
        for name in names(own).into_iter().step_by(self.every) {
            for mode in OWN_NAME {
                self.field_by_name(index, mode, &name, flat(m.field_by_name(&name)));
            }
            let wanted = flat(m.field_by_name_or_json_name(&name));
            self.field_by_name(index, OWN_OR_JSON_NAME, &name, wanted);
        }
        for mode in OTHER_MODES {
            let name = fields.first().map_or("", |f| f.name());
            self.field_by_name(index, mode, name, None);
        }
    }

    fn field_by_name(&mut self, message: u32, mode: u32, name: &str, wanted: Wanted) {
        let given = self
            .shelf
            .field_by_name(self.file, message, mode, name.as_bytes());
        self.hold(given, wanted, || {
            format!("field `{name}` of message {message}, mode {mode}")
        });
    }

    fn values_of(&mut self, index: usize, e: &EnumDescriptor) {
        let values = &e.proto().value;
        let place = |found: Option<protobuf::reflect::EnumValueDescriptor>| {
            let found = found?;
            values.iter().position(|v| std::ptr::eq(v, found.proto()))
        };
        let own = values.iter().map(|v| v.number() as u32);
        for number in numbers(own).into_iter().step_by(self.every) {
            let given = self.shelf.value_by_number(self.file, index as u32, number);
            self.hold(given, place(e.value_by_number(number as i32)), || {
                format!("value {number} of enum {index}")
            });
        }
        let own = values.iter().map(|v| v.name());
        for name in names(own).into_iter().step_by(self.every) {
            let given = self
                .shelf
                .value_by_name(self.file, index as u32, name.as_bytes());
            self.hold(given, place(e.value_by_name(&name)), || {
                format!("value `{name}` of enum {index}")
            });
        }
    }

    /// Full names written to buffers that are too short by one, just long enough, and longer.
    fn written_names(&mut self) {
        let messages = self.view.messages.len();
        let full_names = self.full_names();
        for (number, name) in full_names.iter().enumerate().step_by(self.every) {
            for room in [name.len() - 1, name.len(), name.len() + 3] {
                let mut out = Lent::<u8>::new(room);
                let mut wanted = out.clone();
                let given = match number.checked_sub(messages) {
                    None => self.shelf.message_name(self.file, number as u32, &mut out),
                    Some(index) => self.shelf.enum_name(self.file, index as u32, &mut out),
                };
                let fits = room >= name.len();
                if fits {
                    wanted.slice_mut()[..name.len()].copy_from_slice(name.as_bytes());
                }
                let what = || format!("the name `{name}` written to {room} bytes");
                self.hold(given, fits.then_some(name.len()), what);
                if out != wanted {
                    self.wrong.push(format!("{}: other bytes", what()));
                }
            }
        }
    }

    /// Files, messages and enums that are not there.
    fn nothing_there(&mut self) {
        let (shelf, file) = (self.shelf, self.file);
        let messages = self.view.messages.len() as u32;
        let enums = self.view.enums.len() as u32;
        let mut given = Vec::new();
        for bad in [shelf.used.files, u32::MAX] {
            given.extend([shelf.message(bad, b".A"), shelf.enumeration(bad, b".A")]);
            given.extend([
                shelf.field_by_number(bad, 0, 1),
                shelf.value_by_number(bad, 0, 1),
            ]);
            given.push(shelf.message_name(bad, 0, &mut Lent::new(512)));
        }
        for bad in [messages, u32::MAX] {
            given.push(shelf.field_by_number(file, bad, 1));
            given.push(shelf.field_by_name(file, bad, 0, b"a"));
            given.push(shelf.message_name(file, bad, &mut Lent::new(512)));
        }
        for bad in [enums, u32::MAX] {
            given.push(shelf.value_by_number(file, bad, 0));
            given.push(shelf.value_by_name(file, bad, b"a"));
            given.push(shelf.enum_name(file, bad, &mut Lent::new(512)));
        }
        for found in given {
            self.hold(found, None, || "a number with nothing there".to_owned());
        }
    }
}

/// The full name behind its dot, and names near it.
fn variants(name: &str) -> [String; 6] {
    [
        format!(".{name}"),
        name.to_owned(),
        format!(".{name}x"),
        format!(".{name}.x"),
        format!(".{}", &name[..name.len() - 1]),
        format!("..{name}"),
    ]
}

/// Each number once, and others.
fn numbers(own: impl Iterator<Item = u32>) -> Vec<u32> {
    let near = own.flat_map(|n| [n, n.wrapping_add(1)]);
    let mut numbers: Vec<u32> = near.chain(OTHER_NUMBERS).collect();
    numbers.sort_unstable();
    numbers.dedup();
    numbers
}

/// Each name once, and others.
fn names<'n>(own: impl Iterator<Item = &'n str>) -> Vec<String> {
    let mut names: Vec<String> = own.map(str::to_owned).collect();
    let others: Vec<String> = names
        .iter()
        .take(3)
        .flat_map(|n| [format!("{n}_"), n.to_uppercase()])
        .collect();
    names.extend(others);
    names.extend(["".to_owned(), "nothing".to_owned()]);
    names.sort_unstable();
    names.dedup();
    names
}

#[cfg(test)]
mod test {
    use super::*;
    use crate::image::encode;

    /// Two files on a shelf, and the first one's descriptor.
    fn shelf() -> (Shelf, FileDescriptor) {
        let texts = [
            r#"name: "f" message_type { name: "A" field { name: "a_b" number: 1 type: TYPE_INT32 } }"#,
            r#"name: "g" enum_type { name: "E" value { name: "V" number: 0 } }"#,
        ];
        let protos = texts.map(|t| protobuf::text_format::parse_from_str(t).unwrap());
        let mut shelf = Shelf::new(1_000, 100);
        for proto in &protos {
            shelf.link(&encode(proto).unwrap()).unwrap();
        }
        let [first, _] = protos;
        (shelf, FileDescriptor::new_dynamic(first, &[]).unwrap())
    }

    #[test]
    fn lookups_agree_in_the_right_file_alone() {
        let (shelf, descriptor) = shelf();
        let mut right = Lookups::new(&shelf, 0, &descriptor, 1);
        right.run();
        assert_eq!(right.wrong, Vec::<String>::new());
        let mut other = Lookups::new(&shelf, 1, &descriptor, 1);
        other.run();
        let named = |what: &str| other.wrong.iter().any(|w| w.starts_with(what));
        assert!(named("message `.A`"));
        assert!(named("field 1 of message 0"));
        assert!(named("field `aB` of message 0, mode 2"));
        assert!(named("the name `A` written to 1 bytes"));
    }
}
