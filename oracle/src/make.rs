//! Short ways to write descriptors down, and to turn files into cases.

use protobuf::descriptor::descriptor_proto::ExtensionRange;
use protobuf::descriptor::field_descriptor_proto::{Label, Type};
use protobuf::descriptor::{
    DescriptorProto, EnumDescriptorProto, EnumValueDescriptorProto, FieldDescriptorProto,
    FileDescriptorProto, OneofDescriptorProto,
};
use protobuf::{EnumOrUnknown, MessageField};

use crate::case::{Case, Expect, FileCase, Image};
use crate::domain::Shelf;
use crate::image;

pub const OPTIONAL: Label = Label::LABEL_OPTIONAL;
pub const REQUIRED: Label = Label::LABEL_REQUIRED;
pub const REPEATED: Label = Label::LABEL_REPEATED;

pub const INT32: Type = Type::TYPE_INT32;
pub const STRING: Type = Type::TYPE_STRING;
pub const MESSAGE: Type = Type::TYPE_MESSAGE;
pub const GROUP: Type = Type::TYPE_GROUP;
pub const ENUM: Type = Type::TYPE_ENUM;

/// The types by number, 1 to 18.
pub const TYPES: [Type; 18] = [
    Type::TYPE_DOUBLE,
    Type::TYPE_FLOAT,
    Type::TYPE_INT64,
    Type::TYPE_UINT64,
    Type::TYPE_INT32,
    Type::TYPE_FIXED64,
    Type::TYPE_FIXED32,
    Type::TYPE_BOOL,
    Type::TYPE_STRING,
    Type::TYPE_GROUP,
    Type::TYPE_MESSAGE,
    Type::TYPE_BYTES,
    Type::TYPE_UINT32,
    Type::TYPE_ENUM,
    Type::TYPE_SFIXED32,
    Type::TYPE_SFIXED64,
    Type::TYPE_SINT32,
    Type::TYPE_SINT64,
];

/// Does the type need a type name?
pub fn is_named(t: Type) -> bool {
    matches!(t, Type::TYPE_GROUP | Type::TYPE_MESSAGE | Type::TYPE_ENUM)
}

pub fn file(name: &str, package: &str, syntax: u32) -> FileDescriptorProto {
    let mut f = FileDescriptorProto::new();
    f.set_name(name.to_owned());
    if !package.is_empty() {
        f.set_package(package.to_owned());
    }
    f.set_syntax(if syntax == 3 { "proto3" } else { "proto2" }.to_owned());
    f
}

pub fn message(name: &str) -> DescriptorProto {
    let mut m = DescriptorProto::new();
    m.set_name(name.to_owned());
    m
}

pub fn message_with(name: &str, fields: Vec<FieldDescriptorProto>) -> DescriptorProto {
    let mut m = message(name);
    m.field = fields;
    m
}

/// A field of a scalar type.
pub fn field(name: &str, number: i32, label: Label, t: Type) -> FieldDescriptorProto {
    let mut f = FieldDescriptorProto::new();
    f.set_name(name.to_owned());
    f.set_number(number);
    f.set_label(label);
    f.set_type(t);
    f
}

/// A field of a message, group or enum type.
pub fn typed(
    name: &str,
    number: i32,
    label: Label,
    t: Type,
    type_name: &str,
) -> FieldDescriptorProto {
    let mut f = field(name, number, label, t);
    f.set_type_name(type_name.to_owned());
    f
}

pub fn with_default(mut f: FieldDescriptorProto, text: &str) -> FieldDescriptorProto {
    f.set_default_value(text.to_owned());
    f
}

pub fn with_json(mut f: FieldDescriptorProto, name: &str) -> FieldDescriptorProto {
    f.set_json_name(name.to_owned());
    f
}

pub fn extending(mut f: FieldDescriptorProto, extendee: &str) -> FieldDescriptorProto {
    f.set_extendee(extendee.to_owned());
    f
}

pub fn in_oneof(mut f: FieldDescriptorProto, index: i32) -> FieldDescriptorProto {
    f.set_oneof_index(index);
    f
}

pub fn proto3_optional(mut f: FieldDescriptorProto) -> FieldDescriptorProto {
    f.set_proto3_optional(true);
    f
}

pub fn enumeration(name: &str, values: &[(&str, i32)]) -> EnumDescriptorProto {
    let mut e = EnumDescriptorProto::new();
    e.set_name(name.to_owned());
    for (name, number) in values {
        let mut v = EnumValueDescriptorProto::new();
        v.set_name((*name).to_owned());
        v.set_number(*number);
        e.value.push(v);
    }
    e
}

pub fn oneof(name: &str) -> OneofDescriptorProto {
    let mut o = OneofDescriptorProto::new();
    o.set_name(name.to_owned());
    o
}

pub fn add_ranges(m: &mut DescriptorProto, count: usize) {
    for _ in 0..count {
        let mut r = ExtensionRange::new();
        r.set_start(100);
        r.set_end(200);
        m.extension_range.push(r);
    }
}

pub fn mark_map_entry(m: &mut DescriptorProto) {
    m.options = MessageField::some(Default::default());
    m.options.mut_or_insert_default().set_map_entry(true);
}

/// A map entry with the two fields given; their names and numbers are put right.
pub fn map_entry(
    name: &str,
    key: FieldDescriptorProto,
    value: FieldDescriptorProto,
) -> DescriptorProto {
    let mut m = message_with(name, vec![key, value]);
    for (f, name, number) in [(0, "key", 1), (1, "value", 2)] {
        m.field[f].set_name(name.to_owned());
        m.field[f].set_number(number);
        m.field[f].label = Some(EnumOrUnknown::new(OPTIONAL));
    }
    mark_map_entry(&mut m);
    m
}

/// Imports the files named; a name behind `+` is a public import.
pub fn import(f: &mut FileDescriptorProto, names: &[&str]) {
    for name in names {
        if name.starts_with('+') {
            f.public_dependency.push(f.dependency.len() as i32);
        }
        f.dependency.push(name.trim_start_matches('+').to_owned());
    }
}

/// A case of these files in the canonical order, each with what it draws.
pub fn case(name: &str, files: &[FileDescriptorProto]) -> Case {
    let mut shelf = Shelf::default();
    let files = files.iter().map(|f| file_case(f, &mut shelf)).collect();
    Case {
        name: name.to_owned(),
        files,
    }
}

fn file_case(f: &FileDescriptorProto, shelf: &mut Shelf) -> FileCase {
    let image = image::encode(f).expect("a file that a maker writes has an image");
    let expect = shelf.link(f, &image);
    FileCase { image, expect }
}

/// The same case, where the maker says by hand what its last file draws.
pub fn case_by_hand(name: &str, files: &[FileDescriptorProto], last: Expect) -> Case {
    let mut made = case(name, files);
    if let Some(f) = made.files.last_mut() {
        f.expect = last;
    }
    made
}

/// A case of one image that need not be one of any descriptor.
pub fn case_of_image(name: &str, image: Image, expect: Expect) -> Case {
    Case {
        name: name.to_owned(),
        files: vec![FileCase { image, expect }],
    }
}
