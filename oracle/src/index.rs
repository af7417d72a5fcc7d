//! The crate's private index of a linked file, read from what `{:?}` writes of its `FileDescriptor`.
//!
//! The crate keeps first numbers, kinds, same-file targets and the places of enum defaults to itself, but derives `Debug` all the way down.

use std::fmt::Write;
use std::ops::Range;

use protobuf::reflect::FileDescriptor;

use crate::tree::Tree;

#[derive(Debug)]
pub struct Index {
    pub messages: Vec<MessageIndex>,
    pub top_level: Vec<usize>,
    pub enums: Vec<EnumIndex>,
    pub oneofs: Vec<OneofIndex>,
    pub fields: Vec<FieldIndex>,
    pub first_extension: usize,
}

#[derive(Debug)]
pub struct MessageIndex {
    pub full_name: String,
    pub enclosing: Option<usize>,
    pub nested: Vec<usize>,
    pub enums: Range<usize>,
    pub oneofs: Range<usize>,
    pub map_entry: bool,
    pub first_field: usize,
    pub field_count: usize,
    pub extension_count: usize,
    pub always_initialized: bool,
}

#[derive(Debug)]
pub struct EnumIndex {
    pub full_name: String,
    pub enclosing: Option<usize>,
}

#[derive(Debug)]
pub struct OneofIndex {
    pub message: usize,
    pub place: usize,
    pub synthetic: bool,
    pub fields: Vec<usize>,
}

#[derive(Debug)]
pub struct FieldIndex {
    pub name: String,
    pub number: i32,
    pub json_name: String,
    pub kind: Kind,
    pub shape: Shape,
    pub default: Option<Value>,
}

#[derive(Debug)]
pub enum Kind {
    /// A field of that message.
    Field(usize),
    /// An extension: where it is declared, if in a message, and what it extends.
    Extension(Option<usize>, Target),
}

#[derive(Debug)]
pub enum Shape {
    Singular(Target),
    Repeated(Target),
    Map(Target, Target),
}

/// A type; what the index says of a type in another file is too little to find it by.
#[derive(Debug, PartialEq)]
pub enum Target {
    Scalar(u32),
    ThisMessage(usize),
    ThisEnum(usize),
    OtherMessage,
    /// With its full name.
    OtherEnum(String),
}

/// A default.
#[derive(Debug, PartialEq)]
pub enum Value {
    /// An integer or a truth value, as 64-bit two's complement.
    Integer(u64),
    Text(String),
    /// The place in the enum.
    Enum(usize),
    /// A double, a float or bytes, which the link words have no form for.
    Other,
}

/// The index of a file, or nothing if what it imports makes the debug text too long: every file is written again under each importer.
pub fn read(file: &FileDescriptor) -> Result<Option<Index>, String> {
    let mut kept = Keeper::default();
    match write!(kept, "{file:?}") {
        Ok(()) => Ok(Some(index(&Tree::parse(&kept.text)?)?)),
        Err(_) => Ok(None),
    }
}

/// More debug text than this is not waited for; tests need not wait as long.
const MOST_BYTES: usize = if cfg!(test) { 1 << 20 } else { 64 << 20 };

/// Takes debug text and keeps the part that is needed: not the imported files, and not the descriptors that are written whole at several places.
#[derive(Default)]
struct Keeper {
    text: String,
    seen: usize,
    depth: usize,
    in_string: bool,
    escaped: bool,
    /// The depth at which a part that is left out ends.
    left_out: Option<usize>,
}

impl Write for Keeper {
    fn write_str(&mut self, s: &str) -> std::fmt::Result {
        self.seen += s.len();
        if self.seen > MOST_BYTES {
            return Err(std::fmt::Error);
        }
        let mut done = 0;
        for (at, byte) in s.bytes().enumerate() {
            if self.in_string {
                self.in_string = self.escaped || byte != b'"';
                self.escaped = !self.escaped && byte == b'\\';
                continue;
            }
            match byte {
                b'"' => self.in_string = true,
                b'{' | b'[' | b'(' => {
                    self.keep(&s[done..at]);
                    self.open(&s[at..=at]);
                    done = at + 1;
                }
                b'}' | b']' | b')' => {
                    self.keep(&s[done..at]);
                    self.close();
                    done = at;
                }
                _ => {}
            }
        }
        self.keep(&s[done..]);
        Ok(())
    }
}

impl Keeper {
    fn keep(&mut self, part: &str) {
        if self.left_out.is_none() {
            self.text.push_str(part);
        }
    }

    fn open(&mut self, bracket: &str) {
        let leave_out = self.left_out.is_none() && self.is_left_out();
        self.keep(bracket);
        if leave_out {
            self.left_out = Some(self.depth);
        }
        self.depth += 1;
    }

    fn close(&mut self) {
        self.depth = self.depth.saturating_sub(1);
        if self.left_out == Some(self.depth) {
            self.left_out = None;
        }
    }

    /// Whether the part that a bracket opens here is left out. The depths are those of the file's own index, so that a descriptor or a string
    /// that says the same is not taken for it.
    fn is_left_out(&self) -> bool {
        match self.depth {
            3 => self.text.ends_with("proto: FileDescriptorProto "),
            4 => self.text.ends_with(" dependencies: "),
            6 => {
                self.text.ends_with(" proto: DescriptorProto ")
                    || self.text.ends_with(" proto: EnumDescriptorProto ")
            }
            _ => false,
        }
    }
}

fn index(file: &Tree) -> Result<Index, String> {
    let dynamic = file
        .field("imp")?
        .part("Dynamic")
        .ok_or("the file is not a dynamic one")?;
    let common = dynamic.field("common")?;
    Ok(Index {
        messages: each(common.field("messages")?, message)?,
        top_level: each(common.field("top_level_messages")?, Tree::number)?,
        enums: each(common.field("enums")?, enumeration)?,
        oneofs: each(common.field("oneofs")?, oneof)?,
        fields: each(common.field("fields")?, field)?,
        first_extension: common.field("first_extension_field_index")?.number()?,
    })
}

fn each<T>(list: &Tree, read: impl Fn(&Tree) -> Result<T, String>) -> Result<Vec<T>, String> {
    list.items()?.iter().map(read).collect()
}

fn message(t: &Tree) -> Result<MessageIndex, String> {
    let fields = t.field("message_index")?;
    Ok(MessageIndex {
        full_name: t.field("full_name")?.text()?.to_owned(),
        enclosing: optional_number(t.field("enclosing_message")?)?,
        nested: each(t.field("nested_messages")?, Tree::number)?,
        enums: t.field("nested_enums")?.range()?,
        oneofs: t.field("oneofs")?.range()?,
        map_entry: t.field("map_entry")?.flag()?,
        first_field: fields.field("first_field_index")?.number()?,
        field_count: fields.field("field_count")?.number()?,
        extension_count: fields.field("extension_count")?.number()?,
        always_initialized: t.field("is_initialized_is_always_true")?.flag()?,
    })
}

fn optional_number(t: &Tree) -> Result<Option<usize>, String> {
    t.option()?.map(Tree::number).transpose()
}

fn enumeration(t: &Tree) -> Result<EnumIndex, String> {
    Ok(EnumIndex {
        full_name: t.field("full_name")?.text()?.to_owned(),
        enclosing: optional_number(t.field("enclosing_message")?)?,
    })
}

fn oneof(t: &Tree) -> Result<OneofIndex, String> {
    Ok(OneofIndex {
        message: t.field("containing_message")?.number()?,
        place: t.field("index_in_containing_message")?.number()?,
        synthetic: t.field("synthetic")?.flag()?,
        fields: each(t.field("fields")?, Tree::number)?,
    })
}

fn field(t: &Tree) -> Result<FieldIndex, String> {
    let proto = t.field("proto")?;
    let name = proto.field("name")?.option()?.map(Tree::text).transpose()?;
    let number = proto
        .field("number")?
        .option()?
        .map(Tree::number)
        .transpose()?;
    Ok(FieldIndex {
        name: name.unwrap_or_default().to_owned(),
        number: number.unwrap_or_default(),
        json_name: t.field("json_name")?.text()?.to_owned(),
        kind: kind(t.field("kind")?)?,
        shape: shape(t.field("field_type")?)?,
        default: t.field("default_value")?.option()?.map(value).transpose()?,
    })
}

fn kind(t: &Tree) -> Result<Kind, String> {
    if let Some(message) = t.part("MessageField") {
        return Ok(Kind::Field(message.number()?));
    }
    match t.parts("Extension") {
        Some([declared, extendee]) => Ok(Kind::Extension(
            optional_number(declared)?,
            target(extendee)?,
        )),
        _ => Err("a field has an unknown kind".to_owned()),
    }
}

fn shape(t: &Tree) -> Result<Shape, String> {
    if let Some(of) = t.part("Singular") {
        return Ok(Shape::Singular(target(of)?));
    }
    if let Some(of) = t.part("Repeated") {
        return Ok(Shape::Repeated(target(of)?));
    }
    match t.parts("Map") {
        Some([key, value]) => Ok(Shape::Map(target(key)?, target(value)?)),
        _ => Err("a field has an unknown shape".to_owned()),
    }
}

fn target(t: &Tree) -> Result<Target, String> {
    if let Some(message) = t.part("CurrentFileMessage") {
        return Ok(Target::ThisMessage(message.number()?));
    }
    if let Some(enumeration) = t.part("CurrentFileEnum") {
        return Ok(Target::ThisEnum(enumeration.number()?));
    }
    let of = t
        .part("ProtobufTypeBox")
        .ok_or("a type has an unknown form")?;
    let runtime = of.field("runtime")?;
    if runtime.part("Message").is_some() {
        return Ok(Target::OtherMessage);
    }
    if let Some(enumeration) = runtime.part("Enum") {
        return Ok(Target::OtherEnum(
            enumeration.field("full_name")?.text()?.to_owned(),
        ));
    }
    Ok(Target::Scalar(scalar(of.field("t")?.word()?)?))
}

/// The number of a scalar type.
fn scalar(name: &str) -> Result<u32, String> {
    Ok(match name {
        "TYPE_DOUBLE" => 1,
        "TYPE_FLOAT" => 2,
        "TYPE_INT64" => 3,
        "TYPE_UINT64" => 4,
        "TYPE_INT32" => 5,
        "TYPE_FIXED64" => 6,
        "TYPE_FIXED32" => 7,
        "TYPE_BOOL" => 8,
        "TYPE_STRING" => 9,
        "TYPE_BYTES" => 12,
        "TYPE_UINT32" => 13,
        "TYPE_SFIXED32" => 15,
        "TYPE_SFIXED64" => 16,
        "TYPE_SINT32" => 17,
        "TYPE_SINT64" => 18,
        other => return Err(format!("`{other}` is no scalar type")),
    })
}

fn value(t: &Tree) -> Result<Value, String> {
    if let Some(place) = t.part("Enum") {
        return Ok(Value::Enum(place.number()?));
    }
    let of = t
        .part("ReflectValueBox")
        .ok_or("a default has an unknown form")?;
    for signed in ["I32", "I64"] {
        if let Some(number) = of.part(signed) {
            return Ok(Value::Integer(number.number::<i64>()? as u64));
        }
    }
    for unsigned in ["U32", "U64"] {
        if let Some(number) = of.part(unsigned) {
            return Ok(Value::Integer(number.number()?));
        }
    }
    if let Some(flag) = of.part("Bool") {
        return Ok(Value::Integer(flag.flag()? as u64));
    }
    match of.part("String") {
        Some(text) => Ok(Value::Text(text.text()?.to_owned())),
        None => Ok(Value::Other),
    }
}

#[cfg(test)]
mod test {
    use super::*;

    fn link(text: &str, imports: &[FileDescriptor]) -> FileDescriptor {
        let descriptor = protobuf::text_format::parse_from_str(text).unwrap();
        FileDescriptor::new_dynamic(descriptor, imports).unwrap()
    }

    /// Texts that look like parts of the debug text do not mislead the reader.
    #[test]
    fn the_index_is_read_behind_imports_and_strange_texts() {
        let first = link(
            r#"name: "f" message_type { name: "A" } enum_type { name: "E" value { name: "V" number: 0 } }"#,
            &[],
        );
        let second = link(
            r#"
            name: "} ] dependencies: [" dependency: "f"
            message_type {
              name: "B"
              field { name: "a" number: 1 type: TYPE_MESSAGE type_name: ".A" }
              field { name: "e" number: 2 type: TYPE_ENUM type_name: ".E" label: LABEL_REPEATED }
              field { name: "t" number: 3 type: TYPE_STRING default_value: "\\\" }) proto: DescriptorProto {" }
              field { name: "n" number: 4 type: TYPE_SINT64 default_value: "-9223372036854775808" }
            }"#,
            &[first],
        );
        let index = read(&second).unwrap().unwrap();
        assert_eq!(
            (index.messages.len(), index.enums.len(), index.oneofs.len()),
            (1, 0, 0)
        );
        assert_eq!(index.messages[0].full_name, "B");
        let [a, e, t, n] = index.fields.as_slice() else {
            panic!("{index:?}");
        };
        assert!(matches!(a.shape, Shape::Singular(Target::OtherMessage)));
        assert!(matches!(&e.shape, Shape::Repeated(Target::OtherEnum(name)) if name == "E"));
        let text = "\\\" }) proto: DescriptorProto {".to_owned();
        assert_eq!(t.default, Some(Value::Text(text)));
        assert_eq!(n.default, Some(Value::Integer(1 << 63)));
        assert!(matches!(n.kind, Kind::Field(0)));
    }
}
