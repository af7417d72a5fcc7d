//! The link words of a file that the crate has linked.
//!
//! Two readings of the crate are held against each other wherever both speak: its private index (`Index`) and its public interface (`View`).
//! A disagreement is an error of the oracle, not an answer.
//!
//! Who decides which word:
//!
//! | Row | The crate decides | Restated from the image |
//! |---|---|---|
//! | message | enclosing, first enum, first oneof, first field, both counts, map entry, always initialised | image row; distance is left open |
//! | enum | enclosing | image row |
//! | oneof | message, place, synthetic, count of members | image row is no word of it |
//! | field | kind, containing message, extendee, shape, scalar types, targets, default kind, integers, the place of an enum default | image row; which of 10 and 11 a message type is; start and length of a text default, whose text the crate decides; the last 0 |
//! | last 8 | the four counts | the four others are sums |
//!
//! A map field's entry is not in the index, so that the types of its key and value are read from the entry that the crate's own lookup finds, and
//! must fit what the index says of them.

use std::collections::HashMap;

use protobuf::reflect::{
    EnumDescriptor, FieldDescriptor, FileDescriptor, MessageDescriptor, OneofDescriptor,
    ReflectValueRef, RuntimeFieldType, RuntimeType,
};

use crate::image::{Layout, Rows};
use crate::index::{self, FieldIndex, Index, Kind, Shape, Target, Value};

pub const MESSAGE_WORDS: usize = 10;
pub const ENUM_WORDS: usize = 2;
pub const ONEOF_WORDS: usize = 4;
pub const FIELD_WORDS: usize = 16;
pub const RECORD_WORDS: usize = 8;

/// The distance of a message that is always initialised.
const NO_DISTANCE: u32 = u32::MAX;

/// Words of which some may be undecided.
type Words = Vec<Option<u32>>;

/// A file and the flat number in it.
type Place = (usize, usize);

/// Where each message and enum of the shelved files is.
#[derive(Default)]
pub struct Places {
    messages: HashMap<MessageDescriptor, Place>,
    enums: HashMap<EnumDescriptor, Place>,
}

impl Places {
    pub fn add(&mut self, file: usize, view: &View) {
        for (flat, m) in view.messages.iter().enumerate() {
            self.messages.insert(m.clone(), (file, flat));
        }
        for (flat, e) in view.enums.iter().enumerate() {
            self.enums.insert(e.clone(), (file, flat));
        }
    }

    /// Forgets the file with that number, which is the last one.
    pub fn forget(&mut self, file: usize) {
        self.messages.retain(|_, place| place.0 < file);
        self.enums.retain(|_, place| place.0 < file);
    }

    fn message(&self, m: &MessageDescriptor) -> Result<Place, String> {
        let place = self.messages.get(m).copied();
        place.ok_or_else(|| format!("message {} is in no shelved file", m.full_name()))
    }

    fn enumeration(&self, e: &EnumDescriptor) -> Result<Place, String> {
        let place = self.enums.get(e).copied();
        place.ok_or_else(|| format!("enum {} is in no shelved file", e.full_name()))
    }
}

/// A file as the public interface shows it, in flat order.
pub struct View {
    file: FileDescriptor,
    pub messages: Vec<MessageDescriptor>,
    pub enums: Vec<EnumDescriptor>,
    /// With its message and its place in it.
    oneofs: Vec<(OneofDescriptor, usize, usize)>,
    /// With the message that declares it.
    fields: Vec<(FieldDescriptor, Option<usize>)>,
    first_extension: usize,
}

impl View {
    /// How many messages, enums, oneofs and fields there are.
    fn counts(&self) -> [usize; 4] {
        [
            self.messages.len(),
            self.enums.len(),
            self.oneofs.len(),
            self.fields.len(),
        ]
    }

    pub fn of(file: &FileDescriptor) -> View {
        let mut view = View {
            file: file.clone(),
            messages: Vec::new(),
            enums: file.enums().collect(),
            oneofs: Vec::new(),
            fields: Vec::new(),
            first_extension: 0,
        };
        for m in file.messages() {
            view.add(m);
        }
        for (i, m) in view.messages.iter().enumerate() {
            view.fields
                .extend(m.fields().chain(m.extensions()).map(|f| (f, Some(i))));
        }
        view.first_extension = view.fields.len();
        view.fields.extend(file.extensions().map(|f| (f, None)));
        view
    }

    fn add(&mut self, m: MessageDescriptor) {
        let number = self.messages.len();
        self.messages.push(m.clone());
        self.enums.extend(m.nested_enums());
        self.oneofs.extend(
            m.all_oneofs()
                .enumerate()
                .map(|(place, o)| (o, number, place)),
        );
        for nested in m.nested_messages() {
            self.add(nested);
        }
    }
}

/// A file that the crate has linked, with all that its words are read from.
pub struct Linked<'a> {
    layout: &'a Layout<'a>,
    rows: Rows,
    view: &'a View,
    index: Option<Index>,
    places: &'a Places,
    /// Its number on the shelf.
    number: usize,
}

/// What one reading gives for a word, and the other where it speaks.
fn agree(what: &str, public: usize, index: Option<usize>) -> Result<u32, String> {
    match index {
        Some(index) if index != public => Err(format!(
            "{what}: {index} in the index, {public} by the public interface"
        )),
        _ => u32::try_from(public).map_err(|_| format!("{what}: {public} is too much for a word")),
    }
}

fn same<T: PartialEq + std::fmt::Debug>(what: &str, a: T, b: T) -> Result<(), String> {
    if a == b {
        return Ok(());
    }
    Err(format!("{what}: {a:?} and {b:?} should be the same"))
}

/// A number + 1, or 0 for none.
fn plus_one(number: Option<usize>) -> usize {
    number.map_or(0, |n| n + 1)
}

impl<'a> Linked<'a> {
    pub fn new(
        layout: &'a Layout<'a>,
        view: &'a View,
        places: &'a Places,
        number: usize,
    ) -> Result<Self, String> {
        let linked = Linked {
            layout,
            rows: layout.flat_rows(),
            view,
            index: index::read(&view.file)?,
            places,
            number,
        };
        linked.check_rows()?;
        if let Some(index) = &linked.index {
            linked.check_index(index)?;
        }
        Ok(linked)
    }

    /// Whether the index could be read.
    pub fn has_index(&self) -> bool {
        self.index.is_some()
    }

    /// The image's rows in flat order are what the crate has in its own order.
    fn check_rows(&self) -> Result<(), String> {
        let (rows, view) = (&self.rows, self.view);
        let counts = [
            rows.messages.len(),
            rows.enums.len(),
            rows.oneofs.len(),
            rows.fields.len(),
        ];
        same("counts", counts, view.counts())?;
        for (row, m) in rows.messages.iter().zip(&view.messages) {
            same(
                "message name",
                self.layout.message_name(*row)?.as_str(),
                m.name(),
            )?;
        }
        for (row, e) in rows.enums.iter().zip(&view.enums) {
            same("enum name", self.layout.enum_name(*row)?.as_str(), e.name())?;
        }
        for (row, (o, _, _)) in rows.oneofs.iter().zip(&view.oneofs) {
            same(
                "oneof name",
                self.layout.oneof_name(*row)?.as_str(),
                o.name(),
            )?;
        }
        for (row, (f, _)) in rows.fields.iter().zip(&view.fields) {
            same(
                "field name",
                self.layout.field_name(*row)?.as_str(),
                f.name(),
            )?;
            same(
                "field number",
                self.layout.field_words(*row)[2] as i32,
                f.number(),
            )?;
            same(
                "field type",
                self.layout.field_words(*row)[4],
                f.proto().type_() as u32,
            )?;
        }
        Ok(())
    }

    /// The index is in the order of the view, and says the same wherever no word rests on it.
    fn check_index(&self, index: &Index) -> Result<(), String> {
        let view = self.view;
        let counts = [
            index.messages.len(),
            index.enums.len(),
            index.oneofs.len(),
            index.fields.len(),
        ];
        same("counts", counts, view.counts())?;
        same(
            "first file extension",
            index.first_extension,
            view.first_extension,
        )?;
        same(
            "top-level messages",
            &index.top_level,
            &self.numbers(view.file.messages())?,
        )?;
        for (i, m) in index.messages.iter().zip(&view.messages) {
            same("message name", i.full_name.as_str(), m.full_name())?;
            same(
                "nested messages",
                &i.nested,
                &self.numbers(m.nested_messages())?,
            )?;
            same("count of enums", i.enums.len(), m.nested_enums().count())?;
            same("count of oneofs", i.oneofs.len(), m.all_oneofs().count())?;
        }
        for (i, e) in index.enums.iter().zip(&view.enums) {
            same("enum name", i.full_name.as_str(), e.full_name())?;
        }
        for (i, (o, message, _)) in index.oneofs.iter().zip(&view.oneofs) {
            let fields = &view.messages[*message].fields().collect::<Vec<_>>();
            let of_index: Vec<_> = i
                .fields
                .iter()
                .filter_map(|n| fields.get(*n))
                .map(|f| f.name())
                .collect();
            let of_view: Vec<_> = o.fields().map(|f| f.name().to_owned()).collect();
            same(
                "members",
                of_index,
                of_view.iter().map(String::as_str).collect(),
            )?;
        }
        for (i, (f, _)) in index.fields.iter().zip(&view.fields) {
            same("field name", i.name.as_str(), f.name())?;
            same("field number", i.number, f.number())?;
            same("JSON name", i.json_name.as_str(), f.json_name())?;
        }
        Ok(())
    }

    /// The flat numbers of messages of this file.
    fn numbers(
        &self,
        messages: impl Iterator<Item = MessageDescriptor>,
    ) -> Result<Vec<usize>, String> {
        messages.map(|m| self.own(&m)).collect()
    }

    fn own(&self, m: &MessageDescriptor) -> Result<usize, String> {
        let (file, number) = self.places.message(m)?;
        same("file of an own message", file, self.number)?;
        Ok(number)
    }

    /// All link rows.
    pub fn rows(&self) -> Result<Words, String> {
        let mut words = Vec::new();
        self.message_rows(&mut words)?;
        for number in 0..self.view.enums.len() {
            words.extend(
                self.enum_row(number)
                    .map_err(|e| format!("enum {number}: {e}"))?
                    .map(Some),
            );
        }
        for number in 0..self.view.oneofs.len() {
            words.extend(
                self.oneof_row(number)
                    .map_err(|e| format!("oneof {number}: {e}"))?
                    .map(Some),
            );
        }
        for number in 0..self.view.fields.len() {
            words.extend(
                self.field_row(number)
                    .map_err(|e| format!("field {number}: {e}"))?,
            );
        }
        Ok(words)
    }

    /// The counts of messages, enums, oneofs and fields.
    pub fn counts(&self) -> [usize; 4] {
        [
            self.view.messages.len(),
            self.view.enums.len(),
            self.view.oneofs.len(),
            self.view.fields.len(),
        ]
    }

    fn message_rows(&self, words: &mut Words) -> Result<(), String> {
        // What the walk has numbered before this message; the public interface shows no first numbers, only how many there are of each.
        let mut first = First {
            enums: self.view.file.enums().count(),
            oneofs: 0,
            fields: 0,
        };
        for number in 0..self.view.messages.len() {
            let row = self.message_row(number, &mut first);
            words.extend(row.map_err(|e| format!("message {number}: {e}"))?);
        }
        Ok(())
    }

    fn message_row(
        &self,
        number: usize,
        first: &mut First,
    ) -> Result<[Option<u32>; MESSAGE_WORDS], String> {
        let m = &self.view.messages[number];
        let index = self.index.as_ref().map(|i| &i.messages[number]);
        let enclosing = m.enclosing_message().map(|e| self.own(&e)).transpose()?;
        let (fields, extensions) = (m.fields().count(), m.extensions().count());
        let initialized = m.is_initialized_is_always_true();
        let always = agree(
            "always initialised",
            initialized as usize,
            index.map(|i| i.always_initialized as usize),
        )?;
        let row = [
            Some(self.rows.messages[number] as u32),
            Some(agree(
                "enclosing",
                plus_one(enclosing),
                index.map(|i| plus_one(i.enclosing)),
            )?),
            Some(agree(
                "first enum",
                first.enums,
                index.map(|i| i.enums.start),
            )?),
            Some(agree(
                "first oneof",
                first.oneofs,
                index.map(|i| i.oneofs.start),
            )?),
            Some(agree(
                "first field",
                first.fields,
                index.map(|i| i.first_field),
            )?),
            Some(agree("field count", fields, index.map(|i| i.field_count))?),
            Some(agree(
                "extension count",
                extensions,
                index.map(|i| i.extension_count),
            )?),
            Some(agree(
                "map entry",
                m.is_map_entry() as usize,
                index.map(|i| i.map_entry as usize),
            )?),
            Some(always),
            initialized.then_some(NO_DISTANCE),
        ];
        first.enums += m.nested_enums().count();
        first.oneofs += m.all_oneofs().count();
        first.fields += fields + extensions;
        Ok(row)
    }

    fn enum_row(&self, number: usize) -> Result<[u32; ENUM_WORDS], String> {
        let e = &self.view.enums[number];
        let index = self.index.as_ref().map(|i| &i.enums[number]);
        let enclosing = e.enclosing_message().map(|m| self.own(&m)).transpose()?;
        let enclosing = agree(
            "enclosing",
            plus_one(enclosing),
            index.map(|i| plus_one(i.enclosing)),
        )?;
        Ok([self.rows.enums[number] as u32, enclosing])
    }

    fn oneof_row(&self, number: usize) -> Result<[u32; ONEOF_WORDS], String> {
        let (o, message, place) = &self.view.oneofs[number];
        let index = self.index.as_ref().map(|i| &i.oneofs[number]);
        same("message", self.own(&o.containing_message())?, *message)?;
        Ok([
            agree("message", *message, index.map(|i| i.message))?,
            agree("place", *place, index.map(|i| i.place))?,
            agree(
                "synthetic",
                o.is_synthetic() as usize,
                index.map(|i| i.synthetic as usize),
            )?,
            agree(
                "count of members",
                o.fields().count(),
                index.map(|i| i.fields.len()),
            )?,
        ])
    }

    fn field_row(&self, number: usize) -> Result<[Option<u32>; FIELD_WORDS], String> {
        let (field, declared) = &self.view.fields[number];
        let row = self.rows.fields[number];
        let index = self.index.as_ref().map(|i| &i.fields[number]);
        let [kind, containing, file, extended] = self.kind(field, *declared, index)?;
        let (shape, first, second) = self.shape(field, index)?;
        let [default, low, high] = self.default(field, self.layout.field_words(row), index)?;
        let known = [row as u32, kind, containing, file, extended, shape];
        let mut words: Words = known
            .into_iter()
            .chain(first)
            .chain(second)
            .map(Some)
            .collect();
        words.extend([default, low, high, Some(0)]);
        words
            .try_into()
            .map_err(|_| "the row has not sixteen words".to_owned())
    }

    /// Kind, containing message, and the extendee's file and index.
    fn kind(
        &self,
        field: &FieldDescriptor,
        declared: Option<usize>,
        index: Option<&FieldIndex>,
    ) -> Result<[u32; 4], String> {
        let extends = field.proto().has_extendee();
        let kind_of = |i: &FieldIndex| matches!(i.kind, Kind::Extension(..)) as usize;
        let declared_of = |i: &FieldIndex| match i.kind {
            Kind::Field(m) => Some(m),
            Kind::Extension(m, _) => m,
        };
        let kind = agree("kind", extends as usize, index.map(kind_of))?;
        let containing = agree(
            "containing message",
            plus_one(declared),
            index.map(|i| plus_one(declared_of(i))),
        )?;
        // For an extension the crate's containing message is the extended one.
        let shown = self.places.message(&field.containing_message())?;
        if !extends {
            same(
                "containing message",
                Some(shown),
                declared.map(|m| (self.number, m)),
            )?;
            return Ok([kind, containing, 0, 0]);
        }
        if let Some(Kind::Extension(_, target)) = index.map(|i| &i.kind) {
            self.check_message(target, shown)?;
        }
        Ok([kind, containing, shown.0 as u32 + 1, shown.1 as u32])
    }

    fn check_message(&self, target: &Target, shown: Place) -> Result<(), String> {
        match target {
            Target::ThisMessage(number) => {
                same("message of this file", (self.number, *number), shown)
            }
            Target::OtherMessage if shown.0 != self.number => Ok(()),
            _ => Err(format!(
                "{target:?} in the index, and a message by the public interface"
            )),
        }
    }

    fn check_enum(&self, target: &Target, shown: Place, e: &EnumDescriptor) -> Result<(), String> {
        match target {
            Target::ThisEnum(number) => same("enum of this file", (self.number, *number), shown),
            Target::OtherEnum(name) if shown.0 != self.number => {
                same("enum of another file", name.as_str(), e.full_name())
            }
            _ => Err(format!(
                "{target:?} in the index, and an enum by the public interface"
            )),
        }
    }

    /// The shape, the three words of the type, and those of a map's value.
    fn shape(
        &self,
        field: &FieldDescriptor,
        index: Option<&FieldIndex>,
    ) -> Result<(u32, [u32; 3], [u32; 3]), String> {
        let own_type = field.proto().type_() as u32;
        let index = index.map(|i| &i.shape);
        let differs = || Err("the index and the public interface give two shapes".to_owned());
        match field.runtime_field_type() {
            RuntimeFieldType::Singular(of) => {
                let target = match index {
                    Some(Shape::Singular(target)) => Some(target),
                    None => None,
                    Some(_) => return differs(),
                };
                Ok((0, self.target(own_type, &of, target)?, [0; 3]))
            }
            RuntimeFieldType::Repeated(of) => {
                let target = match index {
                    Some(Shape::Repeated(target)) => Some(target),
                    None => None,
                    Some(_) => return differs(),
                };
                Ok((1, self.target(own_type, &of, target)?, [0; 3]))
            }
            RuntimeFieldType::Map(key, value) => {
                let (of_key, of_value) = match index {
                    Some(Shape::Map(key, value)) => (Some(key), Some(value)),
                    None => (None, None),
                    Some(_) => return differs(),
                };
                let [key_type, value_type] = self.entry_types(field)?;
                Ok((
                    2,
                    self.target(key_type, &key, of_key)?,
                    self.target(value_type, &value, of_value)?,
                ))
            }
        }
    }

    /// The types of key and value in the map entry that the field names.
    fn entry_types(&self, field: &FieldDescriptor) -> Result<[u32; 2], String> {
        let name = field.proto().type_name();
        let mut files = vec![self.view.file.clone()];
        files.extend(search_list(&self.view.file));
        let Some(entry) = files.iter().find_map(|f| f.message_by_full_name(name)) else {
            return Err(format!("the map entry {name} is not to be found"));
        };
        match entry.proto().field.as_slice() {
            [key, value] if entry.is_map_entry() => Ok([key.type_() as u32, value.type_() as u32]),
            _ => Err(format!("{name} is no map entry")),
        }
    }

    /// Type, file and index.
    fn target(
        &self,
        type_word: u32,
        shown: &RuntimeType,
        index: Option<&Target>,
    ) -> Result<[u32; 3], String> {
        if !fits(type_word, shown) {
            return Err(format!(
                "the type {type_word} is {shown} by the public interface"
            ));
        }
        let (file, number) = match shown {
            RuntimeType::Message(m) => {
                let place = self.places.message(m)?;
                index.map_or(Ok(()), |target| self.check_message(target, place))?;
                place
            }
            RuntimeType::Enum(e) => {
                let place = self.places.enumeration(e)?;
                index.map_or(Ok(()), |target| self.check_enum(target, place, e))?;
                place
            }
            _ => {
                index.map_or(Ok(()), |target| {
                    same("scalar type", target, &Target::Scalar(type_word))
                })?;
                return Ok([type_word, 0, 0]);
            }
        };
        Ok([type_word, file as u32 + 1, number as u32])
    }

    /// Default kind, low and high word.
    fn default(
        &self,
        field: &FieldDescriptor,
        image: &[u32],
        index: Option<&FieldIndex>,
    ) -> Result<[Option<u32>; 3], String> {
        let shown = if field.proto().has_default_value() {
            Some(self.shown_default(field)?)
        } else {
            None
        };
        if let Some(index) = index {
            same("default", &index.default, &shown)?;
        }
        Ok(match shown {
            None => [Some(0); 3],
            Some(Value::Integer(n)) => [Some(1), Some(n as u32), Some((n >> 32) as u32)],
            Some(Value::Text(_)) => [Some(3), Some(image[12]), Some(image[13])],
            Some(Value::Enum(place)) => [Some(4), Some(place as u32), Some(0)],
            Some(Value::Other) => [None; 3],
        })
    }

    /// A given default, as the public interface shows it.
    fn shown_default(&self, field: &FieldDescriptor) -> Result<Value, String> {
        let text = field.proto().default_value();
        let of = match field.runtime_field_type() {
            RuntimeFieldType::Singular(of) | RuntimeFieldType::Repeated(of) => of,
            RuntimeFieldType::Map(..) => return Err("a map has a default".to_owned()),
        };
        if let RuntimeType::Enum(e) = of {
            return enum_default(field, &e, text);
        }
        Ok(match field.singular_default_value() {
            ReflectValueRef::I32(n) => Value::Integer(n as i64 as u64),
            ReflectValueRef::I64(n) => Value::Integer(n as u64),
            ReflectValueRef::U32(n) => Value::Integer(n as u64),
            ReflectValueRef::U64(n) => Value::Integer(n),
            ReflectValueRef::Bool(b) => Value::Integer(b as u64),
            ReflectValueRef::String(s) => {
                same("default text", s, text)?;
                Value::Text(s.to_owned())
            }
            _ => Value::Other,
        })
    }
}

/// The place of an enum default: the public interface shows the number only, and for a repeated field not even that, so that the place is the
/// one of the first value with that name.
fn enum_default(field: &FieldDescriptor, e: &EnumDescriptor, name: &str) -> Result<Value, String> {
    let Some(place) = e.values().position(|v| v.name() == name) else {
        return Err(format!("the enum {} has no value {name}", e.full_name()));
    };
    if field.is_singular() {
        match field.singular_default_value() {
            ReflectValueRef::Enum(_, number) => {
                same("default number", number, e.value_by_index(place).value())?
            }
            _ => return Err("the default of an enum is none".to_owned()),
        }
    }
    Ok(Value::Enum(place))
}

/// What the walk over the messages has numbered so far.
struct First {
    enums: usize,
    oneofs: usize,
    fields: usize,
}

/// The files that types are sought in behind the file itself: direct imports in order, each followed at once by its public imports, the last
/// one first, deeply; a file once.
fn search_list(file: &FileDescriptor) -> Vec<FileDescriptor> {
    let mut waiting: Vec<FileDescriptor> = file.deps().iter().rev().cloned().collect();
    let mut list: Vec<FileDescriptor> = Vec::new();
    while let Some(next) = waiting.pop() {
        if !list.contains(&next) {
            waiting.extend(next.public_deps());
            list.push(next);
        }
    }
    list
}

/// Whether the type number is one that the crate shows so.
fn fits(type_word: u32, shown: &RuntimeType) -> bool {
    match shown {
        RuntimeType::I32 => matches!(type_word, 5 | 15 | 17),
        RuntimeType::I64 => matches!(type_word, 3 | 16 | 18),
        RuntimeType::U32 => matches!(type_word, 7 | 13),
        RuntimeType::U64 => matches!(type_word, 4 | 6),
        RuntimeType::F32 => type_word == 2,
        RuntimeType::F64 => type_word == 1,
        RuntimeType::Bool => type_word == 8,
        RuntimeType::String => type_word == 9,
        RuntimeType::VecU8 => type_word == 12,
        RuntimeType::Enum(_) => type_word == 14,
        RuntimeType::Message(_) => matches!(type_word, 10 | 11),
    }
}

#[cfg(test)]
mod test {
    use super::*;

    #[test]
    fn two_readings_that_differ_are_an_error() {
        assert_eq!(agree("x", 3, None), Ok(3));
        assert_eq!(agree("x", 3, Some(3)), Ok(3));
        let text = "x: 4 in the index, 3 by the public interface".to_owned();
        assert_eq!(agree("x", 3, Some(4)), Err(text));
        assert!(same("x", 1, 2).is_err());
    }

    #[test]
    fn each_type_number_fits_one_scalar() {
        let scalars = [
            RuntimeType::I32,
            RuntimeType::I64,
            RuntimeType::U32,
            RuntimeType::U64,
            RuntimeType::F32,
            RuntimeType::F64,
            RuntimeType::Bool,
            RuntimeType::String,
            RuntimeType::VecU8,
        ];
        for number in 1..=18 {
            let count = scalars.iter().filter(|s| fits(number, s)).count();
            assert_eq!(
                count,
                !matches!(number, 10 | 11 | 14) as usize,
                "type {number}"
            );
        }
    }
}
