//! What a file draws by the rules, judged of its descriptor: written on its own, so that a case says what is expected of it without asking the crate.
//!
//! Layout (3) and the shelf's shape (2) are not judged here: a descriptor has neither.

use std::collections::{HashMap, HashSet};

use protobuf::descriptor::field_descriptor_proto::{Label, Type};
use protobuf::descriptor::{
    DescriptorProto, EnumDescriptorProto, FieldDescriptorProto, FileDescriptorProto,
};

use crate::case::{Expect, Image};

/// A refusal: number and place.
type Drawn = Result<(), (u32, u32)>;

pub const MOST_IMAGE_WORDS: usize = 65_536;
pub const MOST_POOL_BYTES: usize = 32_768;
pub const MOST_SHELF_WORDS: usize = 262_144;
pub const MOST_SHELF_BYTES: usize = 131_072;
pub const MOST_FILES: usize = 32;

/// The files accepted so far.
#[derive(Default)]
pub struct Shelf {
    files: Vec<FileDescriptorProto>,
    words: usize,
    bytes: usize,
    /// The files that the rules accept and the crate does not have, because it panicked on them or on what they import.
    not_linked: HashSet<String>,
}

impl Shelf {
    /// What the file draws; one that draws nothing goes on the shelf.
    pub fn link(&mut self, file: &FileDescriptorProto, image: &Image) -> Expect {
        let mut panics = false;
        match self.judge(file, image, &mut panics) {
            // The crate panics before it comes to this refusal.
            Err((number, _)) if panics && number != 16 => Expect::Any,
            Err((number, place)) => Expect::RefusedAt(number, place),
            Ok(()) => self.put(file, image, panics),
        }
    }

    fn put(&mut self, file: &FileDescriptorProto, image: &Image, panics: bool) -> Expect {
        let imports = &file.dependency;
        let crate_has_it = !panics && !imports.iter().any(|d| self.not_linked.contains(d));
        self.words += record_words(file, image);
        self.bytes += image.pool.len();
        self.files.push(file.clone());
        if crate_has_it {
            return Expect::Domain;
        }
        self.not_linked.insert(file.name().to_owned());
        Expect::Any
    }

    /// Is a file of that name on the shelf?
    pub fn holds(&self, name: &str) -> bool {
        self.files.iter().any(|f| f.name() == name)
    }

    fn judge(&self, file: &FileDescriptorProto, image: &Image, panics: &mut bool) -> Drawn {
        let too_long = image.words.len() > MOST_IMAGE_WORDS || image.pool.len() > MOST_POOL_BYTES;
        refuse_if(too_long, 1)?;
        let flat = Flat::of(file);
        refuse_if(passes_a_limit(&flat) || self.files.len() >= MOST_FILES, 4)?;
        refuse_if(breaks_a_byte_rule(&flat), 5)?;
        refuse_if(self.holds(file.name()), 6)?;
        for (row, import) in file.dependency.iter().enumerate() {
            if !self.holds(import) {
                return Err((7, row as u32));
            }
        }
        let mut names = HashSet::new();
        let mut full_names = flat.full_names();
        refuse_if(!full_names.all(|n| names.insert(n)), 8)?;
        judge_map_entries(&flat)?;
        let mut scope = Scope::new(&flat, self);
        let judged = scope.judge_fields();
        *panics = scope.crate_panics;
        judged?;
        let fits = self.words + record_words(file, image) <= MOST_SHELF_WORDS
            && self.bytes + image.pool.len() <= MOST_SHELF_BYTES;
        refuse_if(!fits, 18)
    }
}

/// Does the file keep the rules that it can break by itself: 4, 5, 8 to 11 and 17? Every file on a well-formed shelf does.
pub fn stands(file: &FileDescriptorProto) -> bool {
    let flat = Flat::of(file);
    let mut names = HashSet::new();
    let differ = flat.full_names().all(|n| names.insert(n));
    let clash = |m: &DescriptorProto| judge_clashes(&m.field).is_err();
    differ
        && !passes_a_limit(&flat)
        && !breaks_a_byte_rule(&flat)
        && judge_map_entries(&flat).is_ok()
        && !flat.messages.iter().any(|(m, _)| clash(m))
}

fn refuse_if(wrong: bool, number: u32) -> Drawn {
    if wrong {
        Err((number, 0))
    } else {
        Ok(())
    }
}

/// The words of the record: the image, a link row for each message, enum, oneof and field, and 8.
pub fn record_words(file: &FileDescriptorProto, image: &Image) -> usize {
    let flat = Flat::of(file);
    image.words.len()
        + 10 * flat.messages.len()
        + 2 * flat.enums.len()
        + 4 * flat.oneof_count()
        + 16 * flat.field_count()
        + 8
}

/// A file's messages and enums in flat order, with their full names.
struct Flat<'a> {
    file: &'a FileDescriptorProto,
    messages: Vec<(&'a DescriptorProto, String)>,
    enums: Vec<(&'a EnumDescriptorProto, String)>,
    depth: usize,
}

impl<'a> Flat<'a> {
    fn of(file: &'a FileDescriptorProto) -> Self {
        let mut flat = Flat {
            file,
            messages: Vec::new(),
            enums: Vec::new(),
            depth: 0,
        };
        flat.add_enums(&file.enum_type, file.package());
        flat.add_messages(&file.message_type, file.package(), 1);
        flat
    }

    fn add_enums(&mut self, enums: &'a [EnumDescriptorProto], scope: &str) {
        for e in enums {
            self.enums.push((e, join(scope, e.name())));
        }
    }

    fn add_messages(&mut self, messages: &'a [DescriptorProto], scope: &str, depth: usize) {
        for m in messages {
            self.depth = self.depth.max(depth);
            let full_name = join(scope, m.name());
            self.messages.push((m, full_name.clone()));
            self.add_enums(&m.enum_type, &full_name);
            self.add_messages(&m.nested_type, &full_name, depth + 1);
        }
    }

    fn full_names(&self) -> impl Iterator<Item = &str> {
        let messages = self.messages.iter().map(|(_, n)| n.as_str());
        messages.chain(self.enums.iter().map(|(_, n)| n.as_str()))
    }

    /// The fields in flat order.
    fn fields(&self) -> impl Iterator<Item = &'a FieldDescriptorProto> + '_ {
        let own = self.messages.iter();
        own.flat_map(|(m, _)| m.field.iter().chain(&m.extension))
            .chain(&self.file.extension)
    }

    fn field_count(&self) -> usize {
        self.fields().count()
    }

    fn value_count(&self) -> usize {
        self.enums.iter().map(|(e, _)| e.value.len()).sum()
    }

    fn oneof_count(&self) -> usize {
        self.messages.iter().map(|(m, _)| m.oneof_decl.len()).sum()
    }
}

/// If either side is empty, the second.
fn join(scope: &str, name: &str) -> String {
    if scope.is_empty() || name.is_empty() {
        name.to_owned()
    } else {
        format!("{scope}.{name}")
    }
}

fn passes_a_limit(flat: &Flat) -> bool {
    flat.messages.len() > 256
        || flat.enums.len() > 256
        || flat.value_count() > 4096
        || flat.oneof_count() > 256
        || flat.field_count() > 2048
        || flat.file.dependency.len() > 32
        || flat.depth > 16
        || identifiers(flat).any(|name| name.len() > 64)
        || flat.file.dependency.iter().any(|name| name.len() > 128)
        || flat.file.name().len() > 128
        || flat.file.package().len() > 128
        || flat.full_names().any(|name| name.len() > 512)
        || flat.fields().any(field_passes_a_limit)
}

fn field_passes_a_limit(f: &FieldDescriptorProto) -> bool {
    needs_type_name(f) && f.type_name().len() > 512
        || f.extendee().len() > 512
        || f.json_name().len() > 64
        || f.default_value().len() > 256
}

fn needs_type_name(f: &FieldDescriptorProto) -> bool {
    matches!(
        f.type_(),
        Type::TYPE_GROUP | Type::TYPE_MESSAGE | Type::TYPE_ENUM
    )
}

/// The names of rows.
fn identifiers<'a>(flat: &'a Flat) -> impl Iterator<Item = &'a str> {
    let messages = flat.messages.iter().flat_map(|(m, _)| {
        let oneofs = m.oneof_decl.iter().map(|o| o.name());
        std::iter::once(m.name()).chain(oneofs)
    });
    let enums = flat.enums.iter().flat_map(|(e, _)| {
        let values = e.value.iter().map(|v| v.name());
        std::iter::once(e.name()).chain(values)
    });
    messages.chain(enums).chain(flat.fields().map(|f| f.name()))
}

fn breaks_a_byte_rule(flat: &Flat) -> bool {
    let is_file_name = |n: &str| !n.is_empty() && n.bytes().all(|b| (33..=126).contains(&b));
    !identifiers(flat).all(is_identifier)
        || !is_file_name(flat.file.name())
        || !flat.file.dependency.iter().all(|n| is_file_name(n))
        || !(flat.file.package().is_empty() || is_identifiers(flat.file.package()))
        || flat.fields().any(field_breaks_a_byte_rule)
}

fn field_breaks_a_byte_rule(f: &FieldDescriptorProto) -> bool {
    let is_printable = |t: &str| t.bytes().all(|b| (32..=126).contains(&b));
    needs_type_name(f) && !is_dotted(f.type_name())
        || !f.extendee().is_empty() && !is_dotted(f.extendee())
        || !is_printable(f.json_name())
        || !is_printable(f.default_value())
}

fn is_identifier(name: &str) -> bool {
    let mut bytes = name.bytes();
    bytes
        .next()
        .is_some_and(|b| b.is_ascii_alphabetic() || b == b'_')
        && bytes.all(|b| b.is_ascii_alphanumeric() || b == b'_')
}

fn is_identifiers(name: &str) -> bool {
    name.split('.').all(is_identifier)
}

fn is_dotted(name: &str) -> bool {
    name.strip_prefix('.').is_some_and(is_identifiers)
}

/// 9 to 11, message by message in flat order.
fn judge_map_entries(flat: &Flat) -> Drawn {
    for (place, (m, _)) in flat.messages.iter().enumerate() {
        if !is_map_entry(m) {
            continue;
        }
        let holds_more = !m.extension.is_empty()
            || !m.extension_range.is_empty()
            || !m.nested_type.is_empty()
            || !m.enum_type.is_empty();
        let wrong = [
            (!m.name().ends_with("Entry"), 9),
            (holds_more, 10),
            (!has_key_and_value(m), 11),
        ];
        if let Some((_, number)) = wrong.iter().find(|(wrong, _)| *wrong) {
            return Err((*number, place as u32));
        }
    }
    Ok(())
}

fn is_map_entry(m: &DescriptorProto) -> bool {
    m.options.get_or_default().map_entry()
}

fn has_key_and_value(m: &DescriptorProto) -> bool {
    let is = |f: &FieldDescriptorProto, name, number| {
        f.name() == name && f.number() == number && f.label() == Label::LABEL_OPTIONAL
    };
    matches!(&m.field[..], [key, value] if is(key, "key", 1) && is(value, "value", 2))
}

/// Where the names of a file's fields are looked for: the file itself, then its search list.
struct Scope<'a> {
    flat: &'a Flat<'a>,
    search: Vec<Names<'a>>,
    /// The crate panics on a name that the rules pass over: an enum with a default, where a message of that name, or an enum of which the name
    /// would be a part, stands first.
    crate_panics: bool,
}

/// The messages and enums of one file by full name.
struct Names<'a> {
    messages: HashMap<String, &'a DescriptorProto>,
    enums: HashMap<String, &'a EnumDescriptorProto>,
}

impl<'a> Names<'a> {
    fn of(flat: &Flat<'a>) -> Self {
        let by_name = |(m, n): &(_, String)| (n.clone(), *m);
        Names {
            messages: flat.messages.iter().map(by_name).collect(),
            enums: flat.enums.iter().map(|(e, n)| (n.clone(), *e)).collect(),
        }
    }

    /// Is the name that of a message here, or one beneath an enum?
    fn stops_the_crate(&self, name: &str) -> bool {
        let beneath = |(at, _): (usize, &str)| self.enums.contains_key(&name[..at]);
        self.messages.contains_key(name) || name.match_indices('.').any(beneath)
    }
}

impl<'a> Scope<'a> {
    fn new(flat: &'a Flat<'a>, shelf: &'a Shelf) -> Self {
        let imports = search_list(flat.file, shelf);
        let mut search = vec![Names::of(flat)];
        search.extend(imports.iter().map(|f| Names::of(&Flat::of(f))));
        Scope {
            flat,
            search,
            crate_panics: false,
        }
    }

    fn judge_fields(&mut self) -> Drawn {
        let flat = self.flat;
        let mut place = 0;
        for (m, _) in &flat.messages {
            let first = place;
            for f in &m.field {
                self.judge_field(f, true).map_err(|n| (n, place))?;
                place += 1;
            }
            judge_clashes(&m.field).map_err(|i| (17, first + i))?;
            for f in &m.extension {
                self.judge_field(f, true).map_err(|n| (n, place))?;
                place += 1;
            }
        }
        for f in &flat.file.extension {
            self.judge_field(f, false).map_err(|n| (n, place))?;
            place += 1;
        }
        Ok(())
    }

    fn judge_field(&mut self, f: &FieldDescriptorProto, in_message: bool) -> Result<(), u32> {
        self.judge_default(f)?;
        if !f.extendee().is_empty() {
            self.message(f.extendee())?;
        } else if !in_message {
            return Err(14);
        }
        let target = self.judge_type(f)?;
        match target {
            Some(entry) if f.label() == Label::LABEL_REPEATED && is_map_entry(entry) => {
                self.judge_type(&entry.field[0])?;
                self.judge_type(&entry.field[1])?;
                Ok(())
            }
            _ => Ok(()),
        }
    }

    /// The message that the type names, if it names one.
    fn judge_type(&mut self, f: &FieldDescriptorProto) -> Result<Option<&'a DescriptorProto>, u32> {
        match f.type_() {
            Type::TYPE_MESSAGE | Type::TYPE_GROUP => self.message(f.type_name()).map(Some),
            Type::TYPE_ENUM => self.enumeration(f.type_name()).map(|_| None),
            _ => Ok(None),
        }
    }

    fn message(&self, dotted: &str) -> Result<&'a DescriptorProto, u32> {
        let found = self
            .search
            .iter()
            .find_map(|n| n.messages.get(&dotted[1..]));
        found.copied().ok_or(15)
    }

    fn enumeration(&self, dotted: &str) -> Result<&'a EnumDescriptorProto, u32> {
        let found = self.search.iter().find_map(|n| n.enums.get(&dotted[1..]));
        found.copied().ok_or(16)
    }

    fn judge_default(&mut self, f: &FieldDescriptorProto) -> Result<(), u32> {
        if !f.has_default_value() {
            return Ok(());
        }
        let text = f.default_value();
        let reads = match f.type_() {
            Type::TYPE_DOUBLE | Type::TYPE_FLOAT | Type::TYPE_BYTES => return Err(13),
            Type::TYPE_MESSAGE | Type::TYPE_GROUP => false,
            Type::TYPE_ENUM => {
                self.note_panic(&f.type_name()[1..]);
                let found = self.enumeration(f.type_name())?;
                found.value.iter().any(|v| v.name() == text)
            }
            Type::TYPE_STRING => true,
            Type::TYPE_BOOL => text == "true" || text == "false",
            Type::TYPE_INT32 | Type::TYPE_SINT32 | Type::TYPE_SFIXED32 => {
                integer(text, true, 31).is_some()
            }
            Type::TYPE_INT64 | Type::TYPE_SINT64 | Type::TYPE_SFIXED64 => {
                integer(text, true, 63).is_some()
            }
            Type::TYPE_UINT32 | Type::TYPE_FIXED32 => integer(text, false, 32).is_some(),
            Type::TYPE_UINT64 | Type::TYPE_FIXED64 => integer(text, false, 64).is_some(),
        };
        if reads {
            Ok(())
        } else {
            Err(12)
        }
    }

    fn note_panic(&mut self, name: &str) {
        for names in &self.search {
            if names.stops_the_crate(name) {
                self.crate_panics = true;
                return;
            }
            if names.enums.contains_key(name) {
                return;
            }
        }
    }
}

/// An integer with magnitude below 2 to the power of `bits`, or at it where it is negative.
fn integer(text: &str, signed: bool, bits: u32) -> Option<i128> {
    let (negative, digits) = match text.as_bytes().first()? {
        b'-' if signed => (true, &text[1..]),
        b'+' => (false, &text[1..]),
        _ => (false, text),
    };
    if digits.is_empty() || !digits.bytes().all(|b| b.is_ascii_digit()) {
        return None;
    }
    // Nothing above 2 to the power of 64 is in range, so the tally need not go on past it.
    let value = digits.bytes().fold(0i128, |value, digit| {
        (value * 10 + i128::from(digit - b'0')).min(1 << 100)
    });
    let most = (1i128 << bits) - 1;
    (value <= most + i128::from(negative)).then_some(if negative { -value } else { value })
}

/// The direct imports in order, each followed at once by its public imports, last one first, deeply; a file once.
fn search_list<'a>(file: &FileDescriptorProto, shelf: &'a Shelf) -> Vec<&'a FileDescriptorProto> {
    let by_name = |n: &String| shelf.files.iter().find(|f| f.name() == n);
    let mut waiting: Vec<_> = file.dependency.iter().rev().filter_map(by_name).collect();
    let mut list: Vec<&FileDescriptorProto> = Vec::new();
    while let Some(f) = waiting.pop() {
        if list.iter().any(|g| g.name() == f.name()) {
            continue;
        }
        list.push(f);
        let public = f
            .public_dependency
            .iter()
            .map(|&i| &f.dependency[i as usize]);
        waiting.extend(public.filter_map(by_name));
    }
    list
}

/// 17 over a message's fields in order: the index of the first that clashes with an earlier one.
fn judge_clashes(fields: &[FieldDescriptorProto]) -> Result<(), u32> {
    let mut numbers = HashSet::new();
    let mut names = HashSet::new();
    for (i, f) in fields.iter().enumerate() {
        let json = if f.json_name().is_empty() {
            derived_json_name(f.name())
        } else {
            f.json_name().to_owned()
        };
        let clashes = !numbers.insert(f.number())
            || !names.insert(f.name().to_owned())
            || json != f.name() && !names.insert(json);
        if clashes {
            return Err(i as u32);
        }
    }
    Ok(())
}

/// Underscores go, and the byte after one or more becomes upper case.
pub fn derived_json_name(name: &str) -> String {
    let mut out = String::new();
    let mut upper = false;
    for c in name.chars() {
        if c == '_' {
            upper = true;
        } else {
            out.push(if upper { c.to_ascii_uppercase() } else { c });
            upper = false;
        }
    }
    out
}

/// What cases say by hand and what is judged of their descriptors agree, wherever an image has a descriptor.
#[cfg(test)]
pub fn agrees_with(cases: &[crate::case::Case]) {
    for case in cases {
        let mut shelf = Shelf::default();
        for f in &case.files {
            if let Ok(proto) = crate::image::decode(&f.image) {
                assert_eq!(shelf.link(&proto, &f.image), f.expect, "{}", case.name);
            }
        }
    }
}

#[cfg(test)]
mod test {
    use super::*;

    #[test]
    fn integers_read_at_their_edges() {
        assert_eq!(integer("-2147483648", true, 31), Some(i128::from(i32::MIN)));
        assert_eq!(integer("2147483648", true, 31), None);
        assert_eq!(
            integer("18446744073709551615", false, 64),
            Some(i128::from(u64::MAX))
        );
        assert_eq!(integer("18446744073709551616", false, 64), None);
        assert_eq!(integer("-0", false, 32), None);
        assert_eq!(integer("+", true, 31), None);
    }

    #[test]
    fn json_names_are_derived() {
        assert_eq!(derived_json_name("a_b"), "aB");
        assert_eq!(derived_json_name("__"), "");
    }
}
