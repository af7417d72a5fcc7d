//! File images: how a file descriptor is laid out in words and a pool, and how it is read back.
//!
//! Reading back checks every layout rule first (refusal 3), on its own terms and with a message, so that nothing is guessed from a broken image.

use protobuf::descriptor::descriptor_proto::ExtensionRange;
use protobuf::descriptor::field_descriptor_proto::{Label, Type};
use protobuf::descriptor::{
    DescriptorProto, EnumDescriptorProto, EnumValueDescriptorProto, FieldDescriptorProto,
    FileDescriptorProto, OneofDescriptorProto,
};
use protobuf::EnumOrUnknown;

use crate::case::Image;
use crate::rng::Rng;

const IMPORTS: usize = 0;
const MESSAGES: usize = 1;
const ENUMS: usize = 2;
const VALUES: usize = 3;
const ONEOFS: usize = 4;
const FIELDS: usize = 5;
const SECTIONS: usize = 6;

/// Words in a row of each section.
const WIDTH: [usize; SECTIONS] = [3, 14, 4, 3, 2, 16];
const NAME: [&str; SECTIONS] = ["import", "message", "enum", "value", "oneof", "field"];
const TRAILER: usize = 24;

/// Only whether a message has extension ranges matters, so a damaged count need not fill the memory.
const MOST_RANGES: u32 = 1000;

/// Rows that follow one another in a section.
#[derive(Clone, Copy, Debug, PartialEq, Eq, Default)]
struct Range {
    first: usize,
    count: usize,
}

impl Range {
    fn rows(self) -> std::ops::Range<usize> {
        self.first..self.first + self.count
    }

    /// The two words of the range: one of no rows starts at 0.
    fn words(self) -> [Piece<'static>; 2] {
        let first = if self.count == 0 { 0 } else { self.first };
        [Piece::Number(first), Piece::Number(self.count)]
    }
}

// ------------------------------------------------------------------------------------------------------------------------------ writing

/// What stands in a word, or in two: texts get their places when all of them are known.
enum Piece<'a> {
    Number(usize),
    Text(&'a str),
    /// The text of a default that is not given: nobody reads it.
    NoDefault,
}

/// Where the order of rows and texts is free, who chooses.
enum Chooser<'r> {
    /// The order that a serialised descriptor is written in.
    Canonical,
    Shuffled(&'r mut Rng),
}

impl Chooser<'_> {
    /// Which of `n` things that may come next comes next.
    fn next_of(&mut self, n: usize) -> usize {
        match self {
            Chooser::Canonical => 0,
            Chooser::Shuffled(rng) => rng.below(n),
        }
    }

    /// The order in which `n` owners get their rows.
    fn order_of(&mut self, n: usize) -> Vec<usize> {
        let mut order: Vec<usize> = (0..n).collect();
        if let Chooser::Shuffled(rng) = self {
            rng.shuffle(&mut order);
        }
        order
    }
}

/// The image of a file, in the canonical order: message rows breadth first, other rows in their owners' order, a message's fields before its
/// extensions, file extensions last; pool texts in the order of the words that name them, once per naming.
pub fn encode(f: &FileDescriptorProto) -> Result<Image, String> {
    encode_by(f, &mut Chooser::Canonical)
}

/// The image of a file in another legal order, with shared texts, unused pool bytes, and words that nobody reads.
pub fn encode_shuffled(f: &FileDescriptorProto, rng: &mut Rng) -> Result<Image, String> {
    encode_by(f, &mut Chooser::Shuffled(rng))
}

fn encode_by(f: &FileDescriptorProto, chooser: &mut Chooser) -> Result<Image, String> {
    let rows = place_rows(f, chooser);
    place_texts(&pieces(f, &rows)?, chooser)
}

/// The rows of each section in their order, and which of them each owner has.
#[derive(Default)]
struct Placed<'a> {
    messages: Vec<&'a DescriptorProto>,
    enums: Vec<&'a EnumDescriptorProto>,
    values: Vec<&'a EnumValueDescriptorProto>,
    oneofs: Vec<&'a OneofDescriptorProto>,
    fields: Vec<&'a FieldDescriptorProto>,
    /// For each message row.
    nested: Vec<Range>,
    own_enums: Vec<Range>,
    own_fields: Vec<Range>,
    own_extensions: Vec<Range>,
    own_oneofs: Vec<Range>,
    /// For each enum row.
    own_values: Vec<Range>,
    file_extensions: Range,
}

/// Puts the items behind the rows that are there.
fn put<'a, T>(section: &mut Vec<&'a T>, items: &'a [T]) -> Range {
    let first = section.len();
    section.extend(items);
    Range {
        first,
        count: items.len(),
    }
}

fn place_rows<'a>(f: &'a FileDescriptorProto, chooser: &mut Chooser) -> Placed<'a> {
    let mut p = Placed::default();
    place_messages(f, chooser, &mut p);
    let n = p.messages.len();
    (p.own_enums, p.own_fields) = (vec![Range::default(); n], vec![Range::default(); n]);
    (p.own_extensions, p.own_oneofs) = (vec![Range::default(); n], vec![Range::default(); n]);
    put(&mut p.enums, &f.enum_type);
    for m in chooser.order_of(n) {
        p.own_enums[m] = put(&mut p.enums, &p.messages[m].enum_type);
    }
    p.own_values = vec![Range::default(); p.enums.len()];
    for e in chooser.order_of(p.enums.len()) {
        p.own_values[e] = put(&mut p.values, &p.enums[e].value);
    }
    for m in chooser.order_of(n) {
        p.own_oneofs[m] = put(&mut p.oneofs, &p.messages[m].oneof_decl);
    }
    // Two blocks for each message, and the last for the file.
    for block in chooser.order_of(2 * n + 1) {
        let m = block / 2;
        if block == 2 * n {
            p.file_extensions = put(&mut p.fields, &f.extension);
        } else if block % 2 == 0 {
            p.own_fields[m] = put(&mut p.fields, &p.messages[m].field);
        } else {
            p.own_extensions[m] = put(&mut p.fields, &p.messages[m].extension);
        }
    }
    p
}

/// Top-level messages come first; then, again and again, the nested messages of a row that is placed.
fn place_messages<'a>(f: &'a FileDescriptorProto, chooser: &mut Chooser, p: &mut Placed<'a>) {
    let mut waiting: std::collections::VecDeque<usize> =
        put(&mut p.messages, &f.message_type).rows().collect();
    while !waiting.is_empty() {
        let chosen = chooser.next_of(waiting.len());
        let Some(parent) = waiting.remove(chosen) else {
            return;
        };
        let message: &'a DescriptorProto = p.messages[parent];
        let block = put(&mut p.messages, &message.nested_type);
        p.nested.resize(p.messages.len(), Range::default());
        p.nested[parent] = block;
        waiting.extend(block.rows());
    }
}

fn pieces<'a>(f: &'a FileDescriptorProto, p: &Placed<'a>) -> Result<Vec<Piece<'a>>, String> {
    let mut out = Vec::new();
    import_pieces(f, &mut out)?;
    for (row, m) in p.messages.iter().enumerate() {
        out.push(Piece::Text(m.name()));
        for range in [
            p.nested[row],
            p.own_enums[row],
            p.own_fields[row],
            p.own_extensions[row],
            p.own_oneofs[row],
        ] {
            out.extend(range.words());
        }
        out.push(Piece::Number(m.extension_range.len()));
        out.push(Piece::Number(m.options.map_entry() as usize));
    }
    for (row, e) in p.enums.iter().enumerate() {
        out.push(Piece::Text(e.name()));
        out.extend(p.own_values[row].words());
    }
    for v in &p.values {
        out.push(Piece::Text(v.name()));
        out.push(Piece::Number(v.number() as u32 as usize));
    }
    for o in &p.oneofs {
        out.push(Piece::Text(o.name()));
    }
    for field in &p.fields {
        field_pieces(field, &mut out)?;
    }
    trailer_pieces(f, p, &mut out)?;
    Ok(out)
}

fn import_pieces<'a>(f: &'a FileDescriptorProto, out: &mut Vec<Piece<'a>>) -> Result<(), String> {
    // The image has a mark on each import, and no order of its own for the public ones.
    if !f.public_dependency.windows(2).all(|w| w[0] < w[1]) {
        return Err("the public imports are not in the order of the imports".to_owned());
    }
    if let Some(i) = f
        .public_dependency
        .iter()
        .find(|&&i| i < 0 || i as usize >= f.dependency.len())
    {
        return Err(format!("the public import {i} is no import"));
    }
    for (i, name) in f.dependency.iter().enumerate() {
        out.push(Piece::Text(name));
        out.push(Piece::Number(
            f.public_dependency.contains(&(i as i32)) as usize
        ));
    }
    Ok(())
}

fn field_pieces<'a>(
    field: &'a FieldDescriptorProto,
    out: &mut Vec<Piece<'a>>,
) -> Result<(), String> {
    let wrong = |what: &str| Err(format!("field `{}`: {what}", field.name()));
    if field.label.is_some_and(|l| l.enum_value().is_err()) {
        return wrong("the label has an unknown number");
    }
    if field.type_.is_some_and(|t| t.enum_value().is_err()) {
        return wrong("the type has an unknown number");
    }
    if field.has_oneof_index() && field.oneof_index() < 0 {
        return wrong("the oneof index is negative");
    }
    let oneof = if field.has_oneof_index() {
        field.oneof_index() as usize + 1
    } else {
        0
    };
    out.push(Piece::Text(field.name()));
    out.push(Piece::Number(field.number() as u32 as usize));
    out.push(Piece::Number(field.label() as usize));
    out.push(Piece::Number(field.type_() as usize));
    out.push(Piece::Text(field.type_name()));
    out.push(Piece::Text(field.extendee()));
    out.push(Piece::Text(field.json_name()));
    out.push(Piece::Number(field.has_default_value() as usize));
    out.push(if field.has_default_value() {
        Piece::Text(field.default_value())
    } else {
        Piece::NoDefault
    });
    out.push(Piece::Number(oneof));
    out.push(Piece::Number(field.proto3_optional() as usize));
    Ok(())
}

/// All words of the trailer; the pool's length is 0 here, since it is known only when the texts have their places.
fn trailer_pieces<'a>(
    f: &'a FileDescriptorProto,
    p: &Placed<'a>,
    out: &mut Vec<Piece<'a>>,
) -> Result<(), String> {
    let syntax = match f.syntax() {
        "" | "proto2" => 2,
        "proto3" => 3,
        other => return Err(format!("the syntax `{other}` has no number in an image")),
    };
    out.extend([
        Piece::Number(1),
        Piece::Text(f.name()),
        Piece::Text(f.package()),
        Piece::Number(syntax),
    ]);
    let counts = [
        f.dependency.len(),
        p.messages.len(),
        p.enums.len(),
        p.values.len(),
        p.oneofs.len(),
        p.fields.len(),
    ];
    let mut start = 0;
    for (count, width) in counts.iter().zip(WIDTH) {
        out.extend([Piece::Number(start), Piece::Number(*count)]);
        start += count * width;
    }
    out.extend([
        Piece::Number(f.message_type.len()),
        Piece::Number(f.enum_type.len()),
    ]);
    out.extend(p.file_extensions.words());
    out.extend([Piece::Number(0), Piece::Number(start)]);
    Ok(())
}

fn place_texts(pieces: &[Piece], chooser: &mut Chooser) -> Result<Image, String> {
    let mut pool = Vec::new();
    let mut places = vec![(0, 0); pieces.len()];
    for i in chooser.order_of(pieces.len()) {
        if let Piece::Text(text) = pieces[i] {
            places[i] = (place_text(text.as_bytes(), &mut pool, chooser), text.len());
        }
    }
    if let Chooser::Shuffled(rng) = chooser {
        for (i, piece) in pieces.iter().enumerate() {
            if matches!(piece, Piece::NoDefault) {
                let start = rng.below(pool.len() + 1);
                places[i] = (start, rng.below(pool.len() - start + 1));
            }
        }
    }
    let mut words = Vec::new();
    for (i, piece) in pieces.iter().enumerate() {
        match piece {
            Piece::Number(n) => words.push(word(*n)?),
            Piece::Text(_) | Piece::NoDefault => {
                words.extend([word(places[i].0)?, word(places[i].1)?])
            }
        }
    }
    let length = words.len() - 2;
    words[length] = word(pool.len())?;
    Ok(Image { words, pool })
}

fn word(n: usize) -> Result<u32, String> {
    u32::try_from(n).map_err(|_| format!("{n} does not fit in a word"))
}

/// The start of the text in the pool, where it is put if need be.
fn place_text(text: &[u8], pool: &mut Vec<u8>, chooser: &mut Chooser) -> usize {
    match chooser {
        Chooser::Canonical if text.is_empty() => 0,
        Chooser::Canonical => append(text, pool),
        Chooser::Shuffled(rng) => {
            if text.is_empty() {
                return rng.below(pool.len() + 1);
            }
            if rng.one_in(2) {
                if let Some(start) = pool.windows(text.len()).position(|w| w == text) {
                    return start;
                }
            }
            while rng.one_in(8) {
                pool.push(rng.below(256) as u8);
            }
            append(text, pool)
        }
    }
}

fn append(text: &[u8], pool: &mut Vec<u8>) -> usize {
    pool.extend(text);
    pool.len() - text.len()
}

// ------------------------------------------------------------------------------------------------------------------------------ reading

/// An image that keeps every layout rule.
pub struct Layout<'a> {
    image: &'a Image,
    start: [usize; SECTIONS],
    count: [usize; SECTIONS],
}

/// The image row of each message, enum, oneof and field, in flat order.
#[derive(Clone, Debug, PartialEq, Eq, Default)]
pub struct Rows {
    pub messages: Vec<usize>,
    pub enums: Vec<usize>,
    pub oneofs: Vec<usize>,
    pub fields: Vec<usize>,
}

/// The descriptor that an image holds. The error names the first layout rule that is broken, or the first text that is no text.
pub fn decode(image: &Image) -> Result<FileDescriptorProto, String> {
    Layout::of(image)?.descriptor()
}

impl<'a> Layout<'a> {
    /// The layout of the image, if it keeps every layout rule.
    pub fn of(image: &'a Image) -> Result<Self, String> {
        let layout = Self::sections(image)?;
        layout.check_trailer()?;
        layout.check_words()?;
        layout.check_texts()?;
        layout.check_owners()?;
        Ok(layout)
    }

    fn sections(image: &'a Image) -> Result<Self, String> {
        let Some(trailer) = image.words.len().checked_sub(TRAILER) else {
            return Err(format!(
                "layout: {} words have no room for the trailer",
                image.words.len()
            ));
        };
        let (mut start, mut count) = ([0; SECTIONS], [0; SECTIONS]);
        let mut end: u64 = 0;
        for s in 0..SECTIONS {
            (start[s], count[s]) = (
                image.words[trailer + 6 + 2 * s] as usize,
                image.words[trailer + 7 + 2 * s] as usize,
            );
            if start[s] as u64 != end {
                return Err(format!(
                    "layout: the {} rows start at word {} and not {end}",
                    NAME[s], start[s]
                ));
            }
            end += count[s] as u64 * WIDTH[s] as u64;
        }
        if end != trailer as u64 {
            return Err(format!(
                "layout: the sections end at word {end}, and the trailer starts at {trailer}"
            ));
        }
        Ok(Layout {
            image,
            start,
            count,
        })
    }

    fn trailer(&self, word: usize) -> usize {
        self.image.words[self.image.words.len() - TRAILER + word] as usize
    }

    fn row(&self, section: usize, row: usize) -> &'a [u32] {
        let start = self.start[section] + row * WIDTH[section];
        &self.image.words[start..start + WIDTH[section]]
    }

    fn range(&self, section: usize, row: usize, word: usize) -> Range {
        let words = self.row(section, row);
        Range {
            first: words[word] as usize,
            count: words[word + 1] as usize,
        }
    }

    /// The ranges that a message row has, with the section that each is in: nested messages, enums, fields, extensions, oneofs.
    fn message_ranges(&self, row: usize) -> [(usize, Range); 5] {
        let at = |i: usize, section| (section, self.range(MESSAGES, row, 2 + 2 * i));
        [
            at(0, MESSAGES),
            at(1, ENUMS),
            at(2, FIELDS),
            at(3, FIELDS),
            at(4, ONEOFS),
        ]
    }

    fn nested(&self, message: usize) -> Range {
        self.range(MESSAGES, message, 2)
    }

    fn own_enums(&self, message: usize) -> Range {
        self.range(MESSAGES, message, 4)
    }

    fn own_fields(&self, message: usize) -> Range {
        self.range(MESSAGES, message, 6)
    }

    fn own_extensions(&self, message: usize) -> Range {
        self.range(MESSAGES, message, 8)
    }

    fn own_oneofs(&self, message: usize) -> Range {
        self.range(MESSAGES, message, 10)
    }

    fn own_values(&self, enumeration: usize) -> Range {
        self.range(ENUMS, enumeration, 2)
    }

    fn file_extensions(&self) -> Range {
        Range {
            first: self.trailer(20),
            count: self.trailer(21),
        }
    }

    fn top_messages(&self) -> Range {
        Range {
            first: 0,
            count: self.trailer(18),
        }
    }

    fn top_enums(&self) -> Range {
        Range {
            first: 0,
            count: self.trailer(19),
        }
    }

    fn check_trailer(&self) -> Result<(), String> {
        let start = self.image.words.len() - TRAILER;
        let wrong = |what: String| Err(format!("layout: {what}"));
        if self.trailer(0) != 1 {
            return wrong(format!("the layout number is {}", self.trailer(0)));
        }
        if !matches!(self.trailer(5), 2 | 3) {
            return wrong(format!("the syntax is {}", self.trailer(5)));
        }
        if self.trailer(22) != self.image.pool.len() {
            return wrong(format!(
                "the pool has {} bytes, and the trailer says {}",
                self.image.pool.len(),
                self.trailer(22)
            ));
        }
        if self.trailer(23) != start {
            return wrong(format!(
                "the trailer starts at {start} and says {}",
                self.trailer(23)
            ));
        }
        if self.top_messages().count > self.count[MESSAGES] {
            return wrong("there are more top-level messages than message rows".to_owned());
        }
        if self.top_enums().count > self.count[ENUMS] {
            return wrong("there are more top-level enums than enum rows".to_owned());
        }
        Ok(())
    }

    /// Words that may have only a few values.
    fn check_words(&self) -> Result<(), String> {
        self.check_word(IMPORTS, 2, "public", 0..=1)?;
        self.check_word(MESSAGES, 13, "map-entry", 0..=1)?;
        self.check_word(FIELDS, 3, "label", 1..=3)?;
        self.check_word(FIELDS, 4, "type", 1..=18)?;
        self.check_word(FIELDS, 11, "default-given", 0..=1)?;
        self.check_word(FIELDS, 15, "proto3_optional", 0..=1)
    }

    fn check_word(
        &self,
        section: usize,
        word: usize,
        what: &str,
        values: std::ops::RangeInclusive<u32>,
    ) -> Result<(), String> {
        for row in 0..self.count[section] {
            let value = self.row(section, row)[word];
            if !values.contains(&value) {
                return Err(format!(
                    "layout: {} row {row}: the {what} word is {value}",
                    NAME[section]
                ));
            }
        }
        Ok(())
    }

    /// Every text, an absent one too, lies in the pool.
    fn check_texts(&self) -> Result<(), String> {
        for (section, words) in [
            (IMPORTS, &[0][..]),
            (MESSAGES, &[0]),
            (ENUMS, &[0]),
            (VALUES, &[0]),
            (ONEOFS, &[0]),
            (FIELDS, &[0, 5, 7, 9, 12]),
        ] {
            for row in 0..self.count[section] {
                for &word in words {
                    let words = self.row(section, row);
                    self.check_text(words[word], words[word + 1])
                        .map_err(|e| format!("layout: {} row {row}: {e}", NAME[section]))?;
                }
            }
        }
        for word in [1, 3] {
            self.check_text(self.trailer(word) as u32, self.trailer(word + 1) as u32)
                .map_err(|e| format!("layout: trailer: {e}"))?;
        }
        Ok(())
    }

    fn check_text(&self, start: u32, length: u32) -> Result<(), String> {
        if start as u64 + length as u64 > self.image.pool.len() as u64 {
            return Err(format!(
                "the text at {start} of length {length} goes past the pool"
            ));
        }
        Ok(())
    }

    /// Ranges lie in their sections, and every row but an import has exactly one owner.
    fn check_owners(&self) -> Result<(), String> {
        let mut owned: [Vec<bool>; SECTIONS] = self.count.map(|n| vec![false; n]);
        own(&mut owned, MESSAGES, self.top_messages(), "the file")?;
        own(&mut owned, ENUMS, self.top_enums(), "the file")?;
        own(&mut owned, FIELDS, self.file_extensions(), "the file")?;
        for row in 0..self.count[MESSAGES] {
            let owner = format!("message row {row}");
            for (section, range) in self.message_ranges(row) {
                own(&mut owned, section, range, &owner)?;
            }
            let nested = self.nested(row);
            if nested.count > 0 && nested.first <= row {
                return Err(format!(
                    "layout: {owner}: its nested messages stand on no higher rows"
                ));
            }
        }
        for row in 0..self.count[ENUMS] {
            own(
                &mut owned,
                VALUES,
                self.own_values(row),
                &format!("enum row {row}"),
            )?;
        }
        for section in MESSAGES..SECTIONS {
            if let Some(row) = owned[section].iter().position(|o| !o) {
                return Err(format!("layout: {} row {row} has no owner", NAME[section]));
            }
        }
        Ok(())
    }

    fn text(&self, words: &[u32], what: impl Fn() -> String) -> Result<Option<String>, String> {
        let (start, length) = (words[0] as usize, words[1] as usize);
        if length == 0 {
            return Ok(None);
        }
        match std::str::from_utf8(&self.image.pool[start..start + length]) {
            Ok(text) => Ok(Some(text.to_owned())),
            Err(_) => Err(format!("text: {} is not UTF-8", what())),
        }
    }

    /// The name that a row starts with.
    fn name(&self, section: usize, row: usize) -> Result<Option<String>, String> {
        self.text(self.row(section, row), || {
            format!("the name in {} row {row}", NAME[section])
        })
    }

    /// The descriptor; the error names the first text that is no text.
    pub fn descriptor(&self) -> Result<FileDescriptorProto, String> {
        let trailer = &self.image.words[self.image.words.len() - TRAILER..];
        let mut f = FileDescriptorProto::new();
        f.name = self.text(&trailer[1..], || "the file name".to_owned())?;
        f.package = self.text(&trailer[3..], || "the package".to_owned())?;
        f.syntax = Some(format!("proto{}", trailer[5]));
        for row in 0..self.count[IMPORTS] {
            f.dependency
                .push(self.name(IMPORTS, row)?.unwrap_or_default());
            if self.row(IMPORTS, row)[2] == 1 {
                f.public_dependency.push(row as i32);
            }
        }
        f.message_type = self.messages_in(self.top_messages())?;
        f.enum_type = self.enums_in(self.top_enums())?;
        f.extension = self.fields_in(self.file_extensions())?;
        Ok(f)
    }

    fn messages_in(&self, range: Range) -> Result<Vec<DescriptorProto>, String> {
        range.rows().map(|row| self.message(row)).collect()
    }

    fn message(&self, row: usize) -> Result<DescriptorProto, String> {
        let mut m = DescriptorProto::new();
        m.name = self.name(MESSAGES, row)?;
        m.nested_type = self.messages_in(self.nested(row))?;
        m.enum_type = self.enums_in(self.own_enums(row))?;
        m.field = self.fields_in(self.own_fields(row))?;
        m.extension = self.fields_in(self.own_extensions(row))?;
        for oneof in self.own_oneofs(row).rows() {
            let mut o = OneofDescriptorProto::new();
            o.name = self.name(ONEOFS, oneof)?;
            m.oneof_decl.push(o);
        }
        let words = self.row(MESSAGES, row);
        m.extension_range = (0..words[12].min(MOST_RANGES)).map(dummy_range).collect();
        if words[13] == 1 {
            m.options.mut_or_insert_default().set_map_entry(true);
        }
        Ok(m)
    }

    fn enums_in(&self, range: Range) -> Result<Vec<EnumDescriptorProto>, String> {
        range.rows().map(|row| self.enumeration(row)).collect()
    }

    fn enumeration(&self, row: usize) -> Result<EnumDescriptorProto, String> {
        let mut e = EnumDescriptorProto::new();
        e.name = self.name(ENUMS, row)?;
        for value in self.own_values(row).rows() {
            let mut v = EnumValueDescriptorProto::new();
            v.name = self.name(VALUES, value)?;
            v.set_number(self.row(VALUES, value)[2] as i32);
            e.value.push(v);
        }
        Ok(e)
    }

    fn fields_in(&self, range: Range) -> Result<Vec<FieldDescriptorProto>, String> {
        range.rows().map(|row| self.field(row)).collect()
    }

    /// The descriptor of a field row.
    pub fn field(&self, row: usize) -> Result<FieldDescriptorProto, String> {
        let words = self.row(FIELDS, row);
        let text = |at: usize, what: &str| {
            self.text(&words[at..], || format!("the {what} in field row {row}"))
        };
        let mut f = FieldDescriptorProto::new();
        f.name = self.name(FIELDS, row)?;
        f.set_number(words[2] as i32);
        f.label = Some(EnumOrUnknown::<Label>::from_i32(words[3] as i32));
        f.type_ = Some(EnumOrUnknown::<Type>::from_i32(words[4] as i32));
        // The type name of a scalar is read by nobody, so it may be no text.
        let named = matches!(words[4], 10 | 11 | 14);
        f.type_name = text(5, "type name").or_else(|e| if named { Err(e) } else { Ok(None) })?;
        f.extendee = text(7, "extendee")?;
        f.json_name = text(9, "JSON name")?;
        if words[11] == 1 {
            f.default_value = Some(text(12, "default")?.unwrap_or_default());
        }
        if words[14] != 0 {
            f.set_oneof_index((words[14] - 1) as i32);
        }
        if words[15] == 1 {
            f.set_proto3_optional(true);
        }
        Ok(f)
    }

    /// The rows in flat order: top-level enums first; then each message before its nested ones, its enums and oneofs numbered before those of
    /// its nested messages; fields by message, a message's extensions after its fields, and the file's extensions last.
    pub fn flat_rows(&self) -> Rows {
        let mut rows = Rows::default();
        rows.enums.extend(self.top_enums().rows());
        for row in self.top_messages().rows() {
            self.flat_message(row, &mut rows);
        }
        for &row in &rows.messages {
            rows.fields.extend(self.own_fields(row).rows());
            rows.fields.extend(self.own_extensions(row).rows());
        }
        rows.fields.extend(self.file_extensions().rows());
        rows
    }

    fn flat_message(&self, row: usize, rows: &mut Rows) {
        rows.messages.push(row);
        rows.enums.extend(self.own_enums(row).rows());
        rows.oneofs.extend(self.own_oneofs(row).rows());
        for nested in self.nested(row).rows() {
            self.flat_message(nested, rows);
        }
    }

    pub fn message_name(&self, row: usize) -> Result<String, String> {
        Ok(self.name(MESSAGES, row)?.unwrap_or_default())
    }

    pub fn enum_name(&self, row: usize) -> Result<String, String> {
        Ok(self.name(ENUMS, row)?.unwrap_or_default())
    }

    pub fn oneof_name(&self, row: usize) -> Result<String, String> {
        Ok(self.name(ONEOFS, row)?.unwrap_or_default())
    }

    pub fn field_name(&self, row: usize) -> Result<String, String> {
        Ok(self.name(FIELDS, row)?.unwrap_or_default())
    }

    /// The sixteen words of a field row.
    pub fn field_words(&self, row: usize) -> &'a [u32] {
        self.row(FIELDS, row)
    }
}

/// A range that overlaps no other one with another number.
fn dummy_range(i: u32) -> ExtensionRange {
    let mut range = ExtensionRange::new();
    range.set_start(1000 + i as i32);
    range.set_end(1001 + i as i32);
    range
}

/// Marks the rows of the range as owned.
fn own(
    owned: &mut [Vec<bool>; SECTIONS],
    section: usize,
    range: Range,
    owner: &str,
) -> Result<(), String> {
    let wrong = |what: &str| {
        Err(format!(
            "layout: {owner}: its range of {} rows {what}",
            NAME[section]
        ))
    };
    if range.count == 0 && range.first != 0 {
        return wrong("is empty and does not start at 0");
    }
    if range.first as u64 + range.count as u64 > owned[section].len() as u64 {
        return wrong("goes past the section");
    }
    for row in range.rows() {
        if std::mem::replace(&mut owned[section][row], true) {
            return Err(format!(
                "layout: {} row {row} has a second owner, {owner}",
                NAME[section]
            ));
        }
    }
    Ok(())
}

#[cfg(test)]
mod test {
    use super::*;

    fn file(text: &str) -> FileDescriptorProto {
        protobuf::text_format::parse_from_str(text).unwrap()
    }

    /// A file with all that an image can hold.
    fn everything() -> FileDescriptorProto {
        file(
            r#"
            name: "f" package: "p.q" syntax: "proto2"
            dependency: "x" dependency: "y" dependency: "z" public_dependency: 0 public_dependency: 2
            enum_type { name: "E" value { name: "A" number: 0 } value { name: "B" number: -1 } }
            enum_type { name: "None" }
            message_type {
              name: "M"
              field { name: "a" number: 1 label: LABEL_OPTIONAL type: TYPE_STRING default_value: "" }
              field { name: "b" number: 2 label: LABEL_REQUIRED type: TYPE_ENUM type_name: ".p.q.E" default_value: "B" }
              field { name: "c" number: 3 label: LABEL_REPEATED type: TYPE_MESSAGE type_name: ".p.q.M.CEntry" json_name: "see" }
              field { name: "d" number: -4 label: LABEL_OPTIONAL type: TYPE_INT32 oneof_index: 1 proto3_optional: true }
              extension { name: "x" number: 7 label: LABEL_OPTIONAL type: TYPE_BOOL extendee: ".p.q.N" }
              nested_type {
                name: "CEntry"
                field { name: "key" number: 1 label: LABEL_OPTIONAL type: TYPE_INT64 }
                field { name: "value" number: 2 label: LABEL_OPTIONAL type: TYPE_GROUP type_name: ".p.q.N" }
                options { map_entry: true }
              }
              nested_type { name: "Deep" nested_type { name: "Deeper" enum_type { name: "F" value { name: "V" number: 5 } } } }
              enum_type { name: "G" value { name: "W" number: 2147483647 } }
              oneof_decl { name: "o" } oneof_decl { name: "_d" }
            }
            message_type {
              name: "N"
              extension_range { start: 1000 end: 1001 } extension_range { start: 1001 end: 1002 }
              nested_type { name: "Deep" }
            }
            extension { name: "y" number: 8 label: LABEL_OPTIONAL type: TYPE_BYTES extendee: ".p.q.N" }
            extension { name: "z" number: 9 label: LABEL_REPEATED type: TYPE_DOUBLE extendee: ".p.q.N" }
            "#,
        )
    }

    #[test]
    fn the_whole_case_is_read_and_its_canonical_image_written() {
        let trailer = [
            1, 0, 1, 0, 0, 3, 0, 0, 0, 1, 14, 0, 14, 0, 14, 0, 14, 0, 1, 0, 0, 0, 2, 14,
        ];
        let mut words = vec![1, 1];
        words.extend([0; 12]);
        words.extend(trailer);
        let image = Image {
            words,
            pool: b"fA".to_vec(),
        };
        let whole = file(r#"name: "f" syntax: "proto3" message_type { name: "A" }"#);
        assert_eq!(decode(&image), Ok(whole.clone()));
        // The canonical pool has the texts in the order of their words.
        let canonical = encode(&whole).unwrap();
        assert_eq!(canonical.pool, b"Af");
        assert_eq!(
            canonical.words[..14],
            [0, 1, 0, 0, 0, 0, 0, 0, 0, 0, 0, 0, 0, 0]
        );
        assert_eq!(canonical.words[14..17], [1, 1, 1]);
        assert_eq!(canonical.words[17..], image.words[17..]);
    }

    #[test]
    fn the_canonical_order_is_that_of_the_owners() {
        let image = encode(&everything()).unwrap();
        let layout = Layout::of(&image).unwrap();
        let names = |section: usize| -> Vec<String> {
            (0..layout.count[section])
                .map(|row| layout.name(section, row).unwrap().unwrap())
                .collect()
        };
        assert_eq!(
            names(MESSAGES),
            ["M", "N", "CEntry", "Deep", "Deep", "Deeper"]
        );
        assert_eq!(names(ENUMS), ["E", "None", "G", "F"]);
        assert_eq!(names(VALUES), ["A", "B", "W", "V"]);
        assert_eq!(names(ONEOFS), ["o", "_d"]);
        assert_eq!(
            names(FIELDS),
            ["a", "b", "c", "d", "x", "key", "value", "y", "z"]
        );
        // Each text once per naming, in the order of the words.
        let pool = String::from_utf8(image.pool.clone()).unwrap();
        assert!(
            pool.starts_with(
                "xyzMNCEntryDeepDeepDeeperENoneGFABWVo_dab.p.q.EBc.p.q.M.CEntryseedx.p.q.N"
            ),
            "{pool}"
        );
        assert!(
            pool.ends_with("zfp.q") || pool.ends_with("z.p.q.Nfp.q"),
            "{pool}"
        );
    }

    #[test]
    fn what_is_written_is_read() {
        let mut f = everything();
        assert_eq!(decode(&encode(&f).unwrap()), Ok(f.clone()));
        // An absent syntax is proto2.
        f.syntax = None;
        assert_eq!(decode(&encode(&f).unwrap()), Ok(everything()));
    }

    #[test]
    fn other_orders_are_read_alike() {
        let f = everything();
        let mut images = Vec::new();
        for seed in 0..200 {
            let image = encode_shuffled(&f, &mut Rng::new(seed)).unwrap();
            assert_eq!(decode(&image), Ok(f.clone()), "seed {seed}");
            images.push(image.words);
        }
        images.sort();
        images.dedup();
        assert!(images.len() > 150, "{}", images.len());
    }

    #[test]
    fn flat_order_is_that_of_the_walk() {
        let image = encode(&everything()).unwrap();
        let rows = Layout::of(&image).unwrap().flat_rows();
        // M, M.CEntry, M.Deep, M.Deep.Deeper, N, N.Deep
        assert_eq!(rows.messages, [0, 2, 3, 5, 1, 4]);
        // E, None, M.G, M.Deep.Deeper.F
        assert_eq!(rows.enums, [0, 1, 2, 3]);
        assert_eq!(rows.oneofs, [0, 1]);
        assert_eq!(rows.fields, [0, 1, 2, 3, 4, 5, 6, 7, 8]);
    }

    #[test]
    fn what_an_image_cannot_hold_is_an_error() {
        for text in [
            r#"name: "f" syntax: "editions""#,
            r#"name: "f" dependency: "a" public_dependency: 1"#,
            r#"name: "f" dependency: "a" dependency: "b" public_dependency: 1 public_dependency: 0"#,
            r#"name: "f" message_type { field { name: "a" oneof_index: -1 } }"#,
        ] {
            assert!(encode(&file(text)).is_err(), "{text}");
        }
        // Absent numbers are 0, an absent label is optional, an absent type double.
        let image = encode(&file(r#"name: "f" message_type { field { name: "a" } }"#)).unwrap();
        assert_eq!(Layout::of(&image).unwrap().field_words(0)[2..5], [0, 1, 1]);
    }

    /// The image of everything with one word changed.
    fn changed(word: usize, value: u32) -> Result<(), String> {
        let mut image = encode(&everything()).unwrap();
        let word = if word >= 1000 {
            image.words.len() - 24 + word - 1000
        } else {
            word
        };
        image.words[word] = value;
        Layout::of(&image).map(|_| ())
    }

    #[test]
    fn every_layout_rule_is_checked() {
        assert_eq!(changed(1000, 1), Ok(()));
        let trailer_start = encode(&everything()).unwrap().words.len() as u32 - 24;
        let (messages, enums) = (9, 9 + 6 * 14);
        let fields = trailer_start as usize - 9 * 16;
        let broken = [
            ("layout number", 1000, 2),
            ("syntax", 1005, 4),
            ("section start", 1008, 10),
            ("section count", 1007, 2),
            ("pool length", 1022, 1),
            ("trailer start", 1023, trailer_start + 1),
            ("more top-level messages than rows", 1018, 7),
            ("fewer top-level messages", 1018, 1),
            ("more top-level enums", 1019, 3),
            ("file extensions past the section", 1021, 3),
            ("file extensions twice", 1020, 6),
            ("no file extensions", 1021, 0),
            ("public", 2, 2),
            ("map entry", messages + 13, 2),
            ("text past the pool", messages, 100_000),
            ("text of no length past the pool", fields + 9, 100_000),
            ("default text past the pool", fields + 16 * 3 + 12, 100_000),
            ("nested messages of a lower row", messages + 14 * 5 + 2, 1),
            ("empty range with a first row", messages + 14 + 4, 1),
            ("oneofs past the section", messages + 11, 3),
            ("an oneof without owner", messages + 11, 1),
            ("a value without owner", enums + 3, 1),
            ("a value with two owners", enums + 4 * 2 + 2, 1),
            ("a value range past the section", enums + 4 * 2 + 2, 4),
            ("label 0", fields + 3, 0),
            ("label 4", fields + 3, 4),
            ("type 0", fields + 4, 0),
            ("type 19", fields + 4, 19),
            ("default given", fields + 11, 2),
            ("proto3_optional", fields + 15, 2),
        ];
        for (what, word, value) in broken {
            let found = changed(word, value);
            assert!(
                matches!(&found, Err(e) if e.starts_with("layout: ")),
                "{what}: {found:?}"
            );
        }
        let free = [
            ("public", 2, 0),
            ("any number of ranges", messages + 12, u32::MAX),
            ("any oneof index", fields + 14, u32::MAX),
            ("any field number", fields + 2, u32::MAX),
            (
                "an absent text at the pool's end",
                fields + 9,
                encode(&everything()).unwrap().pool.len() as u32,
            ),
        ];
        for (what, word, value) in free {
            assert_eq!(changed(word, value), Ok(()), "{what}");
        }
        assert!(Layout::of(&Image::default()).is_err());
    }

    #[test]
    fn a_text_that_is_none_is_named() {
        let mut image = encode(&file(r#"name: "f" message_type { name: "A" }"#)).unwrap();
        image.pool[0] = 0xff;
        assert_eq!(
            decode(&image),
            Err("text: the name in message row 0 is not UTF-8".to_owned())
        );
    }
}
