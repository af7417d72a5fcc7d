//! Rule 2, judged on its own: is a shelf well formed? Written from the rules and not from our linker, so that damaged shelves have an expected
//! answer.

use std::collections::HashSet;

use protobuf::descriptor::{DescriptorProto, EnumDescriptorProto, FileDescriptorProto};

use crate::case::Image;
use crate::domain::{self, MOST_FILES, MOST_SHELF_BYTES, MOST_SHELF_WORDS};
use crate::image::Layout;
use crate::link::{ENUM_WORDS, FIELD_WORDS, MESSAGE_WORDS, ONEOF_WORDS, RECORD_WORDS};
use crate::ours::Shelf;

/// The distance of a message that is always initialised.
const NO_DISTANCE: u32 = u32::MAX;
const GROUP: u32 = 10;
const MESSAGE: u32 = 11;
const ENUM: u32 = 14;

/// The answer of the check: 0 for a well-formed shelf, 1 for slices that are too long, else 2.
pub fn judge(shelf: &Shelf) -> u32 {
    if shelf.words.len() > MOST_SHELF_WORDS || shelf.bytes.len() > MOST_SHELF_BYTES {
        return 1;
    }
    match records(shelf) {
        Some(records) if are_well_formed(&records) => 0,
        _ => 2,
    }
}

/// A record taken apart.
struct Record {
    image: Image,
    links: Vec<u32>,
    /// How many messages, enums, oneofs and fields its last words say.
    counts: [usize; 4],
}

/// The records in the order of their files, if their last words chain back to 0 and their pools tile the bytes.
fn records(shelf: &Shelf) -> Option<Vec<Record>> {
    let used = shelf.used;
    if used.files as usize > MOST_FILES {
        return None;
    }
    let words = shelf.words.slice().get(..used.words as usize)?;
    let bytes = shelf.bytes.slice().get(..used.bytes as usize)?;
    let (mut end, mut pool_end) = (words.len(), bytes.len());
    let mut records = Vec::new();
    for _ in 0..used.files {
        let last = words[..end]
            .last_chunk::<RECORD_WORDS>()?
            .map(|w| w as usize);
        let [start, image_words, pool_start, pool_length, counts @ ..] = last;
        let [messages, enums, oneofs, fields] = counts.map(|n| n as u64);
        let rows = MESSAGE_WORDS as u64 * messages
            + ENUM_WORDS as u64 * enums
            + ONEOF_WORDS as u64 * oneofs
            + FIELD_WORDS as u64 * fields;
        let whole = start as u64 + image_words as u64 + rows + RECORD_WORDS as u64;
        if whole != end as u64 || pool_start as u64 + pool_length as u64 != pool_end as u64 {
            return None;
        }
        let (image, links) = words[start..end - RECORD_WORDS].split_at(image_words);
        records.push(Record {
            image: Image {
                words: image.to_vec(),
                pool: bytes[pool_start..pool_end].to_vec(),
            },
            links: links.to_vec(),
            counts,
        });
        (end, pool_end) = (start, pool_start);
    }
    records.reverse();
    (end == 0 && pool_end == 0).then_some(records)
}

/// What is known of a file for the targets that name it.
struct Known {
    messages: usize,
    /// The number of values of each enum.
    values: Vec<usize>,
}

fn are_well_formed(records: &[Record]) -> bool {
    let mut names = HashSet::new();
    let mut known: Vec<Known> = Vec::new();
    for record in records {
        let Some((layout, proto)) = read(record) else {
            return false;
        };
        let imports_known = proto.dependency.iter().all(|d| names.contains(d));
        if !imports_known || !names.insert(proto.name().to_owned()) || !domain::stands(&proto) {
            return false;
        }
        let flat = Flat::of(&proto);
        known.push(Known {
            messages: flat.messages.len(),
            values: flat.values.clone(),
        });
        if !links_fit(record, &layout, &flat, &known) {
            return false;
        }
    }
    true
}

/// The image's layout and descriptor. One with a text that is not UTF-8 breaks the byte rule.
fn read(record: &Record) -> Option<(Layout<'_>, FileDescriptorProto)> {
    let layout = Layout::of(&record.image).ok()?;
    let proto = layout.descriptor().ok()?;
    Some((layout, proto))
}

/// What the link words restate of the image, in flat order.
#[derive(Default)]
struct Flat {
    messages: Vec<FlatMessage>,
    /// The enclosing message + 1 or 0 of each enum, and how many values it has.
    enums: Vec<u32>,
    values: Vec<usize>,
    /// The message of each oneof, and its place in it.
    oneofs: Vec<(u32, u32)>,
    /// The message + 1 or 0 that declares each field, and whether it is a regular field.
    fields: Vec<(u32, bool)>,
}

/// The words of a message's link row from the second to the eighth.
type FlatMessage = [u32; 7];

impl Flat {
    fn of(file: &FileDescriptorProto) -> Flat {
        let mut flat = Flat::default();
        flat.add_enums(&file.enum_type, 0);
        let mut owners = Vec::new();
        for m in &file.message_type {
            flat.add_message(m, 0, &mut owners);
        }
        for (number, m) in owners.iter().enumerate() {
            flat.messages[number][3] = flat.fields.len() as u32;
            let declared = number as u32 + 1;
            flat.fields.extend(m.field.iter().map(|_| (declared, true)));
            flat.fields
                .extend(m.extension.iter().map(|_| (declared, false)));
        }
        flat.fields
            .extend(file.extension.iter().map(|_| (0, false)));
        flat
    }

    fn add_enums(&mut self, enums: &[EnumDescriptorProto], enclosing: u32) {
        for e in enums {
            self.enums.push(enclosing);
            self.values.push(e.value.len());
        }
    }

    fn add_message<'a>(
        &mut self,
        m: &'a DescriptorProto,
        enclosing: u32,
        owners: &mut Vec<&'a DescriptorProto>,
    ) {
        let number = self.messages.len() as u32;
        owners.push(m);
        self.messages.push([
            enclosing,
            self.enums.len() as u32,
            self.oneofs.len() as u32,
            0,
            m.field.len() as u32,
            m.extension.len() as u32,
            m.options.map_entry() as u32,
        ]);
        self.add_enums(&m.enum_type, number + 1);
        let places = 0..m.oneof_decl.len() as u32;
        self.oneofs.extend(places.map(|place| (number, place)));
        for nested in &m.nested_type {
            self.add_message(nested, number + 1, owners);
        }
    }

    fn counts(&self) -> [usize; 4] {
        [
            self.messages.len(),
            self.enums.len(),
            self.oneofs.len(),
            self.fields.len(),
        ]
    }
}

/// Do the link words say what the image says, with targets that exist? `known` ends with the record's own file.
fn links_fit(record: &Record, layout: &Layout, flat: &Flat, known: &[Known]) -> bool {
    if record.counts != flat.counts() {
        return false;
    }
    let rows = layout.flat_rows();
    let widths = [MESSAGE_WORDS, ENUM_WORDS, ONEOF_WORDS, FIELD_WORDS];
    let mut start = 0;
    let tables = [0, 1, 2, 3].map(|kind| {
        let from = start;
        start += record.counts[kind] * widths[kind];
        record.links[from..start].chunks_exact(widths[kind])
    });
    let [mut messages, mut enums, mut oneofs, fields] = tables;
    messages.by_ref().enumerate().all(|(i, words)| {
        words[0] as usize == rows.messages[i]
            && words[1..8] == flat.messages[i]
            && mark_fits(words[8], words[9], flat.messages.len())
    }) && enums
        .by_ref()
        .enumerate()
        .all(|(i, words)| words[0] as usize == rows.enums[i] && words[1] == flat.enums[i])
        && oneofs.by_ref().enumerate().all(|(i, words)| {
            let (message, place) = flat.oneofs[i];
            let [synthetic, members] = members(message, place, layout, flat, &rows.fields);
            words == [message, place, synthetic, members]
        })
        && fields.enumerate().all(|(i, words)| {
            words[0] as usize == rows.fields[i]
                && words[2] == flat.fields[i].0
                && field_fits(words, record.image.pool.len(), known)
        })
}

fn mark_fits(always: u32, distance: u32, messages: usize) -> bool {
    match always {
        0 => (distance as usize) < messages,
        1 => distance == NO_DISTANCE,
        _ => false,
    }
}

/// Is the oneof synthetic, and how many members has it?
fn members(message: u32, place: u32, layout: &Layout, flat: &Flat, rows: &[usize]) -> [u32; 2] {
    let own = flat.fields.iter().zip(rows);
    let regular = own.filter(|(field, _)| **field == (message + 1, true));
    let words = regular.map(|(_, &row)| layout.field_words(row));
    let members: Vec<&[u32]> = words.filter(|w| w[14] == place + 1).collect();
    let synthetic = matches!(members[..], [only] if only[15] == 1);
    [synthetic as u32, members.len() as u32]
}

/// The words of a field row that are neither given by the image nor free.
fn field_fits(words: &[u32], pool: usize, known: &[Known]) -> bool {
    let pair = |at: usize| (words[at], words[at + 1]);
    let extendee_fits = match words[1] {
        0 => pair(3) == (0, 0),
        1 => is_message(pair(3), known),
        _ => false,
    };
    let value_fits = match words[5] {
        0 | 1 => pair(10) == (0, 0),
        2 => target_fits(words[9], pair(10), known),
        _ => false,
    };
    let default_fits = match words[12] {
        0 | 1 => true,
        3 => u64::from(words[13]) + u64::from(words[14]) <= pool as u64,
        4 => words[6] == ENUM && values(pair(7), known).is_some_and(|n| (words[13] as usize) < n),
        _ => false,
    };
    extendee_fits && value_fits && default_fits && target_fits(words[6], pair(7), known)
}

fn target_fits(type_word: u32, target: (u32, u32), known: &[Known]) -> bool {
    match type_word {
        GROUP | MESSAGE => is_message(target, known),
        ENUM => values(target, known).is_some(),
        _ => target == (0, 0),
    }
}

/// The file that a file word names.
fn file(word: u32, known: &[Known]) -> Option<&Known> {
    known.get((word as usize).checked_sub(1)?)
}

fn is_message((word, index): (u32, u32), known: &[Known]) -> bool {
    file(word, known).is_some_and(|f| (index as usize) < f.messages)
}

/// How many values the enum has, if it exists.
fn values((word, index): (u32, u32), known: &[Known]) -> Option<usize> {
    file(word, known)?.values.get(index as usize).copied()
}

#[cfg(test)]
mod test {
    use super::*;
    use crate::image::encode;

    #[test]
    fn a_linked_shelf_is_well_formed_and_most_changes_break_it() {
        let text = r#"name: "f" message_type { name: "A" field { name: "a" number: 1 type: TYPE_MESSAGE type_name: ".A" } }"#;
        let image = encode(&protobuf::text_format::parse_from_str(text).unwrap()).unwrap();
        let mut shelf = Shelf::new(500, 50);
        shelf.link(&image).unwrap();
        assert_eq!(judge(&shelf), 0);
        let field = image.words.len() + MESSAGE_WORDS;
        // The index of the target, and the last word of the row, which is free.
        for (word, wanted) in [(8, 2), (15, 0)] {
            let mut spoilt = shelf.clone();
            spoilt.words.slice_mut()[field + word] = 1;
            assert_eq!(judge(&spoilt), wanted);
        }
        assert_eq!(judge(&Shelf::new(MOST_SHELF_WORDS + 1, 0)), 1);
    }
}
