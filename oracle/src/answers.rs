//! The crate's answers: every file of a case is given to the crate, one after the other, and what it decides is written down.

use std::panic::AssertUnwindSafe;
use std::sync::atomic::{AtomicUsize, Ordering};

use protobuf::descriptor::FileDescriptorProto;
use protobuf::reflect::FileDescriptor;

use crate::case::{Answer, Case, CaseAnswers, Expect, FileCase};
use crate::image::Layout;
use crate::link::{Linked, Places, View, RECORD_WORDS};

/// How many answers of each kind there are.
#[derive(Clone, Copy, Debug, Default, PartialEq, Eq)]
pub struct Tally {
    pub accepted: usize,
    pub failed: usize,
    pub panicked: usize,
    pub skipped: usize,
    /// Accepted, but its index is too long to read, so that the words are those of the public interface alone.
    pub without_index: usize,
}

impl Tally {
    fn count(&mut self, answer: &Answer) {
        match answer {
            Answer::Accepted(_) => self.accepted += 1,
            Answer::Failed(_) => self.failed += 1,
            Answer::Panicked(_) => self.panicked += 1,
            Answer::Skipped(_) | Answer::Refused(..) => self.skipped += 1,
        }
    }

    pub fn add(&mut self, other: &Tally) {
        self.accepted += other.accepted;
        self.failed += other.failed;
        self.panicked += other.panicked;
        self.skipped += other.skipped;
        self.without_index += other.without_index;
    }
}

/// A descriptor nests as deep as its image says, and the crate walks it by calling itself.
pub const STACK: usize = 1 << 30;

/// The answers to all cases, in their order.
pub fn answer_all(cases: &[Case]) -> Result<(Vec<CaseAnswers>, Tally), String> {
    silence_panics();
    let next = AtomicUsize::new(0);
    let threads = std::thread::available_parallelism().map_or(1, |n| n.get());
    let mut found: Vec<Answered> = Vec::new();
    std::thread::scope(|scope| {
        let mut workers = Vec::new();
        for _ in 0..threads {
            let builder = std::thread::Builder::new().stack_size(STACK);
            let worker = builder.spawn_scoped(scope, || answer_some(cases, &next));
            workers.push(worker.map_err(|e| format!("no thread to work in: {e}"))?);
        }
        for worker in workers {
            found.extend(
                worker
                    .join()
                    .map_err(|p| format!("the oracle itself panicked: {}", panic_text(p)))?,
            );
        }
        Ok::<(), String>(())
    })?;
    found.sort_by_key(|a| a.number);
    let mut tally = Tally::default();
    let mut answers = Vec::new();
    for answered in found {
        let (answer, of_case) = answered
            .result
            .map_err(|e| format!("case {}: {e}", cases[answered.number].name))?;
        tally.add(&of_case);
        answers.push(answer);
    }
    Ok((answers, tally))
}

/// A case that is dealt with.
struct Answered {
    number: usize,
    result: Result<(CaseAnswers, Tally), String>,
}

/// Takes cases as long as there are any.
fn answer_some(cases: &[Case], next: &AtomicUsize) -> Vec<Answered> {
    let mut found = Vec::new();
    loop {
        let number = next.fetch_add(1, Ordering::Relaxed);
        let Some(case) = cases.get(number) else {
            return found;
        };
        let result = catch(|| answer_case(case))
            .unwrap_or_else(|e| Err(format!("the oracle itself panicked: {e}")));
        found.push(Answered { number, result });
    }
}

/// Panics of the crate are answers, and nothing to write on the terminal.
pub fn silence_panics() {
    std::panic::set_hook(Box::new(|_| {}));
}

fn catch<T>(work: impl FnOnce() -> T) -> Result<T, String> {
    std::panic::catch_unwind(AssertUnwindSafe(work)).map_err(panic_text)
}

fn panic_text(payload: Box<dyn std::any::Any + Send>) -> String {
    match (
        payload.downcast_ref::<String>(),
        payload.downcast_ref::<&str>(),
    ) {
        (Some(text), _) => text.clone(),
        (None, Some(text)) => (*text).to_owned(),
        (None, None) => "no text".to_owned(),
    }
}

/// The files that the crate has accepted, and how much of a shelf they fill.
#[derive(Default)]
struct Shelf {
    files: Vec<FileDescriptor>,
    places: Places,
    words: usize,
    bytes: usize,
}

impl Shelf {
    fn has(&self, name: &str) -> bool {
        self.files.iter().any(|f| f.name() == name)
    }
}

fn answer_case(case: &Case) -> Result<(CaseAnswers, Tally), String> {
    let asked = ask(case)?;
    Ok((asked.answers, asked.tally))
}

/// What the crate made of a case.
pub struct Asked {
    pub answers: CaseAnswers,
    pub tally: Tally,
    /// For each file, what the crate has on its shelf.
    pub descriptors: Vec<Option<FileDescriptor>>,
}

/// Asks the crate about each file of the case.
pub fn ask(case: &Case) -> Result<Asked, String> {
    let mut shelf = Shelf::default();
    let mut tally = Tally::default();
    let (mut files, mut descriptors) = (Vec::new(), Vec::new());
    for (number, file) in case.files.iter().enumerate() {
        let shelved = shelf.files.len();
        let answer =
            answer_file(&mut shelf, file, &mut tally).map_err(|e| format!("file {number}: {e}"))?;
        tally.count(&answer);
        files.push(answer);
        descriptors.push(shelf.files.get(shelved).cloned());
    }
    let name = case.name.clone();
    Ok(Asked {
        answers: CaseAnswers { name, files },
        tally,
        descriptors,
    })
}

fn answer_file(shelf: &mut Shelf, file: &FileCase, tally: &mut Tally) -> Result<Answer, String> {
    let (layout, proto) = match Layout::of(&file.image).and_then(|l| l.descriptor().map(|d| (l, d)))
    {
        Ok(read) => read,
        Err(reason) => return Ok(Answer::Skipped(reason)),
    };
    if let Some(reason) = not_to_be_asked(shelf, &proto) {
        return Ok(Answer::Skipped(reason));
    }
    let linked = match catch(|| FileDescriptor::new_dynamic(proto, &shelf.files)) {
        Ok(Ok(linked)) => linked,
        Ok(Err(error)) => return Ok(Answer::Failed(error.to_string())),
        Err(text) => return Ok(Answer::Panicked(text)),
    };
    // A file that the linker is to refuse is not on its shelf, so it must not be on this one, or all later numbers would differ.
    let shelved = matches!(file.expect, Expect::Domain | Expect::Any);
    accept(shelf, file, &layout, linked, shelved, tally)
}

/// Why the crate has no say in whether this file is accepted, if it has none.
fn not_to_be_asked(shelf: &Shelf, proto: &FileDescriptorProto) -> Option<String> {
    if shelf.has(proto.name()) {
        return Some(format!("name: `{}` is shelved already", proto.name()));
    }
    let missing = proto.dependency.iter().find(|d| !shelf.has(d))?;
    Some(format!("import: `{missing}` is not shelved"))
}

fn accept(
    shelf: &mut Shelf,
    file: &FileCase,
    layout: &Layout,
    descriptor: FileDescriptor,
    shelved: bool,
    tally: &mut Tally,
) -> Result<Answer, String> {
    let number = shelf.files.len();
    let view = View::of(&descriptor);
    shelf.places.add(number, &view);
    let linked = Linked::new(layout, &view, &shelf.places, number)?;
    tally.without_index += !linked.has_index() as usize;
    let mut words = linked.rows()?;
    let record = file.image.words.len() + words.len() + RECORD_WORDS;
    let sizes = [
        shelf.words,
        file.image.words.len(),
        shelf.bytes,
        file.image.pool.len(),
    ];
    for number in sizes.into_iter().chain(linked.counts()) {
        words.push(Some(
            u32::try_from(number).map_err(|_| format!("{number} is too much for a word"))?,
        ));
    }
    if shelved {
        shelf.files.push(descriptor);
        shelf.words += record;
        shelf.bytes += file.image.pool.len();
    } else {
        shelf.places.forget(number);
    }
    Ok(Answer::Accepted(words))
}

#[cfg(test)]
mod test {
    use super::*;
    use crate::case::Image;
    use crate::image::{encode, encode_shuffled};
    use crate::rng::Rng;

    fn image(text: &str) -> Image {
        encode(&protobuf::text_format::parse_from_str(text).unwrap()).unwrap()
    }

    /// The answers to files that are given as text.
    fn answers(files: &[&str]) -> Vec<Answer> {
        let file = |text: &&str| FileCase {
            image: image(text),
            expect: Expect::Domain,
        };
        let case = Case {
            name: "t".to_owned(),
            files: files.iter().map(file).collect(),
        };
        answer_case(&case).unwrap().0.files
    }

    /// The link words of the last file.
    fn words(files: &[&str]) -> Vec<Option<u32>> {
        match answers(files).pop() {
            Some(Answer::Accepted(words)) => words,
            other => panic!("{other:?}"),
        }
    }

    /// Words of one row; `from` rows of other tables come before it.
    fn row(words: &[Option<u32>], start: usize, length: usize) -> Vec<i64> {
        words[start..start + length]
            .iter()
            .map(|w| w.map_or(-1, |w| w as i64))
            .collect()
    }

    const ALWAYS: i64 = u32::MAX as i64;

    #[test]
    fn the_whole_case() {
        let file = r#"name: "f" syntax: "proto3" message_type { name: "A" }"#;
        let words = words(&[file]);
        assert_eq!(
            row(&words, 0, 18),
            [0, 0, 0, 0, 0, 0, 0, 0, 1, ALWAYS, 0, 38, 0, 2, 1, 0, 0, 0]
        );
    }

    #[test]
    fn marks_go_back_along_references() {
        let file = r#"
            name: "f"
            message_type { name: "A" field { name: "r" number: 1 label: LABEL_REQUIRED type: TYPE_INT32 } }
            message_type { name: "B" field { name: "a" number: 1 type: TYPE_MESSAGE type_name: ".A" } }
            message_type { name: "C" field { name: "b" number: 1 type: TYPE_MESSAGE type_name: ".B" } }
            message_type { name: "S" field { name: "s" number: 1 type: TYPE_MESSAGE type_name: ".S" } }
            message_type { name: "X" extension_range { start: 1 end: 2 } }"#;
        let words = words(&[file]);
        let marks: Vec<_> = (0..5).map(|m| row(&words, 10 * m + 8, 2)).collect();
        assert_eq!(marks, [[0, -1], [0, -1], [0, -1], [1, ALWAYS], [0, -1]]);
        // A field row: C's field, of type message, in this file, at 1.
        assert_eq!(
            row(&words, 50 + 32, 16),
            [2, 0, 3, 0, 0, 0, 11, 1, 1, 0, 0, 0, 0, 0, 0, 0]
        );
    }

    #[test]
    fn maps_have_the_types_of_key_and_value() {
        let file = r#"
            name: "f" syntax: "proto3" enum_type { name: "E" value { name: "Z" number: 0 } }
            message_type {
              name: "M"
              nested_type {
                name: "FEntry"
                field { name: "key" number: 1 label: LABEL_OPTIONAL type: TYPE_SINT32 }
                field { name: "value" number: 2 label: LABEL_OPTIONAL type: TYPE_GROUP type_name: ".M" }
                options { map_entry: true }
              }
              nested_type {
                name: "GEntry"
                field { name: "key" number: 1 label: LABEL_OPTIONAL type: TYPE_STRING }
                field { name: "value" number: 2 label: LABEL_OPTIONAL type: TYPE_ENUM type_name: ".E" }
                options { map_entry: true }
              }
              field { name: "f" number: 1 label: LABEL_REPEATED type: TYPE_MESSAGE type_name: ".M.FEntry" }
              field { name: "g" number: 2 label: LABEL_REPEATED type: TYPE_MESSAGE type_name: ".M.GEntry" }
              field { name: "h" number: 3 label: LABEL_OPTIONAL type: TYPE_MESSAGE type_name: ".M.GEntry" }
            }"#;
        let words = words(&[file]);
        let fields = 30 + 2;
        assert_eq!(row(&words, 10 + 7, 3), [1, 1, ALWAYS]);
        assert_eq!(row(&words, fields + 5, 7), [2, 17, 0, 0, 10, 1, 0]);
        assert_eq!(row(&words, fields + 16 + 5, 7), [2, 9, 0, 0, 14, 1, 0]);
        assert_eq!(row(&words, fields + 32 + 5, 7), [0, 11, 1, 2, 0, 0, 0]);
    }

    #[test]
    fn defaults_of_each_kind() {
        let file = r#"
            name: "f"
            enum_type {
              name: "E" value { name: "A" number: 0 } value { name: "B" number: 1 } value { name: "A" number: 1 } value { name: "C" number: 2 }
            }
            message_type {
              name: "M"
              field { name: "a" number: 1 type: TYPE_ENUM type_name: ".E" default_value: "A" }
              field { name: "b" number: 2 type: TYPE_ENUM type_name: ".E" default_value: "C" label: LABEL_REPEATED }
              field { name: "c" number: 3 type: TYPE_INT32 default_value: "-0" }
              field { name: "d" number: 4 type: TYPE_SINT64 default_value: "-2" label: LABEL_REPEATED }
              field { name: "e" number: 5 type: TYPE_FIXED64 default_value: "18446744073709551615" }
              field { name: "f" number: 6 type: TYPE_BOOL default_value: "true" }
              field { name: "g" number: 7 type: TYPE_STRING default_value: "x\"\\" }
              field { name: "h" number: 8 type: TYPE_STRING default_value: "" }
              field { name: "i" number: 9 type: TYPE_DOUBLE default_value: "nan" }
              field { name: "j" number: 10 type: TYPE_BYTES default_value: "x" }
              field { name: "k" number: 11 type: TYPE_ENUM type_name: ".E" }
            }"#;
        let words = words(&[file]);
        let of = |field: usize| row(&words, 10 + 2 + 16 * field + 12, 4);
        let image = image(file);
        let start = image.pool.windows(3).position(|w| w == b"x\"\\").unwrap() as i64;
        assert_eq!(of(0), [4, 0, 0, 0]);
        assert_eq!(of(1), [4, 3, 0, 0]);
        assert_eq!(of(2), [1, 0, 0, 0]);
        assert_eq!(of(3), [1, ALWAYS - 1, ALWAYS, 0]);
        assert_eq!(of(4), [1, ALWAYS, ALWAYS, 0]);
        assert_eq!(of(5), [1, 1, 0, 0]);
        assert_eq!(of(6), [3, start, 3, 0]);
        assert_eq!(of(7), [3, 0, 0, 0]);
        assert_eq!(of(8), [-1, -1, -1, 0]);
        assert_eq!(of(9), [-1, -1, -1, 0]);
        assert_eq!(of(10), [0, 0, 0, 0]);
    }

    #[test]
    fn public_imports_are_searched_last_one_first() {
        let message = |file: &str| {
            format!(
                r#"name: "{file}" message_type {{ name: "T" }} message_type {{ name: "{file}" }}"#
            )
        };
        let p = r#"name: "p" dependency: "r" dependency: "s" public_dependency: 0 public_dependency: 1"#;
        let main = r#"
            name: "m" dependency: "p" dependency: "q"
            message_type {
              name: "M"
              field { name: "t" number: 1 type: TYPE_MESSAGE type_name: ".T" }
              field { name: "r" number: 2 type: TYPE_MESSAGE type_name: ".r" }
              field { name: "q" number: 3 type: TYPE_MESSAGE type_name: ".q" }
            }"#;
        let words = words(&[&message("r"), &message("s"), p, &message("q"), main]);
        // The files are r, s, p, q: 1, 2, 3, 4 in file words. `T` is found in s.
        assert_eq!(row(&words, 10 + 6, 3), [11, 2, 0]);
        assert_eq!(row(&words, 26 + 6, 3), [11, 1, 1]);
        assert_eq!(row(&words, 42 + 6, 3), [11, 4, 1]);
    }

    #[test]
    fn extensions_are_declared_in_one_message_and_extend_another() {
        let other = r#"name: "o" package: "o" message_type { name: "A" } message_type { name: "O" extension_range { start: 1 end: 9 } }"#;
        let main = r#"
            name: "m" dependency: "o"
            message_type {
              name: "M" extension_range { start: 1 end: 9 }
              extension { name: "a" number: 1 type: TYPE_INT32 extendee: ".o.O" }
              extension { name: "b" number: 2 type: TYPE_INT32 }
              field { name: "c" number: 3 type: TYPE_INT32 extendee: ".N" oneof_index: 0 }
              oneof_decl { name: "x" }
            }
            message_type { name: "N" }
            extension { name: "d" number: 4 type: TYPE_GROUP type_name: ".N" extendee: ".M" }"#;
        let words = words(&[other, main]);
        // A field with an extendee is a member of its oneof all the same.
        assert_eq!(row(&words, 20, 4), [0, 0, 0, 1]);
        let of = |field: usize| row(&words, 24 + 16 * field, 9);
        assert_eq!(of(0), [0, 1, 1, 2, 1, 0, 5, 0, 0]);
        assert_eq!(of(1), [1, 1, 1, 1, 1, 0, 5, 0, 0]);
        assert_eq!(of(2), [2, 0, 1, 0, 0, 0, 5, 0, 0]);
        assert_eq!(of(3), [3, 1, 0, 2, 0, 0, 10, 2, 1]);
        // The second record starts behind the first.
        let first = 2 * 14 + 24 + 2 * 10 + 8;
        let last = words.len() - 8;
        assert_eq!(row(&words, last, 1), [first]);
        assert_eq!(row(&words, last + 4, 4), [2, 0, 1, 4]);
    }

    #[test]
    fn oneofs_are_synthetic_with_one_optional_member() {
        let file = r#"
            name: "f" syntax: "proto3"
            message_type {
              name: "M"
              nested_type { name: "N" oneof_decl { name: "n" } enum_type { name: "F" value { name: "W" number: 0 } } }
              enum_type { name: "E" value { name: "V" number: 0 } }
              field { name: "a" number: 1 type: TYPE_INT32 oneof_index: 0 }
              field { name: "b" number: 2 type: TYPE_INT32 oneof_index: 1 proto3_optional: true }
              field { name: "c" number: 3 type: TYPE_INT32 oneof_index: 0 proto3_optional: true }
              field { name: "d" number: 4 type: TYPE_INT32 oneof_index: 3 proto3_optional: true }
              oneof_decl { name: "x" } oneof_decl { name: "_b" } oneof_decl { name: "none" }
            }"#;
        let words = words(&[file]);
        assert_eq!(row(&words, 0, 10), [0, 0, 0, 0, 0, 4, 0, 0, 1, ALWAYS]);
        assert_eq!(row(&words, 10, 10), [1, 1, 1, 3, 4, 0, 0, 0, 1, ALWAYS]);
        assert_eq!(row(&words, 20, 4), [0, 1, 1, 2]);
        assert_eq!(
            row(&words, 24, 16),
            [0, 0, 0, 2, 0, 1, 1, 1, 0, 2, 0, 0, 1, 0, 0, 0]
        );
    }

    #[test]
    fn errors_and_panics_are_written_down() {
        let clash = r#"
            name: "f" message_type {
              field { name: "a_b" number: 1 type: TYPE_INT32 }
              field { name: "aB" number: 2 type: TYPE_INT32 json_name: "z" }
            }"#;
        assert_eq!(
            answers(&[clash]),
            [Answer::Failed("Non-unique field name: `aB`".to_owned())]
        );
        let nothing = r#"name: "f" extension { name: "a" number: 1 type: TYPE_INT32 }"#;
        let text = "field must be in a message or an extension".to_owned();
        assert_eq!(answers(&[nothing]), [Answer::Panicked(text)]);
    }

    #[test]
    fn files_that_the_crate_is_not_asked_about() {
        let import = r#"name: "g" dependency: "f""#;
        let bad = r#"name: "f" message_type { field { name: "a" number: 1 type: TYPE_MESSAGE type_name: ".N" } }"#;
        let answers = answers(&[import, bad, import, r#"name: "f""#, import, import]);
        let kinds: Vec<_> = answers
            .iter()
            .map(|a| format!("{a:?}").chars().take(8).collect::<String>())
            .collect();
        assert_eq!(
            kinds,
            [
                "Skipped(",
                "Failed(\"",
                "Skipped(",
                "Accepted",
                "Accepted",
                "Skipped("
            ]
        );
    }

    #[test]
    fn a_file_to_be_refused_is_not_shelved() {
        let file = |text: &str, expect| FileCase {
            image: image(text),
            expect,
        };
        let user = r#"name: "g" message_type { name: "A" field { name: "a" number: 1 type: TYPE_MESSAGE type_name: ".A" } }"#;
        let files = vec![
            file(r#"name: "f""#, Expect::Refused(4)),
            file(user, Expect::Domain),
        ];
        let answers = answer_case(&Case {
            name: "t".to_owned(),
            files,
        })
        .unwrap()
        .0
        .files;
        let [Answer::Accepted(_), Answer::Accepted(words)] = answers.as_slice() else {
            panic!("{answers:?}")
        };
        assert_eq!(row(words, 10 + 6, 3), [11, 1, 0]);
        assert_eq!(row(words, 26, 1), [0]);
    }

    /// Imports of imports are written into the debug text again and again: the index of such a file is given up, and the words stay the same.
    #[test]
    fn deep_imports_are_answered_without_the_index() {
        let mut files = Vec::new();
        for n in 0..16 {
            let imports: String = (0..n).map(|i| format!(r#"dependency: "f{i}" "#)).collect();
            files.push(format!(
                r#"name: "f{n}" {imports} message_type {{ name: "M{n}" field {{ name: "a" number: 1 type: TYPE_MESSAGE type_name: ".M{}" }} }}"#,
                n / 2
            ));
        }
        let file = |text: &String| FileCase {
            image: image(text),
            expect: Expect::Domain,
        };
        let case = Case {
            name: "t".to_owned(),
            files: files.iter().map(file).collect(),
        };
        let (answers, tally) = answer_case(&case).unwrap();
        assert_eq!(tally.accepted, 16);
        assert!(tally.without_index > 0);
        for (n, answer) in answers.files.iter().enumerate() {
            let Answer::Accepted(words) = answer else {
                panic!("{answer:?}")
            };
            assert_eq!(row(words, 10 + 6, 3), [11, n as i64 / 2 + 1, 0]);
        }
    }

    #[test]
    fn another_order_of_rows_changes_rows_only() {
        let text = r#"
            name: "f" enum_type { name: "E" value { name: "V" number: 0 } }
            message_type {
              name: "M" nested_type { name: "N" oneof_decl { name: "o" } field { name: "a" number: 1 type: TYPE_ENUM type_name: ".E" oneof_index: 0 } }
              field { name: "b" number: 1 type: TYPE_MESSAGE type_name: ".M.N" }
            }
            message_type { name: "O" nested_type { name: "P" } enum_type { name: "F" } }"#;
        let canonical = words(&[text]);
        let descriptor = protobuf::text_format::parse_from_str(text).unwrap();
        for seed in 0..50 {
            let image = encode_shuffled(&descriptor, &mut Rng::new(seed)).unwrap();
            let case = Case {
                name: "t".to_owned(),
                files: vec![FileCase {
                    image,
                    expect: Expect::Domain,
                }],
            };
            let answers = answer_case(&case).unwrap().0.files;
            let [Answer::Accepted(words)] = answers.as_slice() else {
                panic!("{answers:?}")
            };
            // Image rows: of 4 messages, 2 enums and 2 fields; then the pool's length.
            let rows = [0, 10, 20, 30, 40, 42, 48, 64, 83];
            for (at, (word, wanted)) in words.iter().zip(&canonical).enumerate() {
                assert!(
                    word == wanted || rows.contains(&at),
                    "seed {seed}, word {at}"
                );
            }
        }
    }
}
