//! Times of our linker and the crate on the same files in the same run. What is written are the tables of docs/SPEED.md.

use std::collections::{BTreeMap, HashSet};
use std::fmt::Write as _;
use std::hint::black_box;
use std::path::Path;
use std::rc::Rc;
use std::time::{Duration, Instant};

use protobuf::descriptor::FileDescriptorProto;
use protobuf::reflect::FileDescriptor;

use crate::case::Image;
use crate::domain::{MOST_FILES, MOST_SHELF_BYTES, MOST_SHELF_WORDS};
use crate::limits::{name, numbered_field, with_messages};
use crate::make::*;
use crate::ours::{Lent, Shelf};
use crate::real::{self, RealFile, Set};
use crate::{image, makers};

/// A time is taken so often at least, and again until so much time has gone by.
const LEAST_RUNS: usize = 11;
const ENOUGH: Duration = Duration::from_millis(4);
/// Of the real files, every so many is also linked onto a shelf that is nearly full.
const NEARLY_FULL_EVERY: usize = 40;
/// A shelf is nearly full with so many files, or when the next one would not fit.
const NEARLY_ALL_FILES: usize = MOST_FILES - 1;
/// The upper ends of the classes of files, in words of the image.
const CLASSES: [usize; 5] = [500, 2_000, 5_000, 20_000, usize::MAX];

/// Lookups are timed in the smallest files with so many words of the image at least.
const LOOKED_INTO: [usize; 3] = [200, 2_000, 8_000];

/// The least and the middle one of many times, in nanoseconds.
#[derive(Clone, Copy, Default)]
struct Times {
    least: f64,
    middle: f64,
}

fn times(mut run: impl FnMut() -> Duration) -> Times {
    let begin = Instant::now();
    let mut taken = Vec::new();
    while taken.len() < LEAST_RUNS || begin.elapsed() < ENOUGH {
        taken.push(run().as_nanos() as f64);
    }
    taken.sort_by(f64::total_cmp);
    Times {
        least: taken[0],
        middle: taken[taken.len() / 2],
    }
}

/// How long it takes; what comes out is dropped after the clock has stopped.
fn clock<T>(work: impl FnOnce() -> T) -> Duration {
    let begin = Instant::now();
    let made = black_box(work());
    let taken = begin.elapsed();
    drop(made);
    taken
}

/// Files that both have linked, for another to be linked behind them.
struct Both {
    shelf: Shelf,
    crates: Vec<FileDescriptor>,
}

/// What linking one file takes.
struct Row {
    name: String,
    words: usize,
    shelf_files: usize,
    shelf_words: usize,
    ours: Times,
    check: Times,
    crates: Times,
}

impl Row {
    fn ratio(&self) -> f64 {
        self.ours.least / self.crates.least
    }

    fn ratio_without_check(&self) -> f64 {
        (self.ours.least - self.check.least) / self.crates.least
    }
}

impl Both {
    fn new() -> Self {
        Both {
            shelf: Shelf::full_size(),
            crates: Vec::new(),
        }
    }

    /// Links the file by both; false where one of the two refuses.
    fn add(&mut self, proto: &FileDescriptorProto, image: &Image) -> bool {
        let (words, pool) = (Lent::of(&image.words), Lent::of(&image.pool));
        let before = self.shelf.used;
        if self.shelf.link_unwatched(&words, &pool).0 != 0 {
            return false;
        }
        match FileDescriptor::new_dynamic(proto.clone(), &self.crates) {
            Ok(linked) => self.crates.push(linked),
            Err(_) => {
                self.shelf.used = before;
                return false;
            }
        }
        true
    }

    /// Times linking the file behind these. It must be one that both accept.
    fn time(&mut self, proto: &FileDescriptorProto, image: &Image) -> Option<Row> {
        let (words, pool) = (Lent::of(&image.words), Lent::of(&image.pool));
        let before = self.shelf.used;
        if self.shelf.link_unwatched(&words, &pool).0 != 0 {
            return None;
        }
        FileDescriptor::new_dynamic(proto.clone(), &self.crates).ok()?;
        self.shelf.used = before;
        let check = times(|| clock(|| self.shelf.well_formed()));
        let ours = times(|| {
            let taken = clock(|| self.shelf.link_unwatched(&words, &pool));
            self.shelf.used = before;
            taken
        });
        let crates = times(|| {
            let proto = proto.clone();
            clock(|| FileDescriptor::new_dynamic(proto, &self.crates))
        });
        Some(Row {
            name: proto.name().to_owned(),
            words: image.words.len(),
            shelf_files: before.files as usize,
            shelf_words: before.words as usize,
            ours,
            check,
            crates,
        })
    }
}

/// All tables; a line for each file goes to `rows`.
pub fn run(rows: &mut String) -> Result<String, String> {
    let sets = real::read_sets(Path::new(makers::REAL), &mut BTreeMap::new())?;
    let sets = distinct(sets);
    let alone: Vec<Row> = sets.iter().filter_map(time_alone).collect();
    let full: Vec<Row> = sets
        .iter()
        .step_by(NEARLY_FULL_EVERY)
        .filter_map(|set| time_nearly_full(set, &sets))
        .collect();
    for (kind, group) in [("imports", &alone), ("full", &full)] {
        for row in group {
            writeln!(rows, "{kind}\t{}", tabs(row)).unwrap();
        }
    }
    let nearly_full =
        format!("## Real files, every {NEARLY_FULL_EVERY}th, on a shelf that is nearly full");
    let parts = [
        (
            "## Real files, each behind its imports and theirs",
            classes(&alone),
        ),
        ("The largest files:", greatest(&alone, |r| r.words as f64)),
        ("The worst ratios:", greatest(&alone, Row::ratio)),
        (
            "The worst ratios without the check:",
            greatest(&alone, Row::ratio_without_check),
        ),
        (&nearly_full, classes(&full)),
        ("## At the limits", table(&at_limits()?)),
        ("## Lookups", lookups(&sets)?),
    ];
    let parts = parts.map(|(title, body)| format!("\n{title}\n\n{body}"));
    Ok(parts.concat())
}

/// One set for each file that stands last in one, smallest first.
fn distinct(sets: Vec<Set>) -> Vec<Set> {
    let mut seen: HashSet<*const RealFile> = HashSet::new();
    let mut sets: Vec<Set> = sets
        .into_iter()
        .filter(|s| s.last().is_some_and(|f| seen.insert(Rc::as_ptr(f))))
        .collect();
    sets.sort_by_key(|s| s.last().map_or(0, |f| f.image.words.len()));
    sets
}

/// The imports of the set's last file, linked; nothing where one is refused.
fn behind_imports(set: &Set) -> Option<(Both, &RealFile)> {
    let (last, imports) = set.split_last()?;
    let mut both = Both::new();
    imports
        .iter()
        .all(|f| both.add(&f.proto, &f.image))
        .then_some((both, last.as_ref()))
}

fn time_alone(set: &Set) -> Option<Row> {
    let (mut both, file) = behind_imports(set)?;
    both.time(&file.proto, &file.image)
}

/// Behind the imports come other real files with no imports, as long as one is left that leaves the file its room.
fn time_nearly_full(set: &Set, others: &[Set]) -> Option<Row> {
    let (mut both, file) = behind_imports(set)?;
    let mut names: HashSet<&str> = set.iter().map(|f| f.proto.name()).collect();
    for other in others.iter().rev().filter(|s| s.len() == 1) {
        let used = both.shelf.used;
        if used.files as usize == NEARLY_ALL_FILES {
            break;
        }
        let other = &other[0];
        let fits = used.words as usize + other.words + file.words <= MOST_SHELF_WORDS
            && used.bytes as usize + other.image.pool.len() + file.image.pool.len()
                <= MOST_SHELF_BYTES;
        if fits && names.insert(other.proto.name()) {
            both.add(&other.proto, &other.image);
        }
    }
    both.time(&file.proto, &file.image)
}

fn at_limits() -> Result<Vec<Row>, String> {
    let mut fields = with_messages("2048-fields-in-one-message", 1);
    fields.message_type[0].field = (0..2048).map(numbered_field).collect();
    let mut values = file("4096-values-in-one-enum", "", 3);
    let names: Vec<String> = (0..4096).map(name).collect();
    let numbered: Vec<(&str, i32)> = names.iter().map(String::as_str).zip(0..).collect();
    values.enum_type.push(enumeration("E", &numbered));
    let mut chain = with_messages("256-messages-in-a-chain", 256);
    for i in 1..256 {
        let next = format!(".{}", name(i));
        chain.message_type[i - 1].field = vec![typed("a", 1, OPTIONAL, MESSAGE, &next)];
    }
    chain.message_type[255].field = vec![field("r", 1, REQUIRED, INT32)];
    let time = |f: &FileDescriptorProto| {
        let row = Both::new().time(f, &image::encode(f)?);
        row.ok_or_else(|| format!("{} is refused", f.name()))
    };
    [fields, values, chain].iter().map(time).collect()
}

fn tabs(row: &Row) -> String {
    let [ours, check, crates] = [row.ours, row.check, row.crates]
        .map(|t| format!("{:.1}\t{:.1}", t.least / 1e3, t.middle / 1e3));
    format!(
        "{}\t{}\t{}\t{}\t{ours}\t{check}\t{crates}",
        row.name, row.words, row.shelf_files, row.shelf_words
    )
}

const HEAD: &str = "| File | Image words | Shelf: files, words | Ours | of which shelf check | The crate | Ours / crate | without the check |\n|---|---|---|---|---|---|---|---|\n";

const CLASS_HEAD: &str = "| Image words | Files | Ours, sum | of which shelf check | The crate, sum | Ours / crate | without the check | middle ratio | worst | Ours is slower |\n|---|---|---|---|---|---|---|---|---|---|\n";

fn micros(t: Times) -> String {
    format!("{:.1} ({:.1})", t.least / 1e3, t.middle / 1e3)
}

fn table<'r>(rows: impl IntoIterator<Item = &'r Row>) -> String {
    rows.into_iter().fold(HEAD.to_owned(), |out, r| {
        out + &format!(
            "| {} | {} | {}, {} | {} | {} | {} | {:.2} | {:.2} |\n",
            r.name,
            r.words,
            r.shelf_files,
            r.shelf_words,
            micros(r.ours),
            micros(r.check),
            micros(r.crates),
            r.ratio(),
            r.ratio_without_check()
        )
    })
}

/// The ten rows that come first by a measure, the greatest first.
fn greatest(rows: &[Row], measure: fn(&Row) -> f64) -> String {
    let mut rows: Vec<&Row> = rows.iter().collect();
    rows.sort_by(|a, b| measure(b).total_cmp(&measure(a)));
    table(rows.into_iter().take(10))
}

/// One line for each class of sizes, and one for all.
fn classes(rows: &[Row]) -> String {
    let mut out = CLASS_HEAD.to_owned();
    let mut from = 0;
    for to in CLASSES {
        let label = match to {
            usize::MAX => format!("{from} and more"),
            _ => format!("{from} to {}", to - 1),
        };
        let of = rows.iter().filter(|r| (from..to).contains(&r.words));
        out += &class_line(&label, &of.collect::<Vec<_>>());
        from = to;
    }
    out + &class_line("all", &rows.iter().collect::<Vec<_>>())
}

fn class_line(label: &str, rows: &[&Row]) -> String {
    if rows.is_empty() {
        return String::new();
    }
    let sum = |time: fn(&Row) -> f64| rows.iter().map(|r| time(r)).sum::<f64>() / 1e3;
    let ours = sum(|r| r.ours.least);
    let check = sum(|r| r.check.least);
    let crates = sum(|r| r.crates.least);
    let mut ratios: Vec<f64> = rows.iter().map(|r| r.ratio()).collect();
    ratios.sort_by(f64::total_cmp);
    let slower = ratios.iter().filter(|r| **r > 1.0).count();
    format!(
        "| {label} | {} | {ours:.0} | {check:.0} | {crates:.0} | {:.2} | {:.2} | {:.2} | {:.2} | {slower} |\n",
        rows.len(),
        ours / crates,
        (ours - check) / crates,
        ratios[ratios.len() / 2],
        ratios[ratios.len() - 1]
    )
}

/// Lookups in a small, a middle and a large real file, which stands behind its imports.
fn lookups(sets: &[Set]) -> Result<String, String> {
    let mut out = "| File | Shelf: files, words | Lookup | Ours | Shelf check | The crate |\n|---|---|---|---|---|---|\n".to_owned();
    for least in LOOKED_INTO {
        let usable = sets.iter().find_map(|set| {
            let file = set.last()?;
            let has_fields = file.proto.message_type.iter().any(|m| m.field.len() > 2);
            if !has_fields || file.image.words.len() < least {
                return None;
            }
            let (mut both, file) = behind_imports(set)?;
            both.add(&file.proto, &file.image).then_some((both, file))
        });
        let (both, file) = usable.ok_or_else(|| format!("no real file has {least} words"))?;
        out += &lookups_in(&both, file);
    }
    Ok(out)
}

fn lookups_in(both: &Both, file: &RealFile) -> String {
    let shelf = &both.shelf;
    let check = micros(times(|| clock(|| shelf.well_formed())));
    let line = |(what, ours, theirs): (&str, Times, Times)| {
        format!(
            "| {} | {}, {} | {what} | {} | {check} | {:.3} ({:.3}) |\n",
            file.proto.name(),
            shelf.used.files,
            shelf.used.words,
            micros(ours),
            theirs.least / 1e3,
            theirs.middle / 1e3
        )
    };
    time_lookups(both).map(line).concat()
}

/// Lookups in the last file, each with our times and the crate's.
fn time_lookups(both: &Both) -> [(&'static str, Times, Times); 3] {
    let (shelf, number) = (&both.shelf, both.shelf.used.files - 1);
    let crates = both.crates.last().expect("the file was just linked");
    let mut messages = crates.messages();
    let m = messages.find(|m| m.fields().count() > 2);
    let m = m.expect("the file was chosen for such a message");
    let f = m.fields().last().expect("the message has fields");
    let full_name = format!(".{}", m.full_name());
    let (_, index) = shelf.message(number, full_name.as_bytes());
    let field_number = f.number() as u32;
    [
        (
            "message by full name",
            times(|| clock(|| shelf.message(number, full_name.as_bytes()))),
            times(|| clock(|| crates.message_by_full_name(&full_name))),
        ),
        (
            "field by number",
            times(|| clock(|| shelf.field_by_number(number, index, field_number))),
            times(|| clock(|| m.field_by_number(field_number))),
        ),
        (
            "field by name",
            times(|| clock(|| shelf.field_by_name(number, index, 0, f.name().as_bytes()))),
            times(|| clock(|| m.field_by_name(f.name()))),
        ),
    ]
}
