//! The stored list: small cases, chosen for what they cover, with the crate's answers.
//!
//! All cases made on purpose are in it. Of the random and the damaged ones, and of those at the limits, the smallest that shows something new
//! is taken each time.

use std::collections::HashSet;
use std::path::Path;

use crate::case::{write_answers, write_cases, Answer, Case, CaseAnswers, Expect};
use crate::{answers, damage, image, limits, purpose, random};

/// The seeds from 1 on that are looked through.
const RANDOM: usize = 3000;
const DAMAGED: usize = 3000;
/// A single case, and all of them with their answers, take no more bytes than this.
const MOST_OF_ONE: usize = 12_000;
const MOST_OF_ALL: usize = 700_000;

/// Writes `cases.txt` and `answers.txt` into the folder, and says how much is in them.
pub fn write(folder: &Path) -> Result<String, String> {
    let made = purpose::cases();
    let mut chosen = Choice::default();
    for (case, answers) in made.iter().zip(answer(&made)?) {
        chosen.take(case, answers);
    }
    let mut others: Vec<Case> = [
        limits::cases(),
        random::cases(1, RANDOM),
        damage::cases(1, DAMAGED),
    ]
    .concat();
    others.retain(|c| size(c) <= MOST_OF_ONE);
    others.sort_by_key(size);
    for (case, answers) in others.iter().zip(answer(&others)?) {
        chosen.take_if_new(case, answers);
    }
    let cases = head("cases") + &write_cases(&chosen.cases);
    let answers = head("answers") + &write_answers(&chosen.answers);
    std::fs::create_dir_all(folder).map_err(|e| format!("{}: {e}", folder.display()))?;
    let line = format!(
        "{} cases, {} bytes, with {} bytes of answers",
        chosen.cases.len(),
        cases.len(),
        answers.len()
    );
    for (name, text) in [("cases.txt", cases), ("answers.txt", answers)] {
        let path = folder.join(name);
        std::fs::write(&path, text).map_err(|e| format!("{}: {e}", path.display()))?;
    }
    Ok(line)
}

fn answer(cases: &[Case]) -> Result<Vec<CaseAnswers>, String> {
    Ok(answers::answer_all(cases)?.0)
}

fn size(case: &Case) -> usize {
    write_cases(std::slice::from_ref(case)).len()
}

fn head(what: &str) -> String {
    format!(
        "# The stored {what}, made by `oracle stored DIR`: all cases made on purpose; and of the cases at the limits, {RANDOM} random ones\n\
         # (seeds from 1) and {DAMAGED} damaged ones (seeds from 1), from the smallest to the largest, those that show something new.\n\
         # The answers are those of the crate protobuf 3.7.2. oracle/FORMAT.md describes the format.\n"
    )
}

/// The cases chosen so far, and what they show.
#[derive(Default)]
struct Choice {
    cases: Vec<Case>,
    answers: Vec<CaseAnswers>,
    shown: HashSet<String>,
    bytes: usize,
}

impl Choice {
    fn take(&mut self, case: &Case, answers: CaseAnswers) {
        self.shown.extend(shows(case, &answers));
        self.bytes += size(case) + write_answers(std::slice::from_ref(&answers)).len();
        self.cases.push(case.clone());
        self.answers.push(answers);
    }

    fn take_if_new(&mut self, case: &Case, answers: CaseAnswers) {
        let bytes = size(case) + write_answers(std::slice::from_ref(&answers)).len();
        let is_new = shows(case, &answers)
            .iter()
            .any(|s| !self.shown.contains(s));
        if is_new && self.bytes + bytes <= MOST_OF_ALL {
            self.take(case, answers);
        }
    }
}

/// What a case shows, each thing as a short text.
fn shows(case: &Case, answers: &CaseAnswers) -> Vec<String> {
    let mut shown = Vec::new();
    for (i, (f, answer)) in case.files.iter().zip(&answers.files).enumerate() {
        match f.expect {
            Expect::Refused(n) | Expect::RefusedAt(n, _) => shown.push(format!("refused {n}")),
            Expect::Domain | Expect::Any => {}
        }
        match image::decode(&f.image) {
            Ok(proto) => shown.extend(shapes(&proto)),
            Err(text) => shown.push(format!("layout {}", without_numbers(&text))),
        }
        match answer {
            Answer::Accepted(words) => shown.extend(rows(words, i)),
            Answer::Failed(text) | Answer::Panicked(text) => {
                shown.push(text.split([':', '`']).next().unwrap_or("").to_owned());
            }
            Answer::Refused(..) | Answer::Skipped(_) => {}
        }
    }
    shown
}

fn without_numbers(text: &str) -> String {
    text.chars().filter(|c| !c.is_ascii_digit()).collect()
}

/// What the descriptor has that no link row says.
fn shapes(f: &protobuf::descriptor::FileDescriptorProto) -> Vec<String> {
    let mut shown = vec![
        format!("{} imports {}", f.syntax(), f.dependency.len().min(4)),
        format!("public {}", f.public_dependency.len().min(4)),
        format!("package {}", f.package()),
        format!(
            "top level {} {}",
            f.message_type.len().min(4),
            f.enum_type.len().min(4)
        ),
        format!("file extensions {}", f.extension.len().min(3)),
    ];
    let mut level: Vec<&protobuf::descriptor::DescriptorProto> = f.message_type.iter().collect();
    let mut depth = 0;
    while !level.is_empty() {
        depth += 1;
        for m in &level {
            shown.push(format!(
                "inside: {} {} {} {} {}",
                m.nested_type.len().min(2),
                m.enum_type.len().min(2),
                m.oneof_decl.len().min(2),
                m.extension.len().min(2),
                m.extension_range.len().min(1)
            ));
            for field in m.field.iter().chain(&m.extension) {
                shown.push(format!("{} {:?}", f.syntax(), field.label()));
                shown.push(format!(
                    "json {} extendee {} oneof {} optional {}",
                    field.has_json_name(),
                    field.has_extendee(),
                    field.has_oneof_index(),
                    field.proto3_optional()
                ));
            }
        }
        level = level.iter().flat_map(|m| &m.nested_type).collect();
    }
    shown.push(format!("depth {depth}"));
    shown
}

/// What the link rows of an accepted file say: each row without its numbers, targets by whether they are in this file.
fn rows(words: &[Option<u32>], file: usize) -> Vec<String> {
    let word = |at: usize| words[at].unwrap_or(0);
    let last = words.len() - 8;
    let counts: Vec<usize> = (4..8).map(|i| word(last + i) as usize).collect();
    let target = |at| match word(at) {
        0 => "none",
        n if n as usize == file + 1 => "own",
        _ => "other",
    };
    let mut shown = Vec::new();
    for m in 0..counts[0] {
        let (entry, marked) = (word(10 * m + 7), word(10 * m + 8));
        shown.push(format!("message entry {entry} always {marked}"));
    }
    let first_oneof = 10 * counts[0] + 2 * counts[1];
    for o in 0..counts[2] {
        let at = first_oneof + 4 * o;
        shown.push(format!("oneof {} {}", word(at + 2), word(at + 3).min(3)));
    }
    for f in 0..counts[3] {
        let at = first_oneof + 4 * counts[2] + 16 * f;
        let (shape, default) = (word(at + 5), word(at + 12));
        shown.push(format!(
            "kind {} in {} extends {} shape {shape}",
            word(at + 1),
            word(at + 2).min(1),
            target(at + 3)
        ));
        let key = format!("shape {shape} type {} {}", word(at + 6), target(at + 7));
        shown.push(format!("{key} default {default}"));
        if shape == 2 {
            shown.push(format!("value {} {}", word(at + 9), target(at + 10)));
        }
    }
    shown
}
