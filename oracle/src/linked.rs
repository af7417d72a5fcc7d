//! The crate and our linker in one process: both link the cases, and everything that the two decide is compared.

use std::borrow::Cow;

use protobuf::descriptor::FileDescriptorProto;

use crate::answers::{self, Tally};
use crate::case::{Answer, Case, CaseAnswers, Image};
use crate::compare::{self, Report};
use crate::domain::{MOST_FILES, MOST_SHELF_BYTES, MOST_SHELF_WORDS};
use crate::image;
use crate::lookups::Lookups;
use crate::ours::Shelf;

/// A record has at most three words for each of its image's, and 8.
const RECORD_PER_IMAGE: usize = 3;
const SPARE: usize = 100;
/// Lookups are asked of the whole shelf up to so many words.
const SMALL_SHELF: usize = 4_000;

/// What was compared.
pub struct Total {
    /// Of the names and numbers to look up, every so many is asked for.
    every: usize,
    report: Report,
    tally: Tally,
    lookups: usize,
    second_links: usize,
    rooms: usize,
    pub smallest: Option<Case>,
}

impl Total {
    pub fn new(every: usize) -> Self {
        Total {
            every,
            report: Report::default(),
            tally: Tally::default(),
            lookups: 0,
            second_links: 0,
            rooms: 0,
            smallest: None,
        }
    }

    pub fn lines(&self) -> &[String] {
        &self.report.lines
    }

    pub fn summary(&self) -> String {
        format!(
            "the crate: {} accepted, {} failed, {} panicked, {} not asked\n{}\n{} lookups, {} second links after a refusal, {} shelves of exactly the room",
            self.tally.accepted,
            self.tally.failed,
            self.tally.panicked,
            self.tally.skipped,
            self.report.summary(),
            self.lookups,
            self.second_links,
            self.rooms
        )
    }

    /// Links the cases by both and compares.
    pub fn run(&mut self, cases: &[Case]) -> Result<(), String> {
        answers::silence_panics();
        for case in cases {
            let report = self
                .compare(case)
                .map_err(|e| format!("case {}: {e}", case.name))?;
            let differs = !report.lines.is_empty();
            self.report.add(report);
            let smallest = self.smallest.as_ref().map(compare::size);
            if differs && smallest.is_none_or(|s| compare::size(case) < s) {
                self.smallest = Some(case.clone());
            }
        }
        Ok(())
    }

    fn compare(&mut self, case: &Case) -> Result<Report, String> {
        let asked = answers::ask(case)?;
        self.tally.add(&asked.tally);
        let mut run = Run::new(case);
        let ours = match run.link_all() {
            Ok(ours) => ours,
            Err(wrong) => return Ok(one_line(case, wrong)),
        };
        self.second_links += run.second_links;
        let cases = std::slice::from_ref(case);
        let mut report = compare::compare(
            cases,
            std::slice::from_ref(&asked.answers),
            std::slice::from_ref(&ours),
        )?;
        let mut wrong = Vec::new();
        for (file, descriptor) in asked.descriptors.iter().enumerate() {
            if let (Some(number), Some(descriptor)) = (run.numbers[file], descriptor) {
                let (shelf, number) = run.shelf_to_ask(file, number)?;
                let mut lookups = Lookups::new(&shelf, number, descriptor, self.every);
                lookups.run();
                self.lookups += lookups.made;
                wrong.extend(lookups.wrong);
            }
        }
        wrong.extend(run.room()?);
        self.rooms += 3 * (run.shelf.used.files > 0) as usize;
        if !wrong.is_empty() && report.differing_cases == 0 {
            report.differing_cases = 1;
        }
        let lines = wrong.iter().map(|w| format!("case {}: {w}", case.name));
        report.lines.extend(lines);
        Ok(report)
    }
}

/// The report on a case that our linker spoiled.
fn one_line(case: &Case, wrong: String) -> Report {
    Report {
        lines: vec![format!("case {}: {wrong}", case.name)],
        cases: 1,
        differing_cases: 1,
        ..Report::default()
    }
}

/// A case on its way onto our shelf.
struct Run<'a> {
    case: &'a Case,
    shelf: Shelf,
    /// For each file, its number on the shelf.
    numbers: Vec<Option<u32>>,
    /// What the images hold; empty for an image that holds no file.
    protos: Vec<FileDescriptorProto>,
    second_links: usize,
}

impl<'a> Run<'a> {
    /// The shelf has room to spare, as far as a shelf may have it.
    fn new(case: &'a Case) -> Self {
        let files = case.files.len() + 1;
        let words = RECORD_PER_IMAGE * compare::size(case) + files * SPARE;
        let bytes: usize = case.files.iter().map(|f| f.image.pool.len()).sum();
        Run {
            case,
            shelf: Shelf::new(
                words.min(MOST_SHELF_WORDS),
                (bytes + SPARE).min(MOST_SHELF_BYTES),
            ),
            numbers: Vec::new(),
            protos: case
                .files
                .iter()
                .map(|f| image::decode(&f.image).unwrap_or_default())
                .collect(),
            second_links: 0,
        }
    }

    /// Our answers. The error is a change that no answer allows.
    fn link_all(&mut self) -> Result<CaseAnswers, String> {
        let mut files = Vec::new();
        for (number, file) in self.case.files.iter().enumerate() {
            let wrong = |e| format!("file {number}: {e}");
            let shelved = self.shelf.used.files;
            let answer = self.shelf.link(&file.image).map_err(wrong)?;
            let accepted = matches!(answer, Answer::Accepted(_));
            if !accepted {
                second_link(&self.shelf).map_err(wrong)?;
                self.second_links += 1;
            }
            self.numbers.push(accepted.then_some(shelved));
            files.push(answer);
        }
        match self.shelf.well_formed() {
            0 => Ok(CaseAnswers {
                name: self.case.name.clone(),
                files,
            }),
            answer => Err(format!("the shelf is judged {answer}")),
        }
    }

    fn accepted(&self) -> Vec<&'a Image> {
        let files = self.case.files.iter().zip(&self.numbers);
        let accepted = files.filter(|(_, number)| number.is_some());
        accepted.map(|(f, _)| &f.image).collect()
    }

    /// The shelf that lookups in the file are asked of, and the file's number there. Every lookup checks its shelf first, so it is the whole one
    /// only where that is small; else one with just the files that this one needs.
    fn shelf_to_ask(&self, file: usize, number: u32) -> Result<(Cow<'_, Shelf>, u32), String> {
        if (self.shelf.used.words as usize) < SMALL_SHELF {
            return Ok((Cow::Borrowed(&self.shelf), number));
        }
        let mut needed = Vec::new();
        self.add_needed(file, &mut needed);
        needed.sort_unstable();
        let mut shelf = Shelf::new(self.shelf.words.len(), self.shelf.bytes.len());
        for file in &needed {
            shelf.link(&self.case.files[*file].image)?;
        }
        Ok((Cow::Owned(shelf), needed.len() as u32 - 1))
    }

    /// The accepted files that this one imports, directly or not, and itself.
    fn add_needed(&self, file: usize, needed: &mut Vec<usize>) {
        if needed.contains(&file) {
            return;
        }
        needed.push(file);
        for import in &self.protos[file].dependency {
            let named = |i: &usize| self.numbers[*i].is_some() && self.protos[*i].name() == import;
            if let Some(import) = (0..self.protos.len()).find(named) {
                self.add_needed(import, needed);
            }
        }
    }

    /// Links what was accepted again, onto shelves of exactly the room, and of one word and of one byte less.
    fn room(&self) -> Result<Vec<String>, String> {
        let images = self.accepted();
        let Some((last, before)) = images.split_last() else {
            return Ok(Vec::new());
        };
        let (words, bytes) = (
            self.shelf.used.words as usize,
            self.shelf.used.bytes as usize,
        );
        let mut wrong = Vec::new();
        for (less_words, less_bytes) in [(0, 0), (1, 0), (0, 1)] {
            let mut shelf = Shelf::new(words - less_words, bytes - less_bytes);
            for image in before {
                if !matches!(shelf.link(image)?, Answer::Accepted(_)) {
                    wrong.push("an accepted file is refused on a smaller shelf".to_owned());
                }
            }
            match (shelf.link(last)?, less_words + less_bytes) {
                (Answer::Accepted(_), 0) if self.holds_the_same(&shelf) => {}
                (Answer::Refused(18, 0), 1) => {}
                (answer, less) => wrong.push(format!("on a shelf with {less} too few: {answer:?}")),
            }
        }
        Ok(wrong)
    }

    fn holds_the_same(&self, exact: &Shelf) -> bool {
        let (words, bytes) = (exact.words.slice(), exact.bytes.slice());
        self.shelf.words.slice()[..words.len()] == *words
            && self.shelf.bytes.slice()[..bytes.len()] == *bytes
            && self.shelf.used == exact.used
    }
}

/// A file that fits on nearly every shelf: one empty message.
fn small_file() -> Image {
    let (name, message) = (b"~~second~~", b"A");
    let (name_length, length) = (name.len() as u32, (name.len() + message.len()) as u32);
    let mut words = vec![name_length, 1];
    words.extend([0; 12]);
    words.extend([
        1,
        0,
        name_length,
        0,
        0,
        3,
        0,
        0,
        0,
        1,
        14,
        0,
        14,
        0,
        14,
        0,
        14,
        0,
    ]);
    words.extend([1, 0, 0, 0, length, 14]);
    Image {
        words,
        pool: [&name[..], message].concat(),
    }
}

/// Links a small file onto a copy of the shelf that a file was refused from: it must go as if nothing had been tried before.
fn second_link(shelf: &Shelf) -> Result<(), String> {
    let image = small_file();
    let (start, pool_start) = (shelf.used.words, shelf.used.bytes);
    let last = [start, 38, pool_start, image.pool.len() as u32, 1, 0, 0, 0];
    let row = [0, 0, 0, 0, 0, 0, 0, 0, 1, u32::MAX];
    let fits = start as usize + image.words.len() + row.len() + last.len() <= shelf.words.len()
        && pool_start as usize + image.pool.len() <= shelf.bytes.len();
    let wanted = if shelf.used.files as usize >= MOST_FILES {
        Answer::Refused(4, 0)
    } else if fits {
        Answer::Accepted(row.into_iter().chain(last).map(Some).collect())
    } else {
        Answer::Refused(18, 0)
    };
    let given = shelf.clone().link(&image)?;
    if given == wanted {
        return Ok(());
    }
    Err(format!(
        "a second link answers {given:?} and not {wanted:?}"
    ))
}

#[cfg(test)]
mod test {
    use super::*;
    use crate::{purpose, random};

    #[test]
    fn the_two_agree_on_cases_made_on_purpose_and_on_random_ones() {
        let mut total = Total::new(1);
        total.run(&purpose::cases()).unwrap();
        total.run(&random::cases(1, 10)).unwrap();
        assert_eq!(total.lines(), Vec::<String>::new());
        assert!(total.lookups > 0 && total.second_links > 0);
    }

    #[test]
    fn the_whole_case_is_linked_word_for_word() {
        let mut shelf = Shelf::new(56, 11);
        assert!(matches!(shelf.link(&small_file()), Ok(Answer::Accepted(_))));
        assert_eq!(shelf.used.words, 56);
        // There is no room for a second file; a second link of the same one is refused before that.
        assert_eq!(shelf.link(&small_file()), Ok(Answer::Refused(6, 0)));
    }
}
