//! Holds the answers of our linker against those of the crate, word by word, and judges each difference by what the two have to agree on.

use protobuf::descriptor::field_descriptor_proto::Label;

use crate::case::{Answer, Case, CaseAnswers, Expect, FileCase};
use crate::image::Layout;
use crate::link::{ENUM_WORDS, FIELD_WORDS, MESSAGE_WORDS, ONEOF_WORDS, RECORD_WORDS};

/// The refusals that the crate has errors for.
const INSIDE: [u32; 6] = [9, 10, 11, 12, 15, 17];
/// The refusals that the crate knows nothing of.
const OUTSIDE: [u32; 12] = [1, 2, 3, 4, 5, 6, 7, 8, 13, 14, 16, 18];

const MESSAGE: [&str; MESSAGE_WORDS] = [
    "image row",
    "enclosing + 1",
    "first own enum",
    "first own oneof",
    "first field",
    "field count",
    "extension count",
    "map entry",
    "always initialised",
    "distance",
];
const ENUM: [&str; ENUM_WORDS] = ["image row", "enclosing + 1"];
const ONEOF: [&str; ONEOF_WORDS] = ["message", "place", "synthetic", "count of members"];
const FIELD: [&str; FIELD_WORDS] = [
    "image row",
    "kind",
    "containing message + 1",
    "extendee file",
    "extendee index",
    "shape",
    "type",
    "file",
    "index",
    "value type",
    "value file",
    "value index",
    "default kind",
    "default low",
    "default high",
    "last",
];
const RECORD: [&str; RECORD_WORDS] = [
    "record start",
    "image words",
    "pool start",
    "pool length",
    "messages",
    "enums",
    "oneofs",
    "fields",
];
/// The words of a field row that name a file.
const FILE_WORDS: [usize; 3] = [3, 7, 10];

/// What comparing found.
#[derive(Debug, Default)]
pub struct Report {
    /// A line for each difference.
    pub lines: Vec<String>,
    pub cases: usize,
    pub files: usize,
    pub words: usize,
    pub both_accepted: usize,
    pub both_refused: usize,
    /// Files that only our linker refuses; where that is no difference, for a reason that the crate knows nothing of.
    pub refused_by_us: usize,
    pub differing_cases: usize,
    /// The number of the smallest case with a difference.
    pub smallest: Option<usize>,
}

impl Report {
    /// Takes up the report on other cases, but for which of them is the smallest.
    pub fn add(&mut self, other: Report) {
        self.lines.extend(other.lines);
        self.cases += other.cases;
        self.files += other.files;
        self.words += other.words;
        self.both_accepted += other.both_accepted;
        self.both_refused += other.both_refused;
        self.refused_by_us += other.refused_by_us;
        self.differing_cases += other.differing_cases;
    }

    pub fn summary(&self) -> String {
        format!(
            "{} cases, {} files: {} accepted by both ({} words compared), {} refused by both, {} refused by ours alone; {} differences in {} cases",
            self.cases,
            self.files,
            self.both_accepted,
            self.words,
            self.both_refused,
            self.refused_by_us,
            self.lines.len(),
            self.differing_cases
        )
    }
}

/// Compares the answers, which must be of these cases, in their order.
pub fn compare(
    cases: &[Case],
    crates: &[CaseAnswers],
    ours: &[CaseAnswers],
) -> Result<Report, String> {
    check_names(cases, crates, "the crate's answers")?;
    check_names(cases, ours, "our answers")?;
    let mut report = Report {
        cases: cases.len(),
        ..Report::default()
    };
    for (number, case) in cases.iter().enumerate() {
        let before = report.lines.len();
        compare_case(case, &crates[number], &ours[number], &mut report)?;
        if report.lines.len() > before {
            report.differing_cases += 1;
            let smallest = report.smallest.map(|s| size(&cases[s]));
            if smallest.is_none_or(|s| size(case) < s) {
                report.smallest = Some(number);
            }
        }
    }
    Ok(report)
}

/// The words of a case's images.
pub fn size(case: &Case) -> usize {
    case.files.iter().map(|f| f.image.words.len()).sum()
}

fn check_names(cases: &[Case], answers: &[CaseAnswers], whose: &str) -> Result<(), String> {
    if cases.len() != answers.len() {
        return Err(format!(
            "there are {} cases, and {whose} are of {}",
            cases.len(),
            answers.len()
        ));
    }
    for (case, of) in cases.iter().zip(answers) {
        if case.name != of.name || case.files.len() != of.files.len() {
            return Err(format!(
                "{whose} have `{}` with {} files where the case is `{}` with {}",
                of.name,
                of.files.len(),
                case.name,
                case.files.len()
            ));
        }
    }
    Ok(())
}

/// The shelves of the two, as far as their numbers differ: a file that only one of them has taken moves all later ones.
#[derive(Default)]
struct Shelves {
    /// For each file on the crate's shelf, its number on ours.
    ours: Vec<Option<u32>>,
    our_files: u32,
    our_words: usize,
    our_bytes: usize,
    /// Whether ours has a file that the crate's has not, so that the two no longer miss the same imports.
    ours_has_more: bool,
}

fn compare_case(
    case: &Case,
    crates: &CaseAnswers,
    ours: &CaseAnswers,
    report: &mut Report,
) -> Result<(), String> {
    let mut shelves = Shelves::default();
    for (number, file) in case.files.iter().enumerate() {
        let (theirs, our) = (&crates.files[number], &ours.files[number]);
        let mut judge = Judge {
            file,
            theirs,
            our,
            shelves: &shelves,
            found: Vec::new(),
            words: 0,
        };
        judge
            .judge()
            .map_err(|e| format!("case {}, file {number}: {e}", case.name))?;
        report.files += 1;
        report.words += judge.words;
        report.lines.extend(
            judge
                .found
                .iter()
                .map(|f| format!("case {}, file {number}: {f}", case.name)),
        );
        match (theirs, our) {
            (Answer::Accepted(_), Answer::Accepted(_)) => report.both_accepted += 1,
            (Answer::Accepted(_), Answer::Refused(..)) => report.refused_by_us += 1,
            (Answer::Failed(_) | Answer::Panicked(_), Answer::Refused(..)) => {
                report.both_refused += 1
            }
            _ => {}
        }
        shelves.step(file, theirs, our);
    }
    Ok(())
}

impl Shelves {
    fn step(&mut self, file: &FileCase, theirs: &Answer, our: &Answer) {
        let mut number = None;
        if let Answer::Accepted(words) = our {
            self.ours_has_more |= !matches!(theirs, Answer::Accepted(_));
            number = Some(self.our_files);
            self.our_files += 1;
            self.our_words += file.image.words.len() + words.len();
            self.our_bytes += file.image.pool.len();
        }
        // The crate's answers keep a file off the shelf that is to be refused.
        if matches!(theirs, Answer::Accepted(_))
            && matches!(file.expect, Expect::Domain | Expect::Any)
        {
            self.ours.push(number);
        }
    }

    /// The crate's file word, with the number that the file has on our shelf; nothing for a file that we have not.
    fn file_word(&self, word: u32) -> Option<u32> {
        match word {
            0 => Some(0),
            _ => match self.ours.get(word as usize - 1) {
                Some(number) => number.map(|n| n + 1),
                None => Some(self.our_files + 1),
            },
        }
    }
}

/// The comparison of one file.
struct Judge<'a> {
    file: &'a FileCase,
    theirs: &'a Answer,
    our: &'a Answer,
    shelves: &'a Shelves,
    found: Vec<String>,
    /// How many words were compared.
    words: usize,
}

impl Judge<'_> {
    fn report(&mut self, what: String) {
        self.found.push(what);
    }

    fn judge(&mut self) -> Result<(), String> {
        if !matches!(self.our, Answer::Accepted(_) | Answer::Refused(..)) {
            return Err("our answer is neither `accepted` nor `refused`".to_owned());
        }
        match self.file.expect {
            Expect::Refused(n) => self.expected(n, None),
            Expect::RefusedAt(n, p) => self.expected(n, Some(p)),
            Expect::Domain | Expect::Any => {}
        }
        self.layout();
        match (self.theirs, self.our) {
            (Answer::Accepted(theirs), Answer::Accepted(our)) => self.compare_words(theirs, our)?,
            (Answer::Accepted(_), Answer::Refused(n, p)) => self.refused_by_us(*n, *p),
            (Answer::Failed(text), our) => self.failed(text, our),
            (Answer::Panicked(text), our) => self.panicked(text, our),
            (Answer::Skipped(reason), our) => self.skipped(reason, our),
            (Answer::Refused(..), _) => {
                return Err("the crate's answer is `refused`, which is for our own".to_owned())
            }
            (Answer::Accepted(_), _) => {}
        }
        Ok(())
    }

    fn expected(&mut self, number: u32, place: Option<u32>) {
        let wanted = place.map_or(format!("refusal {number}"), |p| {
            format!("refusal {number} at {p}")
        });
        let met = match self.our {
            Answer::Refused(n, p) => *n == number && place.is_none_or(|wanted| wanted == *p),
            _ => false,
        };
        if !met {
            self.report(format!("{wanted} is expected, ours is {}", say(self.our)));
        }
    }

    /// Refusal 3 is given exactly if the image breaks a layout rule; only a slice that is too long or a broken shelf comes before it.
    fn layout(&mut self) {
        let broken = Layout::of(&self.file.image).err();
        match (broken, self.our) {
            (None, Answer::Refused(3, _)) => {
                self.report("ours is refused with 3, and no layout rule is broken".to_owned())
            }
            (Some(_), Answer::Refused(1..=3, _)) | (None, _) => {}
            (Some(rule), our) => self.report(format!(
                "ours is {}, and the image breaks the layout ({rule})",
                say(our)
            )),
        }
    }

    fn is_domain(&self) -> bool {
        self.file.expect == Expect::Domain
    }

    fn is_expected_refusal(&self) -> bool {
        matches!(self.file.expect, Expect::Refused(_) | Expect::RefusedAt(..))
    }

    fn refused_by_us(&mut self, number: u32, place: u32) {
        let allowed = OUTSIDE.contains(&number) && !self.is_domain();
        if !allowed {
            self.report(format!(
                "the crate accepts, ours is refused with {number} at {place}"
            ));
        }
    }

    fn failed(&mut self, text: &str, our: &Answer) {
        let Answer::Refused(number, place) = our else {
            return self.report(format!("the crate fails ({text}), ours is accepted"));
        };
        if OUTSIDE.contains(number) && !self.is_domain() {
            return;
        }
        let ours = format!("the crate fails ({text}), ours is refused with {number} at {place}");
        match refusal_of(text) {
            Some((wanted, named)) if wanted == *number => {
                if let Some(wrong) = wrong_place(self.file, *number, *place, named) {
                    self.report(format!("{ours}, where {wrong}"));
                }
            }
            None if INSIDE.contains(number) => {}
            _ => self.report(ours),
        }
    }

    fn panicked(&mut self, text: &str, our: &Answer) {
        if self.is_domain() {
            self.report(format!(
                "unexplained: the crate panics ({text}) on a file that should be in the domain"
            ));
        } else if matches!(our, Answer::Accepted(_)) && !is_enum_passed_over(text) {
            self.report(format!("the crate panics ({text}), ours is accepted"));
        }
    }

    /// The crate was not asked. Why it was not still says something of what our linker must do.
    fn skipped(&mut self, reason: &str, our: &Answer) {
        let last = match reason.split_once(':') {
            Some(("text", _)) => 5,
            Some(("name", _)) if !self.shelves.ours.contains(&None) => 6,
            Some(("import", _)) if !self.shelves.ours_has_more => 7,
            // Refusals for the layout are looked at for every file, and two shelves that differ say nothing of names and imports.
            _ => return,
        };
        if self.is_expected_refusal() || matches!(our, Answer::Refused(n, _) if *n <= last) {
            return;
        }
        self.report(format!(
            "the crate was not asked ({reason}), ours is {}",
            say(our)
        ));
    }

    fn compare_words(&mut self, theirs: &[Option<u32>], our: &[Option<u32>]) -> Result<(), String> {
        let theirs = self.on_our_shelf(theirs)?;
        if theirs.len() != our.len() {
            self.report(format!(
                "the crate gives {} words, ours are {}",
                theirs.len(),
                our.len()
            ));
            return Ok(());
        }
        let counts = counts(&theirs)?;
        for (at, (wanted, given)) in theirs.iter().zip(our).enumerate() {
            let Some(wanted) = wanted else { continue };
            self.words += 1;
            if *given != Some(*wanted) {
                let given = given.map_or("-".to_owned(), |w| w.to_string());
                self.report(format!(
                    "{}: the crate gives {wanted}, ours is {given}",
                    name_of(at, counts)
                ));
            }
        }
        Ok(())
    }

    /// The crate's words as they have to be on our shelf, which may lack files that only the crate accepts.
    fn on_our_shelf(&self, theirs: &[Option<u32>]) -> Result<Vec<Option<u32>>, String> {
        let [messages, enums, oneofs, fields] = counts(theirs)?;
        let mut words = theirs.to_vec();
        let first = messages * MESSAGE_WORDS + enums * ENUM_WORDS + oneofs * ONEOF_WORDS;
        for row in 0..fields {
            for word in FILE_WORDS {
                let at = first + row * FIELD_WORDS + word;
                words[at] = words[at].and_then(|w| self.shelves.file_word(w));
            }
        }
        let record = words.len() - RECORD_WORDS;
        let small = |n: usize| u32::try_from(n).map_err(|_| format!("{n} is too much for a word"));
        words[record] = Some(small(self.shelves.our_words)?);
        words[record + 2] = Some(small(self.shelves.our_bytes)?);
        Ok(words)
    }
}

/// The counts of messages, enums, oneofs and fields, which must fill the words exactly.
fn counts(words: &[Option<u32>]) -> Result<[usize; 4], String> {
    let wrong = || "the crate's words have no counts that they fit".to_owned();
    let Some(last) = words.len().checked_sub(4) else {
        return Err(wrong());
    };
    let mut counts = [0; 4];
    for (i, word) in words[last..].iter().enumerate() {
        counts[i] = word.ok_or_else(wrong)? as usize;
    }
    let [messages, enums, oneofs, fields] = counts;
    let rows =
        messages * MESSAGE_WORDS + enums * ENUM_WORDS + oneofs * ONEOF_WORDS + fields * FIELD_WORDS;
    if rows + RECORD_WORDS != words.len() {
        return Err(wrong());
    }
    Ok(counts)
}

/// The link words row by row, each with its names.
pub fn named_rows(words: &[Option<u32>]) -> Result<Vec<String>, String> {
    let counts = counts(words)?;
    let mut rows: Vec<String> = Vec::new();
    for (at, word) in words.iter().enumerate() {
        let (row, number, name) = place_of(at, counts);
        let word = word.map_or("-".to_owned(), |w| w.to_string());
        match rows.last_mut() {
            Some(line) if number > 0 => line.push_str(&format!(", {name} {word}")),
            _ => rows.push(format!("{row}: {name} {word}")),
        }
    }
    Ok(rows)
}

/// The row and word that a place among the link words is, by name.
fn name_of(at: usize, counts: [usize; 4]) -> String {
    let (row, number, name) = place_of(at, counts);
    format!("{row} word {number} ({name})")
}

/// The row, the number of the word in it, and the word's name.
fn place_of(at: usize, counts: [usize; 4]) -> (String, usize, &'static str) {
    let tables: [(&str, &[&'static str]); 4] = [
        ("message", &MESSAGE),
        ("enum", &ENUM),
        ("oneof", &ONEOF),
        ("field", &FIELD),
    ];
    let mut at = at;
    for ((table, names), count) in tables.into_iter().zip(counts) {
        if at < count * names.len() {
            let (row, number) = (at / names.len(), at % names.len());
            return (format!("{table} row {row}"), number, names[number]);
        }
        at -= count * names.len();
    }
    let name = RECORD.get(at).unwrap_or(&"past the end");
    ("last words".to_owned(), at, name)
}

fn say(answer: &Answer) -> String {
    match answer {
        Answer::Accepted(_) => "accepted".to_owned(),
        Answer::Refused(n, p) => format!("refused with {n} at {p}"),
        Answer::Failed(_) | Answer::Panicked(_) | Answer::Skipped(_) => {
            "no answer of a linker".to_owned()
        }
    }
}

/// Whether the panic is that of an enum default whose type name first meets a message, or goes on beneath an enum. Our linker passes over both,
/// as it does without a default, and may find the enum in another file.
fn is_enum_passed_over(text: &str) -> bool {
    text == "enum has no children" || text.starts_with("not an enum: ")
}

/// The refusal that an error of the crate stands for, and what the error names.
fn refusal_of(text: &str) -> Option<(u32, &str)> {
    if text.starts_with("Map entry message name must end with") {
        return Some((9, ""));
    }
    if text.starts_with("Map entry message must have no extensions") {
        return Some((10, ""));
    }
    if text.starts_with("Map entry message must have two optional fields") {
        return Some((11, ""));
    }
    if let Some(field) = text.strip_prefix("Could not parse default value for field ") {
        return Some((12, field));
    }
    if let Some((name, _)) = text
        .strip_prefix("Message `")
        .and_then(|t| t.split_once("` not found in files"))
    {
        return Some((15, name));
    }
    let field = text
        .strip_prefix("Non-unique field name: `")?
        .strip_suffix('`')?;
    Some((17, field))
}

/// What is at the place of a refusal, if it is not what the crate's error names. For 9 to 11 the error names nothing.
fn wrong_place(file: &FileCase, number: u32, place: u32, named: &str) -> Option<String> {
    if !matches!(number, 12 | 15 | 17) {
        return None;
    }
    let layout = Layout::of(&file.image).ok()?;
    let Some(&row) = layout.flat_rows().fields.get(place as usize) else {
        return Some("no field is".to_owned());
    };
    let field = layout.field(row).ok()?;
    let fits = match number {
        // The type of a map's key or value stands in the entry, which may be in another file.
        15 => {
            named == field.type_name()
                || named == field.extendee()
                || field.label() == Label::LABEL_REPEATED
        }
        _ => named == field.name(),
    };
    (!fits).then(|| format!("the field `{}` is", field.name()))
}

#[cfg(test)]
mod test {
    use super::*;
    use crate::image::encode;

    const FIRST: &str = r#"name: "f" message_type { name: "A" }"#;
    const SECOND: &str = r#"
        name: "g" dependency: "f"
        message_type { name: "B" field { name: "a" number: 1 type: TYPE_MESSAGE type_name: ".A" } }"#;

    fn file(text: &str, expect: Expect) -> FileCase {
        let descriptor = protobuf::text_format::parse_from_str(text).unwrap();
        FileCase {
            image: encode(&descriptor).unwrap(),
            expect,
        }
    }

    fn case(files: Vec<FileCase>) -> Case {
        Case {
            name: "t".to_owned(),
            files,
        }
    }

    fn answers(files: Vec<Answer>) -> Vec<CaseAnswers> {
        vec![CaseAnswers {
            name: "t".to_owned(),
            files,
        }]
    }

    /// The lines for these answers of ours to the case.
    fn lines(case: Case, ours: Vec<Answer>) -> Vec<String> {
        let cases = [case];
        let (crates, _) = crate::answers::answer_all(&cases).unwrap();
        compare(&cases, &crates, &answers(ours)).unwrap().lines
    }

    /// What the crate says of the case.
    fn crate_says(case: &Case) -> Vec<Answer> {
        crate::answers::answer_all(std::slice::from_ref(case))
            .unwrap()
            .0
            .remove(0)
            .files
    }

    fn change(answer: &mut Answer, at: usize, value: u32) {
        if let Answer::Accepted(words) = answer {
            words[at] = Some(value);
        }
    }

    #[test]
    fn equal_answers_are_no_difference() {
        let case = case(vec![
            file(FIRST, Expect::Domain),
            file(SECOND, Expect::Domain),
        ]);
        let ours = crate_says(&case);
        assert_eq!(lines(case, ours), Vec::<String>::new());
    }

    #[test]
    fn a_wrong_word_is_named() {
        let case = case(vec![
            file(FIRST, Expect::Domain),
            file(SECOND, Expect::Domain),
        ]);
        let mut ours = crate_says(&case);
        change(&mut ours[0], 8, 0);
        change(&mut ours[1], 10 + 7, 2);
        change(&mut ours[1], 10 + 16 + 2, 9);
        let wanted = [
            "case t, file 0: message row 0 word 8 (always initialised): the crate gives 1, ours is 0",
            "case t, file 1: field row 0 word 7 (file): the crate gives 1, ours is 2",
            "case t, file 1: last words word 2 (pool start): the crate gives 2, ours is 9",
        ];
        assert_eq!(lines(case, ours), wanted);
    }

    #[test]
    fn an_undecided_word_may_be_anything() {
        let text = r#"name: "f" message_type { name: "A" extension_range { start: 1 end: 2 } }"#;
        let case = case(vec![file(text, Expect::Domain)]);
        let mut ours = crate_says(&case);
        change(&mut ours[0], 9, 77);
        assert_eq!(lines(case, ours), Vec::<String>::new());
    }

    #[test]
    fn only_outside_the_domain_may_ours_alone_refuse() {
        let refused = |number, expect| {
            lines(
                case(vec![file(FIRST, expect)]),
                vec![Answer::Refused(number, 0)],
            )
            .len()
        };
        assert_eq!(refused(5, Expect::Any), 0);
        assert_eq!(refused(5, Expect::Domain), 1);
        assert_eq!(refused(9, Expect::Any), 1);
        assert_eq!(refused(4, Expect::Refused(4)), 0);
        assert_eq!(refused(5, Expect::Refused(4)), 1);
        assert_eq!(refused(4, Expect::RefusedAt(4, 1)), 1);
        // No layout rule is broken.
        assert_eq!(refused(3, Expect::Any), 1);
    }

    #[test]
    fn a_file_that_only_the_crate_accepts_moves_no_numbers() {
        let other = r#"name: "e" message_type { name: "E" }"#;
        let all = case(vec![
            file(other, Expect::Any),
            file(FIRST, Expect::Domain),
            file(SECOND, Expect::Domain),
        ]);
        let without = case(all.files[1..].to_vec());
        let mut ours = vec![Answer::Refused(5, 0)];
        ours.extend(crate_says(&without));
        assert_eq!(lines(all, ours), Vec::<String>::new());
    }

    #[test]
    fn an_error_of_the_crate_has_one_number_and_a_place() {
        let text = r#"name: "f" message_type { name: "A" field { name: "a" number: 1 type: TYPE_INT32 } field { name: "b" number: 1 type: TYPE_INT32 } }"#;
        let refused = |number, place| {
            lines(
                case(vec![file(text, Expect::Domain)]),
                vec![Answer::Refused(number, place)],
            )
        };
        assert_eq!(refused(17, 1), Vec::<String>::new());
        assert_eq!(refused(17, 0).len(), 1);
        assert_eq!(refused(17, 2).len(), 1);
        assert_eq!(refused(15, 1).len(), 1);
        let accepted = lines(
            case(vec![file(text, Expect::Domain)]),
            vec![Answer::Accepted(vec![])],
        );
        assert_eq!(
            accepted,
            ["case t, file 0: the crate fails (Non-unique field name: `b`), ours is accepted"]
        );
    }

    #[test]
    fn a_panic_is_unexplained_in_the_domain() {
        let text = r#"name: "f" extension { name: "a" number: 1 type: TYPE_INT32 }"#;
        let refused =
            |expect| lines(case(vec![file(text, expect)]), vec![Answer::Refused(14, 0)]).len();
        assert_eq!(refused(Expect::RefusedAt(14, 0)), 0);
        assert_eq!(refused(Expect::Domain), 1);
    }

    #[test]
    fn an_enum_default_behind_an_enum_may_be_accepted() {
        let there =
            r#"name: "f" package: "E" enum_type { name: "F" value { name: "V" number: 0 } }"#;
        let here = r#"
            name: "g" dependency: "f" enum_type { name: "E" value { name: "W" number: 0 } }
            message_type {
              name: "A" field { name: "a" number: 1 type: TYPE_ENUM type_name: ".E.F" default_value: "V" }
            }"#;
        let later = r#"name: "h" dependency: "g""#;
        let all = case(vec![
            file(there, Expect::Domain),
            file(here, Expect::Any),
            file(later, Expect::Domain),
        ]);
        let says = crate_says(&all);
        assert_eq!(says[1], Answer::Panicked("enum has no children".to_owned()));
        let accepted = Answer::Accepted(vec![]);
        let ours = vec![says[0].clone(), accepted.clone(), accepted];
        assert_eq!(lines(all, ours), Vec::<String>::new());
    }

    #[test]
    fn a_broken_layout_is_refused_with_3() {
        let mut broken = file(FIRST, Expect::Any);
        broken.image.words.push(0);
        assert_eq!(
            lines(case(vec![broken.clone()]), vec![Answer::Refused(3, 0)]),
            Vec::<String>::new()
        );
        assert_eq!(
            lines(case(vec![broken]), vec![Answer::Refused(5, 0)]).len(),
            1
        );
    }

    #[test]
    fn answers_of_other_cases_are_an_error() {
        let cases = [case(vec![file(FIRST, Expect::Domain)])];
        let none = answers(vec![]);
        assert!(compare(&cases, &none, &none).is_err());
        assert!(compare(&cases, &[], &[]).is_err());
        let two = [
            case(vec![file(FIRST, Expect::Any)]),
            case(vec![file(SECOND, Expect::Any)]),
        ];
        let each = [
            answers(vec![Answer::Refused(1, 0)]),
            answers(vec![Answer::Refused(1, 0)]),
        ]
        .concat();
        assert!(compare(&two, &each, &each).is_err());
    }

    #[test]
    fn the_smallest_differing_case_is_kept() {
        let cases = [
            case(vec![
                file(FIRST, Expect::Domain),
                file(SECOND, Expect::Domain),
            ]),
            case(vec![file(FIRST, Expect::Domain)]),
            case(vec![file(r#"name: "f""#, Expect::Domain)]),
        ];
        let (crates, _) = crate::answers::answer_all(&cases).unwrap();
        let mut ours = crates.clone();
        ours[0].files[0] = Answer::Refused(4, 0);
        ours[1].files[0] = Answer::Refused(4, 0);
        let report = compare(&cases, &crates, &ours).unwrap();
        assert_eq!((report.smallest, report.differing_cases), (Some(1), 2));
    }
}
