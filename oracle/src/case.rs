//! Cases: one or more files that are linked one after the other onto an empty shelf, each as words and a pool, with what is expected of it.
//!
//! The text format is plain, so that a program with no library can read it: tokens with white space between them, `#` starts a comment that
//! runs to the end of its line. oracle/FORMAT.md describes it.

use std::fmt::Write as _;

/// A file image: what is lent to the linker.
#[derive(Clone, Debug, PartialEq, Eq, Default)]
pub struct Image {
    pub words: Vec<u32>,
    pub pool: Vec<u8>,
}

/// What the maker of a case knows of one of its files.
#[derive(Clone, Copy, Debug, PartialEq, Eq)]
pub enum Expect {
    /// It draws none of 1 to 8, 13, 14, 16 and 18: the crate decides whether it is accepted.
    Domain,
    /// It is refused with that number.
    Refused(u32),
    /// It is refused with that number and place.
    RefusedAt(u32, u32),
    /// Nothing is known: the file was damaged on purpose.
    Any,
}

#[derive(Clone, Debug, PartialEq, Eq)]
pub struct FileCase {
    pub image: Image,
    pub expect: Expect,
}

#[derive(Clone, Debug, PartialEq, Eq)]
pub struct Case {
    /// One word, which says where the case is from.
    pub name: String,
    pub files: Vec<FileCase>,
}

/// What a linker answered for one file.
#[derive(Clone, Debug, PartialEq, Eq)]
pub enum Answer {
    /// Accepted: the link rows and the 8 last words, `None` for a word that the answerer does not decide.
    Accepted(Vec<Option<u32>>),
    /// Refused with number and place; 0 for a number or a place that the answerer does not decide.
    Refused(u32, u32),
    /// The crate gave an error; its text.
    Failed(String),
    /// The crate panicked; its text.
    Panicked(String),
    /// Not asked: an earlier file of the case that it imports was not accepted, or the image has no reading.
    Skipped(String),
}

pub fn write_cases(cases: &[Case]) -> String {
    let mut out = String::new();
    for case in cases {
        writeln!(out, "case {} {}", case.name, case.files.len()).unwrap();
        for f in &case.files {
            let expect = match f.expect {
                Expect::Domain => "domain".to_owned(),
                Expect::Refused(n) => format!("refused {n}"),
                Expect::RefusedAt(n, p) => format!("refused-at {n} {p}"),
                Expect::Any => "any".to_owned(),
            };
            writeln!(
                out,
                "file {} {} {}",
                f.image.words.len(),
                f.image.pool.len(),
                expect
            )
            .unwrap();
            numbers(&mut out, f.image.words.iter().map(|w| w.to_string()));
            numbers(&mut out, f.image.pool.iter().map(|b| b.to_string()));
        }
    }
    out
}

/// Numbers, sixteen to a line.
fn numbers(out: &mut String, items: impl Iterator<Item = String>) {
    let items: Vec<String> = items.collect();
    for line in items.chunks(16) {
        writeln!(out, "{}", line.join(" ")).unwrap();
    }
}

/// The answers of the files of a case, under its name.
#[derive(Clone, Debug, PartialEq, Eq)]
pub struct CaseAnswers {
    pub name: String,
    pub files: Vec<Answer>,
}

pub fn write_answers(all: &[CaseAnswers]) -> String {
    let mut out = String::new();
    for case in all {
        writeln!(out, "case {} {}", case.name, case.files.len()).unwrap();
        for a in &case.files {
            match a {
                Answer::Accepted(words) => {
                    writeln!(out, "accepted {}", words.len()).unwrap();
                    numbers(
                        &mut out,
                        words
                            .iter()
                            .map(|w| w.map_or("-".to_owned(), |w| w.to_string())),
                    );
                }
                Answer::Refused(n, p) => writeln!(out, "refused {n} {p}").unwrap(),
                Answer::Failed(text) => writeln!(out, "failed # {}", one_line(text)).unwrap(),
                Answer::Panicked(text) => writeln!(out, "panicked # {}", one_line(text)).unwrap(),
                Answer::Skipped(text) => writeln!(out, "skipped # {}", one_line(text)).unwrap(),
            }
        }
    }
    out
}

fn one_line(text: &str) -> String {
    text.chars()
        .map(|c| if c.is_control() { ' ' } else { c })
        .collect()
}

/// A reader of tokens that keeps the comment of the line it is on.
pub struct Tokens<'a> {
    lines: std::iter::Enumerate<std::str::Lines<'a>>,
    number: usize,
    rest: std::str::SplitWhitespace<'a>,
    comment: &'a str,
}

impl<'a> Tokens<'a> {
    pub fn new(text: &'a str) -> Self {
        Tokens {
            lines: text.lines().enumerate(),
            number: 0,
            rest: "".split_whitespace(),
            comment: "",
        }
    }

    pub fn next(&mut self) -> Option<&'a str> {
        loop {
            if let Some(t) = self.rest.next() {
                return Some(t);
            }
            let (n, line) = self.lines.next()?;
            self.number = n + 1;
            let (tokens, comment) = line.split_once('#').unwrap_or((line, ""));
            self.rest = tokens.split_whitespace();
            self.comment = comment.trim();
        }
    }

    fn wrong(&self, what: &str) -> String {
        format!("line {}: {what}", self.number)
    }

    fn word(&mut self) -> Result<&'a str, String> {
        self.next()
            .ok_or_else(|| "the text ends too early".to_owned())
    }

    fn number<T: std::str::FromStr>(&mut self) -> Result<T, String> {
        let t = self.word()?;
        t.parse()
            .map_err(|_| self.wrong(&format!("`{t}` is no number that fits")))
    }
}

/// The cases of a text, each with what `read` makes of its files or answers.
fn read_all<T, R>(
    text: &str,
    read: impl Fn(&mut Tokens) -> Result<T, String>,
    make: impl Fn(String, Vec<T>) -> R,
) -> Result<Vec<R>, String> {
    let mut t = Tokens::new(text);
    let mut all = Vec::new();
    while let Some(head) = t.next() {
        if head != "case" {
            return Err(t.wrong(&format!("`case` is wanted, not `{head}`")));
        }
        let name = t.word()?.to_owned();
        let count: usize = t.number()?;
        let mut files = Vec::new();
        for _ in 0..count {
            files.push(read(&mut t)?);
        }
        all.push(make(name, files));
    }
    Ok(all)
}

pub fn read_cases(text: &str) -> Result<Vec<Case>, String> {
    read_all(text, read_file, |name, files| Case { name, files })
}

fn read_file(t: &mut Tokens) -> Result<FileCase, String> {
    let head = t.word()?;
    if head != "file" {
        return Err(t.wrong(&format!("`file` is wanted, not `{head}`")));
    }
    let (words, pool): (usize, usize) = (t.number()?, t.number()?);
    let expect = match t.word()? {
        "domain" => Expect::Domain,
        "refused" => Expect::Refused(t.number()?),
        "refused-at" => Expect::RefusedAt(t.number()?, t.number()?),
        "any" => Expect::Any,
        other => return Err(t.wrong(&format!("`{other}` is no expectation"))),
    };
    let mut image = Image::default();
    for _ in 0..words {
        image.words.push(t.number()?);
    }
    for _ in 0..pool {
        image.pool.push(t.number()?);
    }
    Ok(FileCase { image, expect })
}

pub fn read_answers(text: &str) -> Result<Vec<CaseAnswers>, String> {
    read_all(text, read_answer, |name, files| CaseAnswers { name, files })
}

fn read_answer(t: &mut Tokens) -> Result<Answer, String> {
    Ok(match t.word()? {
        "accepted" => {
            let n: usize = t.number()?;
            let mut words = Vec::new();
            for _ in 0..n {
                let w = t.word()?;
                words.push(if w == "-" {
                    None
                } else {
                    Some(
                        w.parse()
                            .map_err(|_| t.wrong(&format!("`{w}` is no word")))?,
                    )
                });
            }
            Answer::Accepted(words)
        }
        "refused" => Answer::Refused(t.number()?, t.number()?),
        "failed" => Answer::Failed(t.comment.to_owned()),
        "panicked" => Answer::Panicked(t.comment.to_owned()),
        "skipped" => Answer::Skipped(t.comment.to_owned()),
        other => return Err(t.wrong(&format!("`{other}` is no answer"))),
    })
}

#[cfg(test)]
mod test {
    use super::*;

    #[test]
    fn what_is_written_is_read() {
        let image = Image {
            words: (0..40).collect(),
            pool: b"fA".to_vec(),
        };
        let file = |expect| FileCase {
            image: image.clone(),
            expect,
        };
        let cases = vec![Case {
            name: "a".into(),
            files: vec![
                file(Expect::Domain),
                file(Expect::RefusedAt(9, 2)),
                file(Expect::Any),
            ],
        }];
        assert_eq!(read_cases(&write_cases(&cases)), Ok(cases));
        let answers = vec![CaseAnswers {
            name: "a".into(),
            files: vec![
                Answer::Accepted(vec![Some(1), None]),
                Answer::Refused(4, 0),
                Answer::Failed("no such thing".into()),
            ],
        }];
        assert_eq!(read_answers(&write_answers(&answers)), Ok(answers));
    }

    #[test]
    fn a_wrong_token_is_named_with_its_line() {
        assert_eq!(
            read_cases("case a 1\nfile 1 0 domain\nx"),
            Err("line 3: `x` is no number that fits".to_owned())
        );
    }
}
