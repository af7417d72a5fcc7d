//! A case for people to read: what its images hold, and what the crate answers.

use std::fmt::Write;

use crate::answers::answer_all;
use crate::case::{Answer, Case};
use crate::compare::named_rows;
use crate::image::decode;

pub fn show(case: &Case) -> Result<String, String> {
    let (answers, _) = answer_all(std::slice::from_ref(case))?;
    let mut out = String::new();
    let answers = answers.iter().flat_map(|a| &a.files);
    for (number, (file, answer)) in case.files.iter().zip(answers).enumerate() {
        let image = &file.image;
        let (words, bytes) = (image.words.len(), image.pool.len());
        line(
            &mut out,
            &format!(
                "file {number}: {words} words, {bytes} bytes, expected: {:?}",
                file.expect
            ),
        );
        match decode(image) {
            Ok(descriptor) => {
                out.push_str(&protobuf::text_format::print_to_string_pretty(&descriptor))
            }
            Err(why) => line(&mut out, &why),
        }
        show_answer(&mut out, answer)?;
    }
    Ok(out)
}

fn show_answer(out: &mut String, answer: &Answer) -> Result<(), String> {
    match answer {
        Answer::Accepted(words) => {
            line(out, "the crate accepts:");
            for row in named_rows(words)? {
                line(out, &format!("  {row}"));
            }
        }
        Answer::Failed(text) => line(out, &format!("the crate fails: {text}")),
        Answer::Panicked(text) => line(out, &format!("the crate panics: {text}")),
        Answer::Skipped(text) => line(out, &format!("the crate is not asked: {text}")),
        Answer::Refused(n, p) => line(out, &format!("refused with {n} at {p}")),
    }
    Ok(())
}

fn line(out: &mut String, text: &str) {
    // Writing into a string cannot fail.
    let _ = writeln!(out, "{text}");
}
