//! Damaged shelves: one word, byte or number of a good one is changed. Our linker's check must say what the rules say of it, linking and lookups
//! must be refused exactly where the check refuses, and nothing may change by a refusal.

use crate::case::{Answer, Case, Image};
use crate::domain::{MOST_SHELF_BYTES, MOST_SHELF_WORDS};
use crate::formed;
use crate::ours::{Found, Lent, Shelf, Used, NOTHING};
use crate::rng::Rng;

/// So many changes are tried on each shelf.
const CHANGES: usize = 20;
/// The shelf's buffers are this much longer than what is used.
const SPARE: usize = 2_000;
const ODD_WORDS: [u32; 8] = [0, 1, 2, 3, 10, 14, 0x7fff_ffff, 0xffff_ffff];
const BYTES: &[u8] = b"aZ_09.-/ ~\x00\x1f\x7f\x80\xff";

/// How many damaged shelves were tried, how many of them are still well formed, and which answers are wrong.
#[derive(Default)]
pub struct Total {
    shelves: usize,
    damaged: usize,
    well_formed: usize,
    links: usize,
    second_links: usize,
    lookups: usize,
    pub lines: Vec<String>,
}

impl Total {
    pub fn summary(&self) -> String {
        format!(
            "{} shelves with {} changes, {} of them still well formed; {} links, {} second links after a refusal, {} lookups; {} differences",
            self.shelves,
            self.damaged,
            self.well_formed,
            self.links,
            self.second_links,
            self.lookups,
            self.lines.len()
        )
    }

    /// Damages the shelf of each case. The seed says how.
    pub fn run(&mut self, cases: &[Case], seed: u64) {
        for case in cases {
            let mut rng = Rng::new(!seed ^ self.shelves as u64);
            if let Err(wrong) = self.spoil_case(case, &mut rng) {
                self.lines.push(format!("case {}: {wrong}", case.name));
            }
        }
    }

    /// The shelf of all accepted files but the last, which is then linked onto what damage leaves.
    fn spoil_case(&mut self, case: &Case, rng: &mut Rng) -> Result<(), String> {
        let (last, before) = case.files.split_last().ok_or("it has no files")?;
        let words: usize = before.iter().map(|f| 3 * f.image.words.len()).sum();
        let bytes: usize = case.files.iter().map(|f| f.image.pool.len()).sum();
        let room = 3 * last.image.words.len() + words + SPARE;
        let mut good = Shelf::new(
            room.min(MOST_SHELF_WORDS),
            (bytes + SPARE).min(MOST_SHELF_BYTES),
        );
        for f in before {
            good.link(&f.image)?;
        }
        if good.used.files == 0 {
            return Ok(());
        }
        self.shelves += 1;
        let mut linked = good.clone();
        let wanted = linked.link(&last.image)?;
        for _ in 0..CHANGES {
            let mut spoilt = good.clone();
            let change = Change::make(&mut spoilt, rng);
            let wrong = |e| format!("{change:?}: {e}");
            self.judge(&spoilt).map_err(wrong)?;
            if self.refuses(&mut spoilt, &last.image).map_err(wrong)? {
                // With the change undone, a second link goes as if the refused one had not been.
                change.undo(&mut spoilt);
                self.second_links += 1;
                if spoilt != good || spoilt.link(&last.image)? != wanted || spoilt != linked {
                    return Err(wrong("a second link goes otherwise".to_owned()));
                }
            }
        }
        Ok(())
    }

    /// The check, and lookups that begin with it.
    fn judge(&mut self, shelf: &Shelf) -> Result<(), String> {
        self.damaged += 1;
        let (given, wanted) = (shelf.well_formed(), formed::judge(shelf));
        self.well_formed += (wanted == 0) as usize;
        if given != wanted {
            return Err(format!("the check answers {given}, and the rules {wanted}"));
        }
        let before = shelf.clone();
        let mut out = Lent::<u8>::new(512);
        let lookups: [Found; 8] = [
            shelf.message(0, b".A"),
            shelf.enumeration(0, b".foo.B"),
            shelf.value_by_number(0, 0, 0),
            shelf.value_by_name(0, 0, b"ONE"),
            shelf.field_by_number(0, 0, 1),
            shelf.field_by_name(0, 0, 2, b"a"),
            shelf.message_name(0, 0, &mut out),
            shelf.enum_name(0, 0, &mut out),
        ];
        self.lookups += lookups.len();
        let refused = lookups.iter().all(|found| *found == (wanted, 0));
        let answered = lookups.iter().all(|(a, _)| [0, NOTHING].contains(a));
        if *shelf != before || !out.guards_stand() {
            return Err("a lookup has changed something".to_owned());
        }
        if wanted != 0 && (!refused || out != Lent::new(512)) || wanted == 0 && !answered {
            return Err(format!(
                "the shelf is judged {wanted}, lookups are {lookups:?}"
            ));
        }
        Ok(())
    }

    /// Is linking refused for the shelf's sake? It must be exactly where the check refuses, and leave a well-formed shelf elsewhere.
    fn refuses(&mut self, shelf: &mut Shelf, image: &Image) -> Result<bool, String> {
        self.links += 1;
        let wanted = shelf.well_formed();
        let answer = shelf.link(image)?;
        let refused = matches!(answer, Answer::Refused(1 | 2, 0));
        let fits = match wanted {
            0 => !refused && shelf.well_formed() == 0,
            number => answer == Answer::Refused(number, 0),
        };
        if fits {
            return Ok(refused);
        }
        Err(format!(
            "the shelf is judged {wanted}, linking is {answer:?}"
        ))
    }
}

/// One word, byte or number of a shelf that was changed, with what stood there before.
#[derive(Debug)]
enum Change {
    Word { at: usize, before: u32 },
    Byte { at: usize, before: u8 },
    Numbers { before: Used },
}

impl Change {
    fn make(shelf: &mut Shelf, rng: &mut Rng) -> Change {
        let before = shelf.used;
        match rng.below(10) {
            0..=6 => {
                let at = rng.below(before.words as usize);
                let word = &mut shelf.words.slice_mut()[at];
                let before = std::mem::replace(word, other(*word, rng));
                Change::Word { at, before }
            }
            7 | 8 => {
                let at = rng.below(before.bytes as usize);
                let byte = &mut shelf.bytes.slice_mut()[at];
                let before = std::mem::replace(byte, *rng.pick(BYTES));
                Change::Byte { at, before }
            }
            _ => {
                let number = match rng.below(3) {
                    0 => &mut shelf.used.words,
                    1 => &mut shelf.used.bytes,
                    _ => &mut shelf.used.files,
                };
                *number = other(*number, rng);
                Change::Numbers { before }
            }
        }
    }

    fn undo(&self, shelf: &mut Shelf) {
        match *self {
            Change::Word { at, before } => shelf.words.slice_mut()[at] = before,
            Change::Byte { at, before } => shelf.bytes.slice_mut()[at] = before,
            Change::Numbers { before } => shelf.used = before,
        }
    }
}

/// A word near the one that stands there, or an odd one.
fn other(word: u32, rng: &mut Rng) -> u32 {
    match rng.below(5) {
        0 => word.wrapping_add(1),
        1 => word.wrapping_sub(1),
        2 => *rng.pick(&ODD_WORDS),
        3 => rng.below(16) as u32,
        _ => rng.next() as u32,
    }
}

#[cfg(test)]
mod test {
    use super::*;
    use crate::random;

    #[test]
    fn damaged_shelves_are_judged_as_the_rules_say() {
        let mut total = Total::default();
        total.run(&random::cases(1, 40), 1);
        assert_eq!(total.lines, Vec::<String>::new());
        assert!(total.well_formed > 0 && total.second_links > 0);
    }
}
