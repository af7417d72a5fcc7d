//! Images with a word or a byte changed, and with larger damage: nothing is expected of them but that a linker answers.

use crate::case::{Case, Expect, Image};
use crate::random;
use crate::rng::Rng;

/// Words in a row of each section.
const WIDTHS: [usize; 6] = [3, 14, 4, 3, 2, 16];
const TRAILER: usize = 24;
/// Where in the trailer the sections' starts and counts stand.
const SECTIONS: usize = 6;
const ODD_WORDS: [u32; 9] = [0, 1, 2, 3, 17, 19, 0x7fff_ffff, 0x8000_0000, 0xffff_ffff];

/// Each case is a random one of which one file, mostly the last, is damaged.
pub fn cases(seed_from: u64, count: usize) -> Vec<Case> {
    (0..count as u64)
        .map(|i| case(seed_from.wrapping_add(i)))
        .collect()
}

fn case(seed: u64) -> Case {
    let mut case = random::cases(seed, 1).remove(0);
    // Not the numbers that the random case was made of.
    let mut rng = Rng::new(!seed);
    let last = case.files.len() - 1;
    let damaged = if rng.one_in(4) {
        rng.below(case.files.len())
    } else {
        last
    };
    let (image, what) = damage(&case.files[damaged].image, &mut rng);
    case.files[damaged].image = image;
    // What imports a damaged file is refused if that one is.
    for f in &mut case.files[damaged..] {
        f.expect = Expect::Any;
    }
    case.name = format!("damage-{seed}-{what}");
    case.files.truncate(damaged + 3);
    case
}

fn damage(image: &Image, rng: &mut Rng) -> (Image, &'static str) {
    let mut image = image.clone();
    let what = match rng.below(12) {
        0..=3 => change_word(&mut image, rng),
        4 | 5 => change_byte(&mut image, rng),
        6 => change_trailer(&mut image, rng),
        7 => huge_count(&mut image, rng),
        8 => text_past_pool(&mut image, rng),
        9 => move_range(&mut image, rng),
        10 => swap_sections(&mut image, rng),
        _ => change_length(&mut image, rng),
    };
    (image, what)
}

/// A word near the one that stands there, or an odd one.
fn other_word(word: u32, rng: &mut Rng) -> u32 {
    match rng.below(4) {
        0 => word.wrapping_add(1),
        1 => word.wrapping_sub(1),
        2 => *rng.pick(&ODD_WORDS),
        _ => rng.below(64) as u32,
    }
}

fn change_word(image: &mut Image, rng: &mut Rng) -> &'static str {
    let at = rng.below(image.words.len());
    image.words[at] = other_word(image.words[at], rng);
    "word"
}

fn change_byte(image: &mut Image, rng: &mut Rng) -> &'static str {
    let at = rng.below(image.pool.len());
    image.pool[at] = *rng.pick(b"aZ_09.-/ ~\x00\x1f\x7f\x80\xff");
    "byte"
}

fn trailer(image: &Image) -> usize {
    image.words.len() - TRAILER
}

fn change_trailer(image: &mut Image, rng: &mut Rng) -> &'static str {
    let at = trailer(image) + rng.below(TRAILER);
    image.words[at] = other_word(image.words[at], rng);
    "trailer"
}

fn huge_count(image: &mut Image, rng: &mut Rng) -> &'static str {
    let at = trailer(image) + SECTIONS + 2 * rng.below(6) + rng.below(2);
    image.words[at] = u32::MAX;
    "huge"
}

/// The first word of every row but none of a trailer is the start of a text, and the second its length.
fn text_past_pool(image: &mut Image, rng: &mut Rng) -> &'static str {
    if let Some(row) = a_row(image, rng, &[0, 1, 2, 3, 4, 5]) {
        let past = image.pool.len() as u32;
        let word = row + rng.below(2);
        image.words[word] = *rng.pick(&[past, past + 1, u32::MAX]);
    }
    "text"
}

/// The first row or the count of a message's or an enum's range: rows then have two owners, or none.
fn move_range(image: &mut Image, rng: &mut Rng) -> &'static str {
    let ranges = if rng.one_in(3) {
        a_row(image, rng, &[2]).map(|row| row + 2)
    } else {
        let range = 2 * rng.below(5);
        a_row(image, rng, &[1]).map(|row| row + 2 + range)
    };
    if let Some(at) = ranges {
        let word = at + rng.below(2);
        image.words[word] = other_word(image.words[word], rng);
    }
    "owner"
}

fn section(image: &Image, number: usize) -> (usize, usize) {
    let at = trailer(image) + SECTIONS + 2 * number;
    (image.words[at] as usize, image.words[at + 1] as usize)
}

/// Where a row of one of the sections starts, if they have any.
fn a_row(image: &Image, rng: &mut Rng, sections: &[usize]) -> Option<usize> {
    let starts: Vec<usize> = sections
        .iter()
        .flat_map(|&number| {
            let (start, count) = section(image, number);
            (0..count).map(move |row| start + row * WIDTHS[number])
        })
        .collect();
    (!starts.is_empty()).then(|| *rng.pick(&starts))
}

/// Two sections' starts and counts change places in the trailer.
fn swap_sections(image: &mut Image, rng: &mut Rng) -> &'static str {
    let (a, b) = (rng.below(6), rng.below(6));
    let at = trailer(image) + SECTIONS;
    for word in 0..2 {
        image.words.swap(at + 2 * a + word, at + 2 * b + word);
    }
    "sections"
}

/// Words or bytes that are not there, or too many.
fn change_length(image: &mut Image, rng: &mut Rng) -> &'static str {
    match rng.below(5) {
        0 => image.words.truncate(rng.below(image.words.len())),
        1 => image.words.push(rng.below(3) as u32),
        2 => image.pool.truncate(rng.below(image.pool.len())),
        3 => image.pool.push(b'x'),
        _ => {
            image.words.remove(0);
        }
    }
    "length"
}

#[cfg(test)]
mod test {
    use super::*;

    /// A seed names a case for ever.
    #[test]
    fn the_same_seed_gives_the_same_case() {
        assert_eq!(cases(1, 50), cases(1, 50));
    }
}
