//! Our linker, called in this process. Every buffer that is lent has guards on both sides, and what a call may not change is held against a
//! copy afterwards.

use crate::case::{Answer, Image};
use crate::domain::{MOST_SHELF_BYTES, MOST_SHELF_WORDS};
use crate::link::RECORD_WORDS;

#[path = "../../bindings/rust/src/ffi.rs"]
mod ffi;

/// A lookup's answer where there is nothing to find.
pub const NOTHING: u32 = u32::MAX;

/// How many elements a guard has.
const GUARD: usize = 16;

/// An element of a buffer, with the value that stands in guards and in places that are not used.
pub trait Element: Copy + PartialEq {
    const FILL: Self;
}

impl Element for u32 {
    const FILL: u32 = 0xdead_beef;
}

impl Element for u8 {
    const FILL: u8 = 0xc7;
}

/// A buffer with guards around it.
#[derive(Clone, PartialEq)]
pub struct Lent<T> {
    all: Vec<T>,
}

impl<T: Element> Lent<T> {
    pub fn new(length: usize) -> Self {
        Lent {
            all: vec![T::FILL; length + 2 * GUARD],
        }
    }

    pub fn of(items: &[T]) -> Self {
        let mut lent = Lent::new(items.len());
        lent.slice_mut().copy_from_slice(items);
        lent
    }

    pub fn slice(&self) -> &[T] {
        &self.all[GUARD..self.all.len() - GUARD]
    }

    pub fn slice_mut(&mut self) -> &mut [T] {
        let end = self.all.len() - GUARD;
        &mut self.all[GUARD..end]
    }

    pub fn len(&self) -> usize {
        self.slice().len()
    }

    /// Where the buffer starts. The pointer may go into the guards too, so that a write there is found and is not undefined.
    fn start(&self) -> *const T {
        self.all.as_ptr().wrapping_add(GUARD)
    }

    fn start_mut(&mut self) -> *mut T {
        self.all.as_mut_ptr().wrapping_add(GUARD)
    }

    pub fn guards_stand(&self) -> bool {
        let (front, rest) = self.all.split_at(GUARD);
        let back = &rest[rest.len() - GUARD..];
        front.iter().chain(back).all(|e| *e == T::FILL)
    }
}

/// How many words, bytes and files are used.
#[derive(Clone, Copy, Debug, Default, PartialEq, Eq)]
pub struct Used {
    pub words: u32,
    pub bytes: u32,
    pub files: u32,
}

/// A shelf in guarded buffers.
#[derive(Clone, PartialEq)]
pub struct Shelf {
    pub words: Lent<u32>,
    pub bytes: Lent<u8>,
    pub used: Used,
}

/// What a lookup answered: the answer and what was found.
pub type Found = (u32, u32);

/// Asks the shelf by a function of the C interface. Each pointer among the given arguments is followed by its slice's length.
macro_rules! look {
    ($shelf:expr, $function:ident, $($argument:expr),+) => {{
        let mut found = Lent::<u32>::new(1);
        // SAFETY: the pointers and lengths are those of live buffers; what is written is borrowed for this call alone; nothing is kept.
        let answer = unsafe {
            ffi::$function(
                $shelf.words.start(),
                $shelf.words.len(),
                $shelf.bytes.start(),
                $shelf.bytes.len(),
                $shelf.used.words,
                $shelf.used.bytes,
                $shelf.used.files,
                $($argument,)+
                found.start_mut(),
            )
        };
        assert!(found.guards_stand(), "words beside the answer were written");
        (answer, found.slice()[0])
    }};
}

impl Shelf {
    /// An empty shelf with that room.
    pub fn new(words: usize, bytes: usize) -> Shelf {
        Shelf {
            words: Lent::new(words),
            bytes: Lent::new(bytes),
            used: Used::default(),
        }
    }

    pub fn full_size() -> Shelf {
        Shelf::new(MOST_SHELF_WORDS, MOST_SHELF_BYTES)
    }

    /// Links with no look at what else was changed.
    pub fn link_unwatched(&mut self, image: &Lent<u32>, pool: &Lent<u8>) -> Found {
        let mut numbers = [
            self.used.words,
            u32::FILL,
            self.used.bytes,
            u32::FILL,
            self.used.files,
            u32::FILL,
            u32::FILL,
            u32::FILL,
        ];
        let at = numbers.as_mut_ptr();
        // SAFETY: the pointers and lengths are those of live buffers and numbers; the written ones overlap nothing; nothing is kept.
        let answer = unsafe {
            ffi::njuolasti_link(
                image.start(),
                image.len(),
                pool.start(),
                pool.len(),
                self.words.start_mut(),
                self.words.len(),
                self.bytes.start_mut(),
                self.bytes.len(),
                at,
                at.wrapping_add(2),
                at.wrapping_add(4),
                at.wrapping_add(6),
            )
        };
        let guards = [1, 3, 5, 7].map(|i| numbers[i]);
        assert_eq!(
            guards,
            [u32::FILL; 4],
            "words beside the numbers were written"
        );
        (self.used.words, self.used.bytes, self.used.files) = (numbers[0], numbers[2], numbers[4]);
        (answer, numbers[6])
    }

    /// Links the image. The error is that something was changed that must stay, or that the record is none.
    pub fn link(&mut self, image: &Image) -> Result<Answer, String> {
        let before = self.clone();
        let (words, pool) = (Lent::of(&image.words), Lent::of(&image.pool));
        let (number, place) = self.link_unwatched(&words, &pool);
        if words != Lent::of(&image.words) || pool != Lent::of(&image.pool) {
            return Err("the lent image was changed".to_owned());
        }
        if !self.words.guards_stand() || !self.bytes.guards_stand() {
            return Err("something beside the shelf's buffers was written".to_owned());
        }
        match number {
            0 => self.accepted(&before, image, place).map(Answer::Accepted),
            1..=18 if *self == before => Ok(Answer::Refused(number, place)),
            1..=18 => Err(format!(
                "refused with {number} at {place}, and the shelf has changed"
            )),
            _ => Err(format!("linking answers {number}")),
        }
    }

    /// The link words of the file just accepted, where everything outside its record and its pool is as before.
    fn accepted(
        &self,
        before: &Shelf,
        image: &Image,
        place: u32,
    ) -> Result<Vec<Option<u32>>, String> {
        let wrong = |what: &str| Err(format!("accepted, and {what}"));
        let (start, end) = (before.used.words as usize, self.used.words as usize);
        let (first, last) = (before.used.bytes as usize, self.used.bytes as usize);
        let (words, bytes) = (self.words.slice(), self.bytes.slice());
        if place != 0 || self.used.files != before.used.files + 1 {
            return wrong("the place is not 0, or the files are not one more");
        }
        if end < start + image.words.len() + RECORD_WORDS || end > words.len() {
            return wrong("the used words are not those of a record");
        }
        if last != first + image.pool.len() || last > bytes.len() {
            return wrong("the used bytes are not those of the pool");
        }
        let same_words = words[..start] == before.words.slice()[..start]
            && words[end..] == before.words.slice()[end..];
        let same_bytes = bytes[..first] == before.bytes.slice()[..first]
            && bytes[last..] == before.bytes.slice()[last..];
        if !same_words || !same_bytes {
            return wrong("something outside the record was written");
        }
        let (own, links) = words[start..end].split_at(image.words.len());
        if own != image.words || bytes[first..last] != image.pool {
            return wrong("the record does not hold the image");
        }
        Ok(links.iter().map(|w| Some(*w)).collect())
    }

    pub fn well_formed(&self) -> u32 {
        // SAFETY: the pointers and lengths are those of live buffers, and nothing is written or kept.
        unsafe {
            ffi::njuolasti_well_formed(
                self.words.start(),
                self.words.len(),
                self.bytes.start(),
                self.bytes.len(),
                self.used.words,
                self.used.bytes,
                self.used.files,
            )
        }
    }

    pub fn message(&self, file: u32, name: &[u8]) -> Found {
        look!(self, njuolasti_message, file, name.as_ptr(), name.len())
    }

    pub fn enumeration(&self, file: u32, name: &[u8]) -> Found {
        look!(self, njuolasti_enum, file, name.as_ptr(), name.len())
    }

    pub fn value_by_number(&self, file: u32, index: u32, number: u32) -> Found {
        look!(self, njuolasti_value_by_number, file, index, number)
    }

    pub fn value_by_name(&self, file: u32, index: u32, name: &[u8]) -> Found {
        let (start, length) = (name.as_ptr(), name.len());
        look!(self, njuolasti_value_by_name, file, index, start, length)
    }

    pub fn field_by_number(&self, file: u32, message: u32, number: u32) -> Found {
        look!(self, njuolasti_field_by_number, file, message, number)
    }

    pub fn field_by_name(&self, file: u32, message: u32, mode: u32, name: &[u8]) -> Found {
        let (start, length) = (name.as_ptr(), name.len());
        look!(
            self,
            njuolasti_field_by_name,
            file,
            message,
            mode,
            start,
            length
        )
    }

    pub fn message_name(&self, file: u32, message: u32, out: &mut Lent<u8>) -> Found {
        let (start, length) = (out.start_mut(), out.len());
        look!(self, njuolasti_message_name, file, message, start, length)
    }

    pub fn enum_name(&self, file: u32, index: u32, out: &mut Lent<u8>) -> Found {
        let (start, length) = (out.start_mut(), out.len());
        look!(self, njuolasti_enum_name, file, index, start, length)
    }
}

#[cfg(test)]
mod test {
    use super::*;

    #[test]
    fn a_write_beside_a_buffer_is_found() {
        let mut lent = Lent::of(&[1u32, 2]);
        lent.slice_mut().fill(7);
        assert!(lent.guards_stand());
        lent.all[GUARD - 1] = 0;
        assert!(!lent.guards_stand());
    }
}
