//! The shelf: memory that holds linked files, and the three numbers that say how much of it is used.

use crate::ffi;
use crate::refusal::{Kind, Refusal, ShelfError};

/// A lookup's answer where there is nothing to find.
const NOTHING: u32 = u32::MAX;

/// The longest full name, in bytes.
const MOST_NAME_BYTES: usize = 512;

/// How many words, bytes and files of a shelf are used.
#[derive(Clone, Copy, Debug, Default, PartialEq, Eq, Hash)]
pub struct Used {
    pub words: u32,
    pub bytes: u32,
    pub files: u32,
}

/// By which names a field is found.
#[derive(Clone, Copy, Debug, Default, PartialEq, Eq, Hash)]
#[repr(u32)]
pub enum Mode {
    /// What is usual: its own name.
    #[default]
    Usual = 0,
    /// Its own name.
    Own = 1,
    /// Its own name or its JSON name.
    OwnOrJson = 2,
}

/// Linked files. They are numbered from 0 in the order in which they were linked.
///
/// A shelf can be put together from any words, bytes and numbers. Every call looks first whether it is well formed, and is refused if not.
#[derive(Clone, Debug, PartialEq, Eq)]
pub struct Shelf {
    words: Vec<u32>,
    bytes: Vec<u8>,
    used: Used,
}

impl Shelf {
    /// The most words that a shelf may have.
    pub const MOST_WORDS: usize = 262_144;
    /// The most bytes that a shelf may have.
    pub const MOST_BYTES: usize = 131_072;

    /// An empty shelf with room for so many words and bytes.
    pub fn new(words_capacity: usize, bytes_capacity: usize) -> Shelf {
        let (words, bytes) = (vec![0; words_capacity], vec![0; bytes_capacity]);
        Shelf::from_parts(words, bytes, Used::default())
    }

    /// An empty shelf with as much room as one may have, about 1.2 MB.
    pub fn full_size() -> Shelf {
        Shelf::new(Shelf::MOST_WORDS, Shelf::MOST_BYTES)
    }

    /// The shelf of these parts. The used words stand in front of the words, and the used bytes in front of the bytes.
    pub fn from_parts(words: Vec<u32>, bytes: Vec<u8>, used: Used) -> Shelf {
        Shelf { words, bytes, used }
    }

    /// All words and bytes, those that are not used too, and the numbers.
    pub fn parts(&self) -> (&[u32], &[u8], Used) {
        (&self.words, &self.bytes, self.used)
    }

    /// Links the file of the image onto the shelf, and answers its number. A refusal leaves every word, byte and number as it was.
    pub fn link(&mut self, image: &[u32], pool: &[u8]) -> Result<u32, Refusal> {
        let mut place = 0;
        // SAFETY: the pointers and lengths are those of live slices and numbers; the written ones are borrowed for this call alone, so they
        // overlap nothing; and nothing is kept.
        let number = unsafe {
            ffi::njuolasti_link(
                image.as_ptr(),
                image.len(),
                pool.as_ptr(),
                pool.len(),
                self.words.as_mut_ptr(),
                self.words.len(),
                self.bytes.as_mut_ptr(),
                self.bytes.len(),
                &mut self.used.words,
                &mut self.used.bytes,
                &mut self.used.files,
                &mut place,
            )
        };
        if number == 0 {
            return Ok(self.used.files - 1);
        }
        match Kind::from_number(number) {
            Some(kind) => Err(Refusal { kind, place }),
            None => unreachable!("linking answers 0 to 18, and not {number}"),
        }
    }

    /// Is the shelf well formed? One that only links have changed since it was empty is.
    pub fn check(&self) -> Result<(), ShelfError> {
        // SAFETY: the pointers and lengths are those of live slices, and nothing is written or kept.
        let answer = unsafe {
            ffi::njuolasti_well_formed(
                self.words.as_ptr(),
                self.words.len(),
                self.bytes.as_ptr(),
                self.bytes.len(),
                self.used.words,
                self.used.bytes,
                self.used.files,
            )
        };
        match answer {
            0 => Ok(()),
            number => Err(shelf_error(number)),
        }
    }
}

/// Asks the shelf by a function of the C interface: behind the shelf's own arguments come the given ones, then the place for what is found.
///
/// Each pointer among the given arguments is followed by its slice's length, and what is written there is borrowed for this call alone.
macro_rules! look {
    ($shelf:expr, $function:ident, $($argument:expr),+) => {{
        let mut found = 0;
        // SAFETY: the pointers and lengths are those of live slices; what is written is borrowed for this call alone; nothing is kept.
        let answer = unsafe {
            ffi::$function(
                $shelf.words.as_ptr(),
                $shelf.words.len(),
                $shelf.bytes.as_ptr(),
                $shelf.bytes.len(),
                $shelf.used.words,
                $shelf.used.bytes,
                $shelf.used.files,
                $($argument,)+
                &mut found,
            )
        };
        found_or_nothing(answer, found)
    }};
}

/// The lookups. Each finds nothing where the shelf has no such file, or the file no such message or enum.
impl Shelf {
    /// The flat number of the message of that full name, which begins with a dot: `.ferry.bookings.Booking`.
    pub fn message(&self, file: u32, name: &str) -> Result<Option<u32>, ShelfError> {
        look!(self, njuolasti_message, file, name.as_ptr(), name.len())
    }

    /// The flat number of the enum of that full name, which begins with a dot.
    pub fn enumeration(&self, file: u32, name: &str) -> Result<Option<u32>, ShelfError> {
        look!(self, njuolasti_enum, file, name.as_ptr(), name.len())
    }

    /// The place in the enum of the value with that number; of several the last one's.
    pub fn value_by_number(
        &self,
        file: u32,
        enumeration: u32,
        number: i32,
    ) -> Result<Option<u32>, ShelfError> {
        let number = number as u32;
        look!(self, njuolasti_value_by_number, file, enumeration, number)
    }

    /// The place in the enum of the value with that name; of several the last one's.
    pub fn value_by_name(
        &self,
        file: u32,
        enumeration: u32,
        name: &str,
    ) -> Result<Option<u32>, ShelfError> {
        let (start, length) = (name.as_ptr(), name.len());
        look!(
            self,
            njuolasti_value_by_name,
            file,
            enumeration,
            start,
            length
        )
    }

    /// The flat number of the message's regular field with that number.
    pub fn field_by_number(
        &self,
        file: u32,
        message: u32,
        number: i32,
    ) -> Result<Option<u32>, ShelfError> {
        let number = number as u32;
        look!(self, njuolasti_field_by_number, file, message, number)
    }

    /// The flat number of the message's regular field with that name.
    pub fn field_by_name(
        &self,
        file: u32,
        message: u32,
        mode: Mode,
        name: &str,
    ) -> Result<Option<u32>, ShelfError> {
        let (mode, start, length) = (mode as u32, name.as_ptr(), name.len());
        look!(
            self,
            njuolasti_field_by_name,
            file,
            message,
            mode,
            start,
            length
        )
    }

    /// The full name of the message, without a leading dot.
    pub fn message_name(&self, file: u32, message: u32) -> Result<Option<String>, ShelfError> {
        written_name(|start, length| {
            look!(self, njuolasti_message_name, file, message, start, length)
        })
    }

    /// The full name of the enum, without a leading dot.
    pub fn enum_name(&self, file: u32, enumeration: u32) -> Result<Option<String>, ShelfError> {
        written_name(|start, length| {
            look!(self, njuolasti_enum_name, file, enumeration, start, length)
        })
    }
}

/// The name that the lookup writes to a buffer, and whose length it answers.
fn written_name(
    look: impl FnOnce(*mut u8, usize) -> Result<Option<u32>, ShelfError>,
) -> Result<Option<String>, ShelfError> {
    let mut name = vec![0; MOST_NAME_BYTES];
    let length = look(name.as_mut_ptr(), name.len())?;
    Ok(length.map(|length| {
        name.truncate(length as usize);
        // The names on a well-formed shelf are ASCII, so nothing is lost.
        String::from_utf8_lossy(&name).into_owned()
    }))
}

/// What a lookup's answer means.
fn found_or_nothing(answer: u32, found: u32) -> Result<Option<u32>, ShelfError> {
    match answer {
        0 => Ok(Some(found)),
        NOTHING => Ok(None),
        number => Err(shelf_error(number)),
    }
}

fn shelf_error(number: u32) -> ShelfError {
    match number {
        1 => ShelfError::TooLong,
        2 => ShelfError::Broken,
        _ => unreachable!("a shelf is refused with 1 or 2, and not {number}"),
    }
}
