//! Image files and shelf files. Both are little-endian and have nothing behind their last byte.
//!
//! | File | Bytes in order |
//! |---|---|
//! | image | `NJUOLIMG`, version 1, number of words, number of pool bytes; the words; the pool |
//! | shelf | `NJUOLSHF`, version 1, words used, bytes used, files; the used words; the used bytes |
//!
//! A number and a word have four bytes.

use std::error::Error;
use std::fmt;

use crate::shelf::{Shelf, Used};

const IMAGE_MAGIC: &[u8; 8] = b"NJUOLIMG";
const SHELF_MAGIC: &[u8; 8] = b"NJUOLSHF";
const VERSION: u32 = 1;

/// A file image: what [`Shelf::link`] is lent.
#[derive(Clone, Debug, PartialEq, Eq, Default)]
pub struct Image {
    pub words: Vec<u32>,
    pub pool: Vec<u8>,
}

impl Image {
    /// The image that an image file holds. Nothing is asked of its words and its pool: linking judges them.
    pub fn from_bytes(file: &[u8]) -> Result<Image, FileError> {
        let mut rest = Rest::behind_head(file, IMAGE_MAGIC)?;
        let (words, bytes) = (rest.number()?, rest.number()?);
        let (words, pool) = rest.words_and_bytes(words, bytes)?;
        Ok(Image { words, pool })
    }
}

impl Shelf {
    /// The shelf file that holds what is used of this shelf, or nothing if a number passes its slice's length.
    pub fn to_bytes(&self) -> Option<Vec<u8>> {
        let (words, bytes, used) = self.parts();
        let words = words.get(..used.words as usize)?;
        let bytes = bytes.get(..used.bytes as usize)?;
        let mut file = SHELF_MAGIC.to_vec();
        let numbers = [VERSION, used.words, used.bytes, used.files];
        let words = numbers.iter().chain(words);
        file.extend(words.flat_map(|word| word.to_le_bytes()));
        file.extend(bytes);
        Some(file)
    }

    /// The shelf that a shelf file holds, with as much room behind it as a shelf may have. It need not be well formed: [`Shelf::check`] tells.
    pub fn from_bytes(file: &[u8]) -> Result<Shelf, FileError> {
        let mut rest = Rest::behind_head(file, SHELF_MAGIC)?;
        let used = Used {
            words: rest.number()?,
            bytes: rest.number()?,
            files: rest.number()?,
        };
        let (mut words, mut bytes) = rest.words_and_bytes(used.words, used.bytes)?;
        words.resize(words.len().max(Shelf::MOST_WORDS), 0);
        bytes.resize(bytes.len().max(Shelf::MOST_BYTES), 0);
        Ok(Shelf::from_parts(words, bytes, used))
    }
}

/// Bytes that are no image file or shelf file.
#[derive(Clone, Copy, Debug, PartialEq, Eq, Hash)]
pub enum FileError {
    /// It does not begin as such a file does.
    Magic,
    /// It has another version than 1.
    Version(u32),
    /// It is shorter or longer than its own numbers say.
    Length,
}

impl fmt::Display for FileError {
    fn fmt(&self, f: &mut fmt::Formatter) -> fmt::Result {
        match self {
            FileError::Magic => f.write_str("the file is of another kind"),
            FileError::Version(version) => {
                write!(f, "the file has version {version}, and not {VERSION}")
            }
            FileError::Length => f.write_str("the file is shorter or longer than it says"),
        }
    }
}

impl Error for FileError {}

/// The part of a file that is not read yet.
struct Rest<'a>(&'a [u8]);

impl<'a> Rest<'a> {
    fn behind_head(file: &'a [u8], magic: &[u8; 8]) -> Result<Self, FileError> {
        let mut rest = Rest(file.strip_prefix(magic).ok_or(FileError::Magic)?);
        match rest.number()? {
            VERSION => Ok(rest),
            other => Err(FileError::Version(other)),
        }
    }

    fn number(&mut self) -> Result<u32, FileError> {
        let (number, rest) = self.0.split_first_chunk().ok_or(FileError::Length)?;
        self.0 = rest;
        Ok(u32::from_le_bytes(*number))
    }

    /// So many words, and behind them so many bytes and nothing more.
    fn words_and_bytes(self, words: u32, bytes: u32) -> Result<(Vec<u32>, Vec<u8>), FileError> {
        let Rest(rest) = self;
        let length = 4 * u64::from(words) + u64::from(bytes);
        if rest.len() as u64 != length {
            return Err(FileError::Length);
        }
        let (words, bytes) = rest.split_at(4 * words as usize);
        let words = words.chunks_exact(4);
        let words = words.map(|word| u32::from_le_bytes([word[0], word[1], word[2], word[3]]));
        Ok((words.collect(), bytes.to_vec()))
    }
}

#[cfg(test)]
mod test {
    use super::*;

    #[test]
    fn an_image_file_is_read() {
        let file = b"NJUOLIMG\x01\0\0\0\x02\0\0\0\x02\0\0\0\x01\0\0\0\x01\x02\x03\x04fA";
        let image = Image {
            words: vec![1, 0x0403_0201],
            pool: b"fA".to_vec(),
        };
        assert_eq!(Image::from_bytes(file), Ok(image));
    }

    #[test]
    fn other_files_are_not() {
        let good = b"NJUOLIMG\x01\0\0\0\0\0\0\0\x01\0\0\0f";
        assert!(Image::from_bytes(good).is_ok());
        for end in 0..good.len() {
            assert!(Image::from_bytes(&good[..end]).is_err(), "{end} bytes");
        }
        let longer = [&good[..], &[0]].concat();
        assert_eq!(Image::from_bytes(&longer), Err(FileError::Length));
        let newer = b"NJUOLIMG\x02\0\0\0\0\0\0\0\0\0\0\0";
        assert_eq!(Image::from_bytes(newer), Err(FileError::Version(2)));
        assert_eq!(
            Image::from_bytes(b"NJUOLSHF\x01\0\0\0"),
            Err(FileError::Magic)
        );
    }

    #[test]
    fn a_shelf_file_holds_what_is_used() {
        let used = Used {
            words: 2,
            bytes: 1,
            files: 3,
        };
        let shelf = Shelf::from_parts(vec![5, 6, 7], vec![8, 9], used);
        let file = b"NJUOLSHF\x01\0\0\0\x02\0\0\0\x01\0\0\0\x03\0\0\0\x05\0\0\0\x06\0\0\0\x08";
        assert_eq!(shelf.to_bytes().as_deref(), Some(&file[..]));
        let loaded = Shelf::from_bytes(file).unwrap();
        let (words, bytes, loaded_used) = loaded.parts();
        assert_eq!(
            (&words[..2], &bytes[..1], loaded_used),
            (&[5, 6][..], &[8][..], used)
        );
        assert_eq!(
            (words.len(), bytes.len()),
            (Shelf::MOST_WORDS, Shelf::MOST_BYTES)
        );
        let too_many = Used { words: 4, ..used };
        assert_eq!(
            Shelf::from_parts(vec![5, 6, 7], vec![8, 9], too_many).to_bytes(),
            None
        );
    }
}
