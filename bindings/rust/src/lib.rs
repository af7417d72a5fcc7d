//! Njuolasti links protobuf schemas: names are resolved, messages, enums, oneofs and fields are numbered, defaults are read, and each message is
//! marked if it can ever be incomplete. The linker is proved to do what its rules say, for every input; this crate is the safe Rust on top of its
//! C interface, `include/njuolasti.h`.
//!
//! A schema file comes as an image: words, and a pool of bytes that they point into. [`Shelf::link`] puts it on a [`Shelf`], or refuses it with
//! a [`Refusal`] and leaves the shelf as it was. The shelf then answers lookups.
//!
//! ```
//! use njuolasti::Shelf;
//!
//! // The file `f` with one empty message, `A`.
//! let mut image = vec![1, 1];
//! image.extend([0; 12]);
//! image.extend([1, 0, 1, 0, 0, 3, 0, 0, 0, 1, 14, 0, 14, 0, 14, 0, 14, 0, 1, 0, 0, 0, 2, 14]);
//!
//! let mut shelf = Shelf::full_size();
//! let file = shelf.link(&image, b"fA").expect("it is accepted");
//! assert_eq!(shelf.message(file, ".A"), Ok(Some(0)));
//! ```
//!
//! The repository's `docs/RULES.md` has the layout of images and shelves. A call takes about 300 KB of stack.

mod ffi;
mod files;
mod refusal;
mod shelf;

pub use files::{FileError, Image};
pub use refusal::{Kind, Refusal, ShelfError};
pub use shelf::{Mode, Shelf, Used};
