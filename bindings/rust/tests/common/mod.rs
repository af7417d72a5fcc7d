//! What the tests share: the smallest whole file, and the demo's files.

// Each test file is a program of its own, and uses a part of this.
#![allow(dead_code)]

use njuolasti::{Image, Shelf};

/// The demo's files in an order in which they can be linked. Their places here are their numbers on a shelf that begins with them.
pub const DEMO: [&str; 5] = ["ports", "vehicles", "bookings", "agent", "dangerous"];

pub const PORTS: u32 = 0;
pub const VEHICLES: u32 = 1;
pub const BOOKINGS: u32 = 2;
pub const AGENT: u32 = 3;
pub const DANGEROUS: u32 = 4;

/// The file `f`, proto3, without a package, with one empty message `A`.
pub fn whole_image() -> Image {
    let message = [1, 1, 0, 0, 0, 0, 0, 0, 0, 0, 0, 0, 0, 0];
    let trailer = [
        1, 0, 1, 0, 0, 3, 0, 0, 0, 1, 14, 0, 14, 0, 14, 0, 14, 0, 1, 0, 0, 0, 2, 14,
    ];
    Image {
        words: [&message[..], &trailer[..]].concat(),
        pool: b"fA".to_vec(),
    }
}

/// A full-size shelf with the whole image on it.
pub fn whole_shelf() -> Shelf {
    let mut shelf = Shelf::full_size();
    let image = whole_image();
    assert_eq!(shelf.link(&image.words, &image.pool), Ok(0));
    shelf
}

/// The image of one of the demo's files.
pub fn demo_image(name: &str) -> Image {
    let folder = concat!(env!("CARGO_MANIFEST_DIR"), "/../../crates/shelve/data");
    let path = format!("{folder}/{name}.image");
    let file = std::fs::read(&path).unwrap_or_else(|e| panic!("{path}: {e}"));
    Image::from_bytes(&file).unwrap_or_else(|e| panic!("{path}: {e}"))
}

/// A full-size shelf with all of the demo's files on it.
pub fn demo_shelf() -> Shelf {
    let mut shelf = Shelf::full_size();
    for (number, name) in DEMO.iter().enumerate() {
        let image = demo_image(name);
        let linked = shelf.link(&image.words, &image.pool);
        assert_eq!(linked, Ok(number as u32), "{name}");
    }
    shelf
}
