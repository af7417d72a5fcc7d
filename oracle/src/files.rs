//! Image files: each file of a FileDescriptorSet as an image, in a file of its own, for programs that link them. docs/FORMATS.md has their layout.

use std::collections::{HashMap, HashSet};
use std::fs;
use std::path::Path;

use protobuf::descriptor::{FileDescriptorProto, FileDescriptorSet};
use protobuf::Message;

use crate::case::Image;
use crate::domain::{MOST_IMAGE_WORDS, MOST_POOL_BYTES};
use crate::image;

const MAGIC: &[u8; 8] = b"NJUOLIMG";
const VERSION: u32 = 1;

/// What became of one file of a set: the line on the image file that was written, or on why there is none.
pub type Line = Result<String, String>;

/// Writes the image files of the set into the folder, imports first. The error is one that stops all.
pub fn write(set: &Path, folder: &Path) -> Result<Vec<Line>, String> {
    let wrong = |path: &Path, e: &dyn std::fmt::Display| format!("{}: {e}", path.display());
    let bytes = fs::read(set).map_err(|e| wrong(set, &e))?;
    let files = FileDescriptorSet::parse_from_bytes(&bytes).map_err(|e| wrong(set, &e))?;
    fs::create_dir_all(folder).map_err(|e| wrong(folder, &e))?;
    let mut taken = HashSet::new();
    let mut lines = Vec::new();
    for f in imports_first(&files.file) {
        let path = folder.join(image_name(f.name()));
        let not_written = |why| Err(format!("{} is not written: {why}", f.name()));
        lines.push(match image_of(f) {
            Err(why) => not_written(why),
            Ok(_) if !taken.insert(path.clone()) => {
                not_written(format!("another file's image is {}", path.display()))
            }
            Ok(image) => {
                fs::write(&path, image_bytes(&image)).map_err(|e| wrong(&path, &e))?;
                Ok(written_line(f, &image, &path))
            }
        });
    }
    Ok(lines)
}

fn written_line(f: &FileDescriptorProto, image: &Image, path: &Path) -> String {
    let (words, bytes) = (image.words.len(), image.pool.len());
    let (name, path) = (f.name(), path.display());
    format!("{name} is {path}: {words} words, {bytes} pool bytes")
}

/// The file's image, if one can hold it and the linker would take its length.
fn image_of(f: &FileDescriptorProto) -> Result<Image, String> {
    let image = image::encode(f)?;
    let (words, bytes) = (image.words.len(), image.pool.len());
    if words > MOST_IMAGE_WORDS {
        return Err(format!("{words} words are more than {MOST_IMAGE_WORDS}"));
    }
    if bytes > MOST_POOL_BYTES {
        return Err(format!(
            "{bytes} pool bytes are more than {MOST_POOL_BYTES}"
        ));
    }
    Ok(image)
}

/// The bytes of an image file.
fn image_bytes(image: &Image) -> Vec<u8> {
    let lengths = [image.words.len() as u32, image.pool.len() as u32];
    let numbers = [VERSION].into_iter().chain(lengths);
    let words = numbers.chain(image.words.iter().copied());
    let mut bytes = MAGIC.to_vec();
    bytes.extend(words.flat_map(u32::to_le_bytes));
    bytes.extend(&image.pool);
    bytes
}

fn image_name(file_name: &str) -> String {
    let name = file_name.strip_suffix(".proto").unwrap_or(file_name);
    format!("{}.image", name.replace('/', "_"))
}

/// The files of a set, each behind those that it imports. protoc leaves them in such an order, and others need not.
fn imports_first(files: &[FileDescriptorProto]) -> Vec<&FileDescriptorProto> {
    let by_name = files.iter().enumerate().map(|(i, f)| (f.name(), i));
    let mut order = Order {
        files,
        by_name: by_name.collect(),
        seen: vec![false; files.len()],
        placed: Vec::new(),
    };
    for i in 0..files.len() {
        order.place(i);
    }
    order.placed
}

struct Order<'a> {
    files: &'a [FileDescriptorProto],
    by_name: HashMap<&'a str, usize>,
    seen: Vec<bool>,
    placed: Vec<&'a FileDescriptorProto>,
}

impl Order<'_> {
    fn place(&mut self, i: usize) {
        if std::mem::replace(&mut self.seen[i], true) {
            return;
        }
        for import in &self.files[i].dependency {
            if let Some(&import) = self.by_name.get(import.as_str()) {
                self.place(import);
            }
        }
        self.placed.push(&self.files[i]);
    }
}

#[cfg(test)]
mod test {
    use super::*;

    fn file(text: &str) -> FileDescriptorProto {
        protobuf::text_format::parse_from_str(text).unwrap()
    }

    #[test]
    fn an_image_file_is_its_head_its_words_and_its_pool() {
        let image = Image {
            words: vec![1, 0x0403_0201],
            pool: b"fA".to_vec(),
        };
        assert_eq!(
            image_bytes(&image),
            b"NJUOLIMG\x01\0\0\0\x02\0\0\0\x02\0\0\0\x01\0\0\0\x01\x02\x03\x04fA"
        );
    }

    #[test]
    fn folders_and_the_ending_leave_the_name() {
        assert_eq!(image_name("ferry/ports.proto"), "ferry_ports.image");
        assert_eq!(image_name("ports"), "ports.image");
    }

    #[test]
    fn imports_come_first_and_else_the_order_stays() {
        let files = [
            r#"name: "c" dependency: "b" dependency: "elsewhere""#,
            r#"name: "x" dependency: "x""#,
            r#"name: "b" dependency: "a""#,
            r#"name: "a""#,
        ]
        .map(file);
        let names: Vec<&str> = imports_first(&files).iter().map(|f| f.name()).collect();
        assert_eq!(names, ["a", "b", "c", "x"]);
    }

    #[test]
    fn what_no_image_can_hold_is_said() {
        let service = file(r#"name: "f" service { name: "S" }"#);
        assert_eq!(image_of(&service), image_of(&file(r#"name: "f""#)));
        assert_eq!(
            image_of(&file(r#"name: "f" syntax: "editions""#)),
            Err("the syntax `editions` has no number in an image".to_owned())
        );
        let mut long = file(r#"name: "f""#);
        long.set_name("f".repeat(MOST_POOL_BYTES + 1));
        assert_eq!(
            image_of(&long),
            Err("32769 pool bytes are more than 32768".to_owned())
        );
    }
}
