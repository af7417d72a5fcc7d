//! Cases from real schemas: the FileDescriptorSets that oracle/real made.
//!
//! Files that share imports go into one case as long as the shelf's limits allow it, so that a file which many import is linked once for all.

use std::collections::{BTreeMap, HashMap, HashSet};
use std::fs;
use std::path::Path;
use std::rc::Rc;

use protobuf::descriptor::{FileDescriptorProto, FileDescriptorSet};
use protobuf::Message;

use crate::case::{Case, Expect, FileCase, Image};
use crate::domain::{record_words, Shelf, MOST_FILES, MOST_SHELF_BYTES, MOST_SHELF_WORDS};
use crate::image;
use crate::rng::Rng;

/// Of the cases, every so many stands a second time with its rows and texts in another order.
const SHUFFLED_EVERY: usize = 4;

/// A real file with its image; two files are the same if their images are.
pub struct RealFile {
    pub proto: FileDescriptorProto,
    pub image: Image,
    /// Words of its record.
    pub words: usize,
}

/// The cases of all sets in the folder, and a line on what they hold and what was left out.
pub fn cases(folder: &Path, seed: u64) -> Result<(Vec<Case>, String), String> {
    let mut left_out: BTreeMap<String, usize> = BTreeMap::new();
    let sets = read_sets(folder, &mut left_out)?;
    let groups = group(sets, &mut left_out);
    let mut cases: Vec<Case> = Vec::new();
    let mut expected: BTreeMap<String, usize> = BTreeMap::new();
    let mut distinct = HashSet::new();
    for (i, group) in groups.iter().enumerate() {
        let case = case(&format!("real-{i:04}"), group, |f| f.image.clone());
        for (f, made) in group.files.iter().zip(&case.files) {
            if distinct.insert(Rc::as_ptr(f)) {
                *expected.entry(kind(made.expect)).or_default() += 1;
            }
        }
        cases.push(case);
    }
    let mut rng = Rng::new(seed);
    let plain = cases.len();
    for (i, group) in groups.iter().enumerate().step_by(SHUFFLED_EVERY) {
        cases.push(case(&format!("real-{i:04}-shuffled"), group, |f| {
            let shuffled = image::encode_shuffled(&f.proto, &mut rng);
            shuffled.unwrap_or_else(|_| f.image.clone())
        }));
    }
    let line = format!(
        "{} distinct real files in {plain} cases, and {} cases shuffled; expected: {}; left out: {}",
        distinct.len(),
        cases.len() - plain,
        counts(&expected),
        counts(&left_out)
    );
    Ok((cases, line))
}

fn kind(expect: Expect) -> String {
    match expect {
        Expect::Domain => "domain".to_owned(),
        Expect::Refused(n) | Expect::RefusedAt(n, _) => format!("refused {n}"),
        Expect::Any => "any".to_owned(),
    }
}

fn counts(of: &BTreeMap<String, usize>) -> String {
    let parts: Vec<String> = of.iter().map(|(what, n)| format!("{n} {what}")).collect();
    if parts.is_empty() {
        "none".to_owned()
    } else {
        parts.join(", ")
    }
}

pub type Set = Vec<Rc<RealFile>>;

/// The sets, each with the files in the order of their imports, the file it was made for last.
pub fn read_sets(
    folder: &Path,
    left_out: &mut BTreeMap<String, usize>,
) -> Result<Vec<Set>, String> {
    let wrong = |e: &dyn std::fmt::Display| format!("{}: {e} (run oracle/real)", folder.display());
    let entries = fs::read_dir(folder).map_err(|e| wrong(&e))?;
    let mut paths: Vec<_> = entries.flatten().map(|e| e.path()).collect();
    paths.retain(|p| p.extension().is_some_and(|e| e == "pb"));
    paths.sort();
    if paths.is_empty() {
        return Err(wrong(&"there are no compiled schemas here"));
    }
    let mut known: HashMap<(Vec<u32>, Vec<u8>), Rc<RealFile>> = HashMap::new();
    let mut sets = Vec::new();
    for path in paths {
        let bytes = fs::read(&path).map_err(|e| wrong(&e))?;
        let set = FileDescriptorSet::parse_from_bytes(&bytes).map_err(|e| wrong(&e))?;
        match real_files(set, &mut known) {
            Ok(files) => sets.push(files),
            Err(why) => *left_out.entry(why).or_default() += 1,
        }
    }
    Ok(sets)
}

fn real_files(
    set: FileDescriptorSet,
    known: &mut HashMap<(Vec<u32>, Vec<u8>), Rc<RealFile>>,
) -> Result<Set, String> {
    let mut files = Vec::new();
    for mut proto in set.file {
        if !["", "proto2", "proto3"].contains(&proto.syntax()) {
            return Err("of a newer syntax".to_owned());
        }
        // The image has no services.
        proto.service.clear();
        proto.source_code_info.clear();
        let image = image::encode(&proto)?;
        let key = (image.words.clone(), image.pool.clone());
        let file = known.entry(key).or_insert_with(|| {
            let words = record_words(&proto, &image);
            Rc::new(RealFile {
                proto,
                image,
                words,
            })
        });
        files.push(file.clone());
    }
    Ok(files)
}

/// Files that go into one case, each after its imports.
#[derive(Default)]
struct Group {
    files: Set,
    by_name: HashMap<String, usize>,
    words: usize,
    bytes: usize,
}

impl Group {
    fn holds(&self, f: &Rc<RealFile>) -> bool {
        let place = self.by_name.get(f.proto.name());
        place.is_some_and(|&i| Rc::ptr_eq(&self.files[i], f))
    }

    fn shared(&self, set: &Set) -> usize {
        set.iter().filter(|f| self.holds(f)).count()
    }

    /// Can the set join? Names must differ, and the shelf must hold all.
    fn takes(&self, set: &Set) -> bool {
        let new: Vec<_> = set.iter().filter(|f| !self.holds(f)).collect();
        let words: usize = new.iter().map(|f| f.words).sum();
        let bytes: usize = new.iter().map(|f| f.image.pool.len()).sum();
        new.iter()
            .all(|f| !self.by_name.contains_key(f.proto.name()))
            && self.files.len() + new.len() <= MOST_FILES
            && self.words + words <= MOST_SHELF_WORDS
            && self.bytes + bytes <= MOST_SHELF_BYTES
    }

    fn add(&mut self, set: &Set) {
        for f in set {
            if !self.holds(f) {
                let name = f.proto.name().to_owned();
                self.by_name.insert(name, self.files.len());
                self.words += f.words;
                self.bytes += f.image.pool.len();
                self.files.push(f.clone());
            }
        }
    }
}

/// Large sets first, so that the small ones that they hold need no case of their own.
fn group(mut sets: Vec<Set>, left_out: &mut BTreeMap<String, usize>) -> Vec<Group> {
    sets.sort_by_key(|s| std::cmp::Reverse(s.len()));
    let mut groups: Vec<Group> = Vec::new();
    for set in sets {
        if !Group::default().takes(&set) {
            let why = if set.len() > MOST_FILES {
                "past the 32 files of a shelf"
            } else {
                "past the words or bytes of a shelf"
            };
            *left_out.entry(why.to_owned()).or_default() += 1;
            continue;
        }
        let best = groups
            .iter_mut()
            .filter(|g| g.shared(&set) > 0 && g.takes(&set))
            .max_by_key(|g| g.shared(&set));
        match best {
            Some(group) => group.add(&set),
            None => {
                let mut group = Group::default();
                group.add(&set);
                groups.push(group);
            }
        }
    }
    groups
}

fn case(name: &str, group: &Group, mut image_of: impl FnMut(&RealFile) -> Image) -> Case {
    let mut shelf = Shelf::default();
    let files = group.files.iter().map(|f| {
        let image = image_of(f);
        let expect = shelf.link(&f.proto, &image);
        FileCase { image, expect }
    });
    Case {
        name: name.to_owned(),
        files: files.collect(),
    }
}
