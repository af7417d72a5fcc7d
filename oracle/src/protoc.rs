//! Compiles the .proto files that oracle/real fetched, each with all that it imports, into FileDescriptorSets.
//!
//! Packages ship their files at paths of their own, so the folders that imports are meant from have to be found: a file that ends in the path
//! of an import is taken for it, the nearest one first.

use std::collections::{BTreeMap, HashMap, HashSet};
use std::fs;
use std::path::{Path, PathBuf};
use std::process::Command;
use std::sync::atomic::{AtomicUsize, Ordering};
use std::sync::Mutex;

/// Compiles the files under `files` with the protoc unpacked under `protoc` into `out`, and says how it went.
pub fn compile(files: &Path, protoc: &Path, out: &Path) -> Result<String, String> {
    let protoc = Protoc::find(protoc)?;
    let mut sources = Sources::default();
    sources.add_tree(files)?;
    sources.add_tree(&protoc.include)?;
    sources.note_imports();
    let wanted = sources.distinct(files);
    let next = AtomicUsize::new(0);
    let results = Mutex::new(BTreeMap::new());
    let work = || loop {
        let i = next.fetch_add(1, Ordering::Relaxed);
        let Some(copies) = wanted.get(i) else {
            return;
        };
        let result = compile_one(&protoc, &sources, copies, &out.join(format!("{i:05}.pb")));
        results.lock().unwrap().insert(i, result);
    };
    let threads = std::thread::available_parallelism().map_or(2, |n| n.get());
    std::thread::scope(|scope| {
        for _ in 0..threads {
            scope.spawn(work);
        }
    });
    report(files, &wanted, &results.into_inner().unwrap(), out)
}

/// Tries the copies of one file in turn: the same text may stand in one package with its imports and in another without.
fn compile_one(
    protoc: &Protoc,
    sources: &Sources,
    copies: &[PathBuf],
    out: &Path,
) -> Result<(), String> {
    let mut result = Err(String::new());
    for path in copies {
        result = protoc.run(path, &sources.roots_for(path), out);
        if result.is_ok() {
            break;
        }
    }
    result
}

fn report(
    files: &Path,
    wanted: &[Vec<PathBuf>],
    results: &BTreeMap<usize, Result<(), String>>,
    out: &Path,
) -> Result<String, String> {
    let (mut compiled, mut failed) = (String::new(), String::new());
    let mut reasons: BTreeMap<&str, usize> = BTreeMap::new();
    for (i, result) in results {
        let path = wanted[*i][0].strip_prefix(files).unwrap_or(&wanted[*i][0]);
        match result {
            Ok(()) => compiled += &format!("{i:05} {}\n", path.display()),
            Err(text) => {
                *reasons.entry(reason(text)).or_default() += 1;
                let line = text.lines().next().unwrap_or("");
                failed += &format!("{}: {line}\n", path.display());
            }
        }
    }
    write(&out.join("compiled.txt"), &compiled)?;
    write(&out.join("failed.txt"), &failed)?;
    let count = compiled.lines().count();
    let left_out: Vec<String> = reasons.iter().map(|(r, n)| format!("{n} {r}")).collect();
    Ok(format!(
        "{} distinct .proto files: {count} compiled; left out: {}",
        wanted.len(),
        left_out.join(", ")
    ))
}

/// A few words for protoc's complaint, for counting.
fn reason(text: &str) -> &'static str {
    if text.contains("File not found") || text.contains("was not found") {
        "with an import that no package has"
    } else if text.contains("editions") || text.contains("edition") {
        "of a newer syntax"
    } else if text.contains("Expected") || text.contains("Unrecognized syntax") {
        "that are no schemas protoc can read"
    } else {
        "that protoc refuses for other reasons"
    }
}

fn write(path: &Path, text: &str) -> Result<(), String> {
    fs::write(path, text).map_err(|e| format!("{}: {e}", path.display()))
}

/// protoc with its own loader and libraries.
struct Protoc {
    loader: PathBuf,
    libraries: PathBuf,
    program: PathBuf,
    include: PathBuf,
}

impl Protoc {
    fn find(root: &Path) -> Result<Self, String> {
        let lib = root.join("usr/lib");
        let folders = fs::read_dir(&lib).map_err(|e| format!("{}: {e}", lib.display()))?;
        let mut folders: Vec<PathBuf> = folders.flatten().map(|e| e.path()).collect();
        folders.sort();
        let libraries = folders.into_iter().find(|p| p.join("libc.so.6").exists());
        let libraries = libraries.ok_or("protoc came without its C library")?;
        let inside = fs::read_dir(&libraries).map_err(|e| format!("{}: {e}", lib.display()))?;
        let is_loader = |p: &PathBuf| {
            let name = p.file_name().unwrap_or_default().to_string_lossy();
            name.starts_with("ld-linux")
        };
        let loader = inside.flatten().map(|e| e.path()).find(is_loader);
        Ok(Protoc {
            loader: loader.ok_or("protoc came without a loader")?,
            libraries,
            program: root.join("usr/bin/protoc"),
            include: root.join("usr/include"),
        })
    }

    fn run(&self, path: &Path, roots: &[PathBuf], out: &Path) -> Result<(), String> {
        let mut command = Command::new(&self.loader);
        command.arg("--library-path").arg(&self.libraries);
        command.arg(&self.program).arg("--include_imports");
        command.arg(format!("--descriptor_set_out={}", out.display()));
        for root in roots {
            command.arg(format!("--proto_path={}", root.display()));
        }
        let result = command.arg(path).output().map_err(|e| e.to_string())?;
        if result.status.success() {
            Ok(())
        } else {
            Err(String::from_utf8_lossy(&result.stderr).into_owned())
        }
    }
}

#[derive(Default)]
struct Sources {
    /// Each file with its text.
    texts: BTreeMap<PathBuf, Vec<u8>>,
    /// The files by their last part.
    by_name: HashMap<String, Vec<PathBuf>>,
    /// The paths under which a file is imported, with how often.
    imported_as: HashMap<PathBuf, BTreeMap<String, usize>>,
}

impl Sources {
    fn add_tree(&mut self, folder: &Path) -> Result<(), String> {
        let entries = fs::read_dir(folder).map_err(|e| format!("{}: {e}", folder.display()))?;
        for entry in entries.flatten() {
            let path = entry.path();
            if entry.file_type().is_ok_and(|t| t.is_dir()) {
                self.add_tree(&path)?;
            } else if path.extension().is_some_and(|e| e == "proto") {
                // A dangling link is no file.
                if let Ok(text) = fs::read(&path) {
                    let name = path.file_name().unwrap_or_default().to_string_lossy();
                    let same = self.by_name.entry(name.into_owned()).or_default();
                    same.push(path.clone());
                    self.texts.insert(path, text);
                }
            }
        }
        Ok(())
    }

    /// The files under the folder, copies of one text together, in the order of their paths.
    fn distinct(&self, under: &Path) -> Vec<Vec<PathBuf>> {
        let mut place: HashMap<&[u8], usize> = HashMap::new();
        let mut all: Vec<Vec<PathBuf>> = Vec::new();
        for (path, text) in self.texts.iter().filter(|(p, _)| p.starts_with(under)) {
            let i = *place.entry(text).or_insert(all.len());
            if i == all.len() {
                all.push(Vec::new());
            }
            all[i].push(path.clone());
        }
        all
    }

    fn note_imports(&mut self) {
        for path in self.texts.keys().cloned().collect::<Vec<_>>() {
            for import in self.imports(&path) {
                if let Some(target) = self.nearest(&path, &import) {
                    let names = self.imported_as.entry(target).or_default();
                    *names.entry(import).or_default() += 1;
                }
            }
        }
    }

    fn imports(&self, path: &Path) -> Vec<String> {
        let text = String::from_utf8_lossy(&self.texts[path]);
        let statements = text.lines().map(str::trim);
        let statements = statements.filter(|l| l.starts_with("import"));
        statements
            .filter_map(|l| Some(l.split(['"', '\'']).nth(1)?.to_owned()))
            .collect()
    }

    /// The file that an import means: of those whose paths end in it, the one that shares most folders with the importing file.
    fn nearest(&self, importer: &Path, import: &str) -> Option<PathBuf> {
        let name = import.rsplit('/').next()?;
        let candidates = self.by_name.get(name)?.iter();
        let shared = |p: &PathBuf| {
            let pairs = p.components().zip(importer.components());
            pairs.take_while(|(a, b)| a == b).count()
        };
        let fitting = candidates.filter(|p| p.ends_with(import));
        fitting
            .max_by_key(|p| (shared(p), std::cmp::Reverse(p.components().count())))
            .cloned()
    }

    /// The folders to search for the file's imports, its own first.
    fn roots_for(&self, path: &Path) -> Vec<PathBuf> {
        let mut roots = Vec::new();
        let mut seen = HashSet::from([path.to_owned()]);
        let mut waiting = vec![path.to_owned()];
        while let Some(at) = waiting.pop() {
            for import in self.imports(&at) {
                let Some(target) = self.nearest(&at, &import) else {
                    continue;
                };
                let root = without_end(&target, &import);
                if !roots.contains(&root) {
                    roots.push(root);
                }
                if seen.insert(target.clone()) {
                    waiting.push(target);
                }
            }
        }
        let own = self.own_root(path, &roots);
        roots.retain(|r| *r != own);
        roots.insert(0, own);
        roots
    }

    /// The folder that gives the file the name it is imported by; where nobody imports it, one of its imports' folders, or its own.
    fn own_root(&self, path: &Path, roots: &[PathBuf]) -> PathBuf {
        let names = self.imported_as.get(path).into_iter().flatten();
        if let Some((name, _)) = names.max_by_key(|(_, times)| **times) {
            return without_end(path, name);
        }
        let above = roots.iter().filter(|r| path.starts_with(r));
        let nearest = above.max_by_key(|r| r.components().count());
        let folder = || path.parent().unwrap_or(path).to_owned();
        nearest.cloned().unwrap_or_else(folder)
    }
}

/// The folder from which the path is reached by its end.
fn without_end(path: &Path, end: &str) -> PathBuf {
    let parts = Path::new(end).components().count();
    path.ancestors().nth(parts).unwrap_or(path).to_owned()
}
