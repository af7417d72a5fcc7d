//! The oracle: runs the crate protobuf 3.7.2 on file images.

// Without our linker, what only its commands use stands idle.
#![cfg_attr(not(has_njuolasti), allow(dead_code))]

mod answers;
#[cfg(has_njuolasti)]
mod bench;
mod case;
mod compare;
mod crowded;
mod damage;
mod domain;
mod files;
#[cfg(has_njuolasti)]
mod formed;
mod image;
mod index;
mod limits;
mod link;
#[cfg(has_njuolasti)]
mod linked;
#[cfg(has_njuolasti)]
mod lookups;
mod make;
mod makers;
#[cfg(has_njuolasti)]
mod ours;
mod protoc;
mod purpose;
mod random;
mod real;
mod rng;
mod show;
#[cfg(has_njuolasti)]
mod spoil;
mod stored;
mod tree;

use std::io::Write;
use std::process::ExitCode;

use case::Case;

const USAGE: &str =
    "usage: oracle cases real|random|purpose|limits|crowded|damage [--seed N] [--count N] [-o FILE]
       oracle compile FILES PROTOC OUT
       oracle stored DIR
       oracle answers CASES [-o FILE]
       oracle compare CASES CRATE_ANSWERS OUR_ANSWERS [--keep FILE]
       oracle linked real|random|purpose|limits|crowded|damage|CASES [--seed N] [--count N] [--every N] [--keep FILE]
       oracle spoil real|random|purpose|limits|crowded|damage|CASES [--seed N] [--count N]
       oracle bench [--rows FILE]
       oracle show CASES NAME
       oracle image SET -o FOLDER";

#[cfg(not(has_njuolasti))]
const NOT_LINKED: &str = "this oracle was built without our linker, which is linked in on Linux alone: run ./staticlib in the repository (on another machine than x86-64 oracle/native), then oracle/build";

/// What a command comes to: nothing wrong, differences found, or files left out.
enum Outcome {
    Good,
    Differences,
    LeftOut,
}

fn main() -> ExitCode {
    let args: Vec<String> = std::env::args().skip(1).collect();
    match on_a_deep_stack(move || run(&args)) {
        Ok(Outcome::Good) => ExitCode::SUCCESS,
        Ok(Outcome::Differences | Outcome::LeftOut) => ExitCode::from(1),
        Err(text) => {
            eprintln!("oracle: {text}");
            ExitCode::from(2)
        }
    }
}

/// A descriptor nests as deep as its image says, and is walked by functions that call themselves.
fn on_a_deep_stack(
    work: impl FnOnce() -> Result<Outcome, String> + Send + 'static,
) -> Result<Outcome, String> {
    let builder = std::thread::Builder::new().stack_size(answers::STACK);
    let worker = builder
        .spawn(work)
        .map_err(|e| format!("no thread to work in: {e}"))?;
    worker
        .join()
        .unwrap_or_else(|_| Err("the oracle itself panicked".to_owned()))
}

fn run(args: &[String]) -> Result<Outcome, String> {
    let Some((command, rest)) = args.split_first() else {
        return Err(format!("no command\n{USAGE}"));
    };
    match command.as_str() {
        "cases" => cases(rest),
        "compile" => compile(rest),
        "answers" => answers(rest),
        "compare" => compare(rest),
        "show" => show(rest),
        "stored" => stored(rest),
        "image" => image(rest),
        #[cfg(has_njuolasti)]
        "linked" => linked(rest),
        #[cfg(has_njuolasti)]
        "spoil" => spoil(rest),
        #[cfg(has_njuolasti)]
        "bench" => bench(rest),
        #[cfg(not(has_njuolasti))]
        "linked" | "spoil" | "bench" => Err(NOT_LINKED.to_owned()),
        other => Err(format!("there is no command `{other}`\n{USAGE}")),
    }
}

/// Takes `flag VALUE` out of the arguments; what is left are plain ones.
fn take_option(args: &[String], flag: &str) -> Result<(Vec<String>, Option<String>), String> {
    let mut plain = args.to_vec();
    let Some(at) = plain.iter().position(|a| a == flag) else {
        return Ok((plain, None));
    };
    if at + 1 == plain.len() {
        return Err(format!("{flag} needs a value\n{USAGE}"));
    }
    let value = plain.remove(at + 1);
    plain.remove(at);
    Ok((plain, Some(value)))
}

fn take_number<T: std::str::FromStr>(
    args: &[String],
    flag: &str,
) -> Result<(Vec<String>, Option<T>), String> {
    let (plain, value) = take_option(args, flag)?;
    let wrong = |text: &String| format!("{flag} needs a number, not `{text}`\n{USAGE}");
    let number = value
        .map(|text| text.parse().map_err(|_| wrong(&text)))
        .transpose()?;
    Ok((plain, number))
}

/// Exactly so many plain arguments.
fn plain<const N: usize>(args: Vec<String>) -> Result<[String; N], String> {
    let count = args.len();
    args.try_into()
        .map_err(|_| format!("{N} arguments are wanted, not {count}\n{USAGE}"))
}

fn read(path: &str) -> Result<String, String> {
    std::fs::read_to_string(path).map_err(|e| format!("{path}: {e}"))
}

fn read_cases(path: &str) -> Result<Vec<Case>, String> {
    case::read_cases(&read(path)?).map_err(|e| format!("{path}: {e}"))
}

/// Writes to the file, or to the standard output if there is none.
fn write(path: Option<&str>, text: &str) -> Result<(), String> {
    match path {
        Some(path) => std::fs::write(path, text).map_err(|e| format!("{path}: {e}")),
        None => std::io::stdout()
            .write_all(text.as_bytes())
            .map_err(|e| format!("standard output: {e}")),
    }
}

fn cases(args: &[String]) -> Result<Outcome, String> {
    let (args, output) = take_option(args, "-o")?;
    let (args, seed) = take_number(&args, "--seed")?;
    let (args, count) = take_number(&args, "--count")?;
    let [kind] = plain(args)?;
    let (cases, line) = makers::make(&kind, seed, count)?;
    write(output.as_deref(), &case::write_cases(&cases))?;
    eprintln!("{line}");
    Ok(Outcome::Good)
}

fn compile(args: &[String]) -> Result<Outcome, String> {
    let [files, protoc, out] = plain(args.to_vec())?;
    println!(
        "{}",
        protoc::compile(files.as_ref(), protoc.as_ref(), out.as_ref())?
    );
    Ok(Outcome::Good)
}

fn answers(args: &[String]) -> Result<Outcome, String> {
    let (args, output) = take_option(args, "-o")?;
    let [path] = plain(args)?;
    let (answers, tally) = answers::answer_all(&read_cases(&path)?)?;
    write(output.as_deref(), &case::write_answers(&answers))?;
    eprintln!(
        "{} cases: {} files accepted ({} of them by the public interface alone), {} failed, {} panicked, {} not asked",
        answers.len(),
        tally.accepted,
        tally.without_index,
        tally.failed,
        tally.panicked,
        tally.skipped
    );
    Ok(Outcome::Good)
}

fn compare(args: &[String]) -> Result<Outcome, String> {
    let (args, keep) = take_option(args, "--keep")?;
    let [case_path, crate_path, our_path] = plain(args)?;
    let cases = read_cases(&case_path)?;
    let read_answers =
        |path: &str| case::read_answers(&read(path)?).map_err(|e| format!("{path}: {e}"));
    let report = compare::compare(
        &cases,
        &read_answers(&crate_path)?,
        &read_answers(&our_path)?,
    )?;
    for line in &report.lines {
        println!("{line}");
    }
    println!("{}", report.summary());
    let Some(smallest) = report.smallest else {
        return Ok(Outcome::Good);
    };
    if let Some(path) = keep {
        write(Some(&path), &case::write_cases(&cases[smallest..=smallest]))?;
        println!(
            "the smallest differing case, `{}`, is in {path}",
            cases[smallest].name
        );
    }
    Ok(Outcome::Differences)
}

/// The cases that are made and compared at a time.
#[cfg(has_njuolasti)]
const PORTION: usize = 500;

#[cfg(has_njuolasti)]
fn linked(args: &[String]) -> Result<Outcome, String> {
    let (args, keep) = take_option(args, "--keep")?;
    let (args, seed) = take_number(&args, "--seed")?;
    let (args, count) = take_number(&args, "--count")?;
    let (args, every) = take_number(&args, "--every")?;
    let [kind] = plain(args)?;
    let every = every.filter(|n| *n > 0).unwrap_or(1);
    let mut total = linked::Total::new(every);
    makers::each_portion(&kind, seed, count, PORTION, |cases| total.run(cases))?;
    for line in total.lines() {
        println!("{line}");
    }
    println!("{}", total.summary());
    let Some(smallest) = &total.smallest else {
        return Ok(Outcome::Good);
    };
    if let Some(path) = keep {
        write(
            Some(&path),
            &case::write_cases(std::slice::from_ref(smallest)),
        )?;
        println!(
            "the smallest differing case, `{}`, is in {path}",
            smallest.name
        );
    }
    Ok(Outcome::Differences)
}

#[cfg(has_njuolasti)]
fn spoil(args: &[String]) -> Result<Outcome, String> {
    let (args, seed) = take_number(args, "--seed")?;
    let (args, count) = take_number(&args, "--count")?;
    let [kind] = plain(args)?;
    let mut total = spoil::Total::default();
    makers::each_portion(&kind, seed, count, PORTION, |cases| {
        total.run(cases, seed.unwrap_or(1));
        Ok(())
    })?;
    for line in &total.lines {
        println!("{line}");
    }
    println!("{}", total.summary());
    Ok(if total.lines.is_empty() {
        Outcome::Good
    } else {
        Outcome::Differences
    })
}

#[cfg(has_njuolasti)]
fn bench(args: &[String]) -> Result<Outcome, String> {
    let (args, path) = take_option(args, "--rows")?;
    let [] = plain(args)?;
    let mut rows = String::new();
    write(None, &bench::run(&mut rows)?)?;
    if path.is_some() {
        write(path.as_deref(), &rows)?;
    }
    Ok(Outcome::Good)
}

fn show(args: &[String]) -> Result<Outcome, String> {
    let [path, name] = plain(args.to_vec())?;
    let cases = read_cases(&path)?;
    let Some(case) = cases.iter().find(|c| c.name == name) else {
        return Err(format!("{path} has no case `{name}`"));
    };
    write(None, &show::show(case)?)?;
    Ok(Outcome::Good)
}

fn stored(args: &[String]) -> Result<Outcome, String> {
    let [folder] = plain(args.to_vec())?;
    eprintln!("{}", stored::write(folder.as_ref())?);
    Ok(Outcome::Good)
}

fn image(args: &[String]) -> Result<Outcome, String> {
    let (args, folder) = take_option(args, "-o")?;
    let [set] = plain(args)?;
    let folder = folder.ok_or_else(|| format!("-o FOLDER is wanted\n{USAGE}"))?;
    let mut outcome = Outcome::Good;
    for line in files::write(set.as_ref(), folder.as_ref())? {
        match line {
            Ok(written) => println!("{written}"),
            Err(left_out) => {
                eprintln!("{left_out}");
                outcome = Outcome::LeftOut;
            }
        }
    }
    Ok(outcome)
}
