//! Holds a console program to the reference on random and damaged calls. See README.md.

#![forbid(unsafe_code)]

mod again;
mod author;
mod bytes;
mod compare;
mod counts;
mod damage;
mod faults;
mod left;
mod names;
mod older;
mod plant;
mod program;
mod rounds;
mod script;
mod selection;
mod shapes;
mod shrink;

use std::fs;
use std::io;
use std::path::{Path, PathBuf};
use std::process::ExitCode;
use std::time::{Instant, SystemTime, UNIX_EPOCH};

use compare::{difference, Difference};
use counts::Counts;
use plant::{mistakes_in, Mistake};
use program::Program;
use script::{lines_of, Script};

/// The gate's seeds: a run is the same every time.
const SEEDS: [u64; 4] = [220, 118, 6656, 3011];
/// Calls of a run, shared among its seeds.
const CALLS: usize = 220_000;
/// A line of a failure is shown up to here.
const SHOWN: usize = 300;

const USAGE: &str = "differential PROGRAM [--seeds N,N,..] [--fresh] [--calls N]
differential PROGRAM --script FILE
differential --planted NAME,NAME,.. | all
PROGRAM reads a script on standard input and writes the answers, as the console does.";

struct Options {
    program: Option<PathBuf>,
    seeds: Vec<u64>,
    calls: usize,
    script: Option<PathBuf>,
    planted: Option<String>,
}

fn options(mut words: impl Iterator<Item = String>) -> Option<Options> {
    let mut options = Options {
        program: None,
        seeds: SEEDS.to_vec(),
        calls: CALLS,
        script: None,
        planted: None,
    };
    while let Some(word) = words.next() {
        match &word[..] {
            "--seeds" => {
                let seeds = words.next()?;
                let seeds = seeds.split(',').map(|seed| seed.parse().ok());
                options.seeds = seeds.collect::<Option<_>>()?;
            }
            "--fresh" => options.seeds = vec![fresh_seed()],
            "--calls" => options.calls = words.next()?.parse().ok()?,
            "--script" => options.script = Some(PathBuf::from(words.next()?)),
            "--planted" => options.planted = Some(words.next()?),
            _ if word.starts_with('-') || options.program.is_some() => return None,
            _ => options.program = Some(PathBuf::from(word)),
        }
    }
    (options.program.is_some() != options.planted.is_some()).then_some(options)
}

/// From the clock; it is printed, so that the run can be had again.
fn fresh_seed() -> u64 {
    let since = SystemTime::now().duration_since(UNIX_EPOCH);
    since.map_or(1, |since| since.as_nanos() as u64 % 1_000_000_000)
}

fn main() -> ExitCode {
    let Some(options) = options(std::env::args().skip(1)) else {
        eprintln!("{USAGE}");
        return ExitCode::from(2);
    };
    let good = match (&options.planted, &options.script, &options.program) {
        (Some(names), _, _) => check_planted(names, &options),
        (_, Some(file), Some(path)) => check_script(file, &Program::new(path)),
        (_, _, Some(path)) => check_seeds(&Program::new(path), &options),
        _ => Ok(false),
    };
    match good {
        Ok(true) => ExitCode::SUCCESS,
        Ok(false) => ExitCode::from(1),
        Err(error) => {
            eprintln!("differential: {error}");
            ExitCode::from(2)
        }
    }
}

/// Where scripts and planted programs are put: never committed.
fn scratch() -> PathBuf {
    Path::new(env!("CARGO_MANIFEST_DIR")).join("target")
}

/// A script that the program answers otherwise than the reference.
struct Failure {
    seed: u64,
    number: usize,
    shape: &'static str,
    script: Script,
    difference: Difference,
}

/// Runs scripts until each seed has its share of the calls, or one differs.
fn run(program: &Program, options: &Options) -> io::Result<(Counts, Option<Failure>)> {
    let mut counts = Counts::default();
    for (index, seed) in options.seeds.iter().enumerate() {
        let share = options.calls * (index + 1) / options.seeds.len();
        let mut number = 0;
        while counts.calls() < share {
            let (script, shape) = shapes::script(*seed, number);
            if let Err(step) = counts.add(&script) {
                let line = String::from_utf8_lossy(&script.steps[step].line);
                return Err(io::Error::other(format!(
                    "seed {seed}, script {number}: the reference reads or writes back otherwise: {line}"
                )));
            }
            if let Some(difference) = difference(&script, program)? {
                let failure = Failure {
                    seed: *seed,
                    number,
                    shape,
                    script,
                    difference,
                };
                return Ok((counts, Some(failure)));
            }
            number += 1;
        }
    }
    Ok((counts, None))
}

fn check_seeds(program: &Program, options: &Options) -> io::Result<bool> {
    let start = Instant::now();
    let (counts, failure) = run(program, options)?;
    let seconds = start.elapsed().as_secs_f32();
    if let Some(failure) = failure {
        println!(
            "differential: DIFFERS: seed {}, script {} ({}), after {} calls",
            failure.seed,
            failure.number,
            failure.shape,
            counts.calls()
        );
        let kept = scratch().join(format!(
            "differs-{}-{}.script",
            failure.seed, failure.number
        ));
        let short = shrunk(&failure.script, program);
        fs::create_dir_all(scratch())?;
        fs::write(&kept, short.concat())?;
        show(&Script::of_lines(&short), program)?;
        println!("differential: the script is in {}", kept.display());
        return Ok(false);
    }
    // The fixed seeds meet every answer; a changed generator that no longer does is no
    // test of the rest.
    let missing = counts.missing();
    if options.seeds == SEEDS && options.calls >= CALLS && !missing.is_empty() {
        println!("differential: never answered: {}", missing.join(", "));
        return Ok(false);
    }
    println!(
        "differential: agree: seeds {:?}, {} scripts, {} calls in {seconds:.0} s: {counts}",
        options.seeds,
        counts.scripts,
        counts.calls()
    );
    Ok(true)
}

/// A stored script again, after a change.
fn check_script(file: &Path, program: &Program) -> io::Result<bool> {
    let script = Script::of_lines(&lines_of(&fs::read(file)?));
    if difference(&script, program)?.is_some() {
        show(&script, program)?;
        return Ok(false);
    }
    println!("differential: agree on {}", file.display());
    Ok(true)
}

fn shrunk(script: &Script, program: &Program) -> Vec<Vec<u8>> {
    shrink::shrink(script.lines(), &mut |lines| {
        let found = difference(&Script::of_lines(lines), program);
        found.is_ok_and(|found| found.is_some())
    })
}

/// The script with its answers, and the first difference.
fn show(script: &Script, program: &Program) -> io::Result<()> {
    let found = difference(script, program)?;
    for (index, step) in script.steps.iter().enumerate() {
        print_lines("    ", &String::from_utf8_lossy(&step.line));
        if let Some(found) = found.as_ref().filter(|found| found.step == index) {
            print_difference(found);
        }
    }
    if let Some(found) = found.filter(|found| found.step == script.steps.len()) {
        print_difference(&found);
    }
    Ok(())
}

fn print_difference(found: &Difference) {
    print_lines("  reference: ", &found.reference);
    print_lines("  program:   ", &found.program);
}

fn print_lines(before: &str, text: &str) {
    for line in text.lines() {
        let shown: String = line.chars().take(SHOWN).collect();
        let more = if shown.len() < line.len() { " .." } else { "" };
        println!("{before}{}{more}", shown.escape_debug());
    }
}

/// Each mistake must be noticed by the same run that the gate makes.
fn check_planted(names: &str, options: &Options) -> io::Result<bool> {
    let here = Path::new(env!("CARGO_MANIFEST_DIR"));
    let mut mistakes = mistakes_in(&here.join("planted"))?;
    if names != "all" {
        let names: Vec<&str> = names.split(',').collect();
        mistakes.retain(|mistake| names.iter().any(|name| mistake.name.starts_with(name)));
    }
    let mut missed = 0;
    for mistake in &mistakes {
        let path = mistake.build(&here.join("../reference"), &scratch().join("planted"))?;
        if !notices(mistake, &Program::new(&path), options)? {
            missed += 1;
        }
    }
    println!(
        "differential: {} planted mistakes, {missed} not noticed",
        mistakes.len()
    );
    Ok(missed == 0 && !mistakes.is_empty())
}

fn notices(mistake: &Mistake, program: &Program, options: &Options) -> io::Result<bool> {
    let (counts, failure) = run(program, options)?;
    let Some(failure) = failure else {
        println!(
            "{}: NOT NOTICED in {} calls: {}",
            mistake.name,
            counts.calls(),
            mistake.about
        );
        return Ok(false);
    };
    let line = &failure.script.steps.get(failure.difference.step);
    let call = line.map_or("", |step| {
        let text = std::str::from_utf8(&step.line).unwrap_or("");
        text.split_whitespace().next().unwrap_or("")
    });
    println!(
        "{}: noticed by {call} in script {} ({}) of seed {}, after {} calls: {}",
        mistake.name,
        failure.number,
        failure.shape,
        failure.seed,
        counts.calls(),
        mistake.about
    );
    show(
        &Script::of_lines(&shrunk(&failure.script, program)),
        program,
    )?;
    Ok(true)
}
