//! Both readers in one process: every answer of our library against the Rust's, on whole maps, on maps that
//! are cut off and on damaged ones.

mod alike;
mod altered;
mod asked;
mod bases;
mod book;
mod cases;
mod check;
mod choices;
mod collected;
mod copies;
mod crafted;
mod cuts;
mod damage;
mod foreign;
mod general;
mod held;
mod indexed;
mod intervals;
mod known;
mod lent;
mod library;
mod listed;
mod opening;
mod quick;
mod ruled;
mod streamed;
mod wanted;
mod way_data;
mod whole;
mod window;
mod zooming;

use std::io;
use std::path::PathBuf;
use std::process::ExitCode;
use std::thread;
use std::time::Instant;

use crate::random::Random;
use bases::Base;
use cases::Cases;
use check::{caught, Check};
use cuts::Cuts;
use lent::Lent;

const CASES: u64 = 100_000;
const QUICK_CASES: u64 = 1_200_000;
const SEED: u64 = 1;
/// Of a map with so many lengths and tiles all cuts are tried: those of all crafted and shipped maps, and in a quick run
/// those of the small ones.
const CUTS: usize = 2_000_000;
const QUICK_CUTS: usize = 10_000;

/// What is asked for on the command line.
struct Options {
    /// None if it is not said how many.
    cases: Option<u64>,
    quick: bool,
    seed: u64,
    threads: u64,
    /// A single case, to look at it again.
    only: Option<u64>,
    maps: Vec<PathBuf>,
}

impl Options {
    /// None if they make no sense.
    fn of(arguments: &[&str]) -> Option<Self> {
        let (cases, quick, seed, threads, only, maps) = (None, false, SEED, 1, None, Vec::new());
        let mut options = Options { cases, quick, seed, threads, only, maps };
        let mut arguments = arguments.iter();
        while let Some(&argument) = arguments.next() {
            let mut number = || arguments.next()?.parse::<u64>().ok();
            match argument {
                "--quick" => options.quick = true,
                "--cases" => options.cases = Some(number()?),
                "--seed" => options.seed = number()?,
                "--threads" => options.threads = number()?.max(1),
                "--only" => options.only = Some(number()?),
                _ if argument.starts_with('-') => return None,
                _ => options.maps.push(argument.into()),
            }
        }
        Some(options)
    }

    /// The same of a command that does not know all of them.
    fn of_those(known: &[&str], arguments: &[&str]) -> Option<Self> {
        let is_other = |argument: &&str| argument.starts_with('-') && !known.contains(argument);
        Options::of(arguments).filter(|_| !arguments.iter().any(is_other))
    }

    /// How many cases: what is said, else what is usual.
    fn cases(&self, usual: u64, quick: u64) -> u64 {
        self.cases.unwrap_or(if self.quick { quick } else { usual })
    }
}

/// Holds our next to the general one in made-up cases; None if the arguments make no sense.
pub fn run_quick(arguments: &[&str]) -> io::Result<Option<ExitCode>> {
    let known = ["--cases", "--seed", "--quick", "--only"];
    let Some(options) = Options::of_those(&known, arguments) else { return Ok(None) };
    check::keep_panics();
    let good = quick::compare(&bases(&options)?, &options);
    Ok(Some(if good { ExitCode::SUCCESS } else { ExitCode::FAILURE }))
}

/// Holds our stream to document 01's book; None if the arguments make no sense.
pub fn run_book(arguments: &[&str]) -> io::Result<Option<ExitCode>> {
    let Some(options) = Options::of_those(&["--cases"], arguments) else { return Ok(None) };
    check::keep_panics();
    let good = book::compare(&bases(&options)?, options.cases(CASES, CASES));
    Ok(Some(if good { ExitCode::SUCCESS } else { ExitCode::FAILURE }))
}

/// Holds our stream at each zoom to those at richer zooms; None if the arguments make no sense.
pub fn run_zooming(arguments: &[&str]) -> io::Result<Option<ExitCode>> {
    let known = ["--cases", "--seed", "--quick", "--only"];
    let Some(options) = Options::of_those(&known, arguments) else { return Ok(None) };
    check::keep_panics();
    let good = zooming::compare(&bases(&options)?, &options);
    Ok(Some(if good { ExitCode::SUCCESS } else { ExitCode::FAILURE }))
}

/// Holds our stream to the same on copies with other bytes in declined ways; None if the arguments make no sense.
pub fn run_altered(arguments: &[&str]) -> io::Result<Option<ExitCode>> {
    let known = ["--cases", "--seed", "--quick"];
    let Some(options) = Options::of_those(&known, arguments) else { return Ok(None) };
    check::keep_panics();
    let good = altered::compare(bases(&options)?, &options);
    Ok(Some(if good { ExitCode::SUCCESS } else { ExitCode::FAILURE }))
}

/// Holds the tiles of windows to walks over sub tiles and grids; None if the arguments make no sense.
pub fn run_window(arguments: &[&str]) -> io::Result<Option<ExitCode>> {
    let known = ["--cases", "--seed", "--quick", "--only"];
    let options = Options::of_those(&known, arguments).filter(|options| options.maps.is_empty());
    let Some(options) = options else { return Ok(None) };
    check::keep_panics();
    let good = window::compare(&options);
    Ok(Some(if good { ExitCode::SUCCESS } else { ExitCode::FAILURE }))
}

/// Holds our check of showing rules, and what they show, to a model; None if the arguments make no sense.
pub fn run_rules(arguments: &[&str]) -> io::Result<Option<ExitCode>> {
    let known = ["--cases", "--seed", "--quick", "--only"];
    let Some(options) = Options::of_those(&known, arguments) else { return Ok(None) };
    check::keep_panics();
    let good = ruled::compare(&bases(&options)?, &options);
    Ok(Some(if good { ExitCode::SUCCESS } else { ExitCode::FAILURE }))
}

/// Holds what a tile's stream will want to what it gives; None if the arguments make no sense.
pub fn run_wanted(arguments: &[&str]) -> io::Result<Option<ExitCode>> {
    let known = ["--cases", "--seed", "--quick", "--only"];
    let Some(options) = Options::of_those(&known, arguments) else { return Ok(None) };
    check::keep_panics();
    let good = wanted::compare(&bases(&options)?, &options);
    Ok(Some(if good { ExitCode::SUCCESS } else { ExitCode::FAILURE }))
}

/// Compares all; None if the arguments make no sense.
pub fn run(arguments: &[&str]) -> io::Result<Option<ExitCode>> {
    let Some(options) = Options::of(arguments) else { return Ok(None) };
    check::keep_panics();
    let bases = bases(&options)?;
    let start = Instant::now();
    let mut all = Check::default();
    // a single case is asked for to be looked at again
    let once = options.only.is_some();
    let whole = once || whole_maps(&bases, &mut all) && cut_maps(&bases, &options, &mut all);
    let good = whole && damaged_maps(&bases, &options, &mut all);
    println!();
    all.print();
    all.general.print();
    all.places.print();
    let long = options.cases(CASES, QUICK_CASES) >= QUICK_CASES;
    let good = good && (!long || once || all_came(&all));
    println!("time: {:.1} s", start.elapsed().as_secs_f64());
    Ok(Some(if good { ExitCode::SUCCESS } else { ExitCode::FAILURE }))
}

fn bases(options: &Options) -> io::Result<Vec<Base>> {
    let mut bases = bases::crafted();
    bases.extend(bases::repository()?);
    for path in &options.maps {
        bases.push(bases::of_file(path)?);
    }
    Ok(bases)
}

fn whole_maps(bases: &[Base], all: &mut Check) -> bool {
    let start = Instant::now();
    let mut differences = 0;
    for base in bases {
        let (mut lent, mut random) = (Lent::default(), Random::new(SEED));
        let compared = caught(|| whole::compare(all, &mut lent, base, &mut random));
        all.end_case();
        if let Err(why) = compared.and_then(|compared| compared) {
            println!("UNEXPLAINED: {}, undamaged: {why}", base.name);
            base.print_if_small();
            differences += 1;
        }
    }
    println!(
        "undamaged: {}, {differences} of the maps differ; {:.1} s",
        bases::told(bases),
        start.elapsed().as_secs_f64()
    );
    differences == 0
}

/// The maps cut off, shared out among threads by their numbers.
fn cut_maps(bases: &[Base], options: &Options, all: &mut Check) -> bool {
    let start = Instant::now();
    let most = if options.quick { QUICK_CUTS } else { CUTS };
    let of_thread = |thread: u64| {
        let mut cuts = Cuts::default();
        for base in bases.iter().skip(thread as usize).step_by(options.threads as usize) {
            cuts.compare(base, most);
            if cuts.differences >= ENOUGH {
                break;
            }
        }
        cuts
    };
    let ended: Vec<_> = thread::scope(|scope| {
        let run = |thread| scope.spawn(move || of_thread(thread));
        let running: Vec<_> = (0..options.threads).map(run).collect();
        running.into_iter().map(|thread| thread.join()).collect()
    });
    let mut cuts = Cuts::default();
    for thread in ended {
        match thread {
            Ok(thread) => cuts.add(thread),
            Err(_) => cuts.differences += 1,
        }
    }
    cuts.print(start.elapsed().as_secs_f64());
    let good = cuts.differences == 0;
    all.add(cuts.check);
    good
}

/// Whether each refusal of the table came at least once, each class of nexts, and whether all that can be plain was so and was
/// not so: else a run of so many cases has lost what it is for.
fn all_came(all: &Check) -> bool {
    let missing = all.missing();
    if !missing.is_empty() {
        println!("UNEXPLAINED: no call was refused with {missing:?}");
    }
    let unsaid = all.unsaid();
    if !unsaid.is_empty() {
        println!("UNEXPLAINED: these did not say both that numbers are plain and that one is not: {unsaid:?}");
    }
    let unheld = all.general.missing();
    if !unheld.is_empty() {
        println!("UNEXPLAINED: these nexts were not held to the general next: {unheld:?}");
    }
    let unlisted = all.places.missing();
    if !unlisted.is_empty() {
        println!("UNEXPLAINED: no list of places led to {unlisted:?}");
    }
    missing.is_empty() && unsaid.is_empty() && unheld.is_empty() && unlisted.is_empty()
}

/// The cases, shared out among threads by their numbers.
fn damaged_maps(bases: &[Base], options: &Options, all: &mut Check) -> bool {
    let start = Instant::now();
    let ended: Vec<_> = thread::scope(|scope| {
        let run = |thread| scope.spawn(move || of_thread(bases, options, thread));
        let running: Vec<_> = (0..options.threads).map(run).collect();
        running.into_iter().map(|thread| thread.join()).collect()
    });
    let (mut cases, mut differences) = (0, 0);
    for thread in ended {
        let Ok(thread) = thread else {
            println!("UNEXPLAINED: a thread of the driver ended early");
            differences += 1;
            continue;
        };
        all.add(thread.check);
        cases += thread.cases;
        differences += thread.differences;
    }
    println!(
        "damaged: {cases} cases, seed {}, {differences} differ; {:.1} s",
        options.seed,
        start.elapsed().as_secs_f64()
    );
    differences == 0
}

/// What a thread has done.
#[derive(Default)]
struct Thread {
    check: Check,
    cases: u64,
    differences: u64,
}

/// Behind so many differences a thread ends.
const ENOUGH: u64 = 5;

/// Each difference is told where it is found, since a long run may not come to its end.
fn of_thread(bases: &[Base], options: &Options, thread: u64) -> Thread {
    let mut done = Thread::default();
    let mut cases = match Cases::new(options.seed, bases) {
        Ok(cases) => cases,
        Err(why) => {
            println!("UNEXPLAINED: {why}");
            return Thread { differences: 1, ..done };
        }
    };
    let end = options.cases(CASES, QUICK_CASES);
    let numbers = (thread..end).step_by(options.threads as usize);
    let only = options.only.filter(|_| thread == 0);
    for case in numbers.filter(|_| options.only.is_none()).chain(only) {
        done.cases += 1;
        if let Err(why) = cases.run(&mut done.check, case) {
            println!("UNEXPLAINED: {why}");
            done.differences += 1;
        }
        if done.differences >= ENOUGH {
            break;
        }
    }
    done
}
