//! The proved library against `reference`, an independent reading of the same document, on drawn inputs: number, place,
//! every field and every lent byte are the same each time, and nothing outside of what was lent is touched.
//!
//! FR_INPUTS is how many inputs are drawn, two million if it is not given; FR_SEED is the seed, 1 if it is not given.

mod back;
mod days;
mod fronts;
mod lent;
mod library;
mod lines;
mod pairs;
mod reasons;
mod rows;
mod show;
mod types;
mod walks;
mod words;
mod wrapper;
mod wrong;
mod wrong_fronts;
mod wrong_reasons;
mod wrong_walks;

use std::collections::{BTreeMap, BTreeSet};
use std::env;
use std::io::{stdout, Write};
use std::time::Instant;

use reference::inputs::{answers, run, Call, Inputs, Outcome, Reference};
use show::{Counts, Kind};

/// A program that is compared with the reference: its outcome, or what it did that no program may.
type Program<'a> = (&'a str, &'a dyn Fn(&Call) -> Result<Outcome, String>);

/// A number from the environment.
fn setting(name: &str, otherwise: u64) -> u64 {
    match env::var(name) {
        Ok(value) => value.parse().unwrap_or_else(|_| panic!("{name} is not a number: {value}")),
        Err(_) => otherwise,
    }
}

/// Puts drawn calls to the programs and to the reference; asks of the seal of each reading why it is refused and opens
/// a walk over it, and of some makes a step at every place. How often each answer was given, how often the calendar, a
/// pair or a row decided, what walks and look-ups came to, the reasons, the first hopeless bytes, or the first
/// difference.
fn compare(seed: u64, count: u64, programs: &[Program]) -> Result<Counts, String> {
    let (mut inputs, mut counts) = (Inputs::new(seed), Counts::default());
    for at in 0..count {
        let call = inputs.next();
        let steps = if at % 64 == 0 { walks::every_place(&call) } else { vec![] };
        let calls = call.beside().chain(steps).collect::<Vec<_>>();
        let agreed = [call].iter().chain(&calls).try_for_each(|call| put(call, programs, &mut counts));
        agreed.map_err(|difference| format!("difference at input {at} of seed {seed}\n{difference}"))?;
    }
    Ok(counts)
}

/// Puts one call to the programs and to the reference, and counts what came of it, unless there is a difference.
fn put(call: &Call, programs: &[Program], counts: &mut Counts) -> Result<(), String> {
    let expected = run(&Reference, call);
    let agreed = programs.iter().try_for_each(|program| agrees(program, call, &expected));
    let agreed = agreed.and_then(|()| back::back(call, &expected));
    agreed.map_err(|said| format!("{}\n{said}\nreference {}", show::given(call), show::outcome(&expected)))?;
    counts.add(call, &expected);
    Ok(())
}

/// Whether the program's outcome is the expected one; if not, what it said.
fn agrees((name, program): &Program, call: &Call, expected: &Outcome) -> Result<(), String> {
    match program(call) {
        Ok(outcome) if outcome == *expected => Ok(()),
        Ok(outcome) => Err(format!("{name} {}", show::outcome(&outcome))),
        Err(fault) => Err(format!("{name} {fault}")),
    }
}

#[test]
fn the_library_answers_as_the_reference_does() {
    let (seed, count) = (setting("FR_SEED", 1), setting("FR_INPUTS", 2_000_000));
    let start = Instant::now();
    let programs: [Program; 2] = [("library", &library::library), ("wrapper", &wrapper::wrapper)];
    let counts = compare(seed, count, &programs).unwrap_or_else(|difference| panic!("{difference}"));
    let seconds = start.elapsed().as_secs_f64();
    // Straight to standard output, as the test harness keeps back what a passing test prints.
    let table = format!("{count} inputs of seed {seed}, no difference, {seconds:.1} s\nanswer     times   by call\n");
    stdout().write_all((table + &show::counts(&counts)).as_bytes()).expect("standard output");
    assert!(counts.answers.into_keys().eq(answers()), "not every answer was given, or one that is none");
    for decided in [days::PAST_ITS_MONTH, days::LEAP_DAY] {
        assert_eq!(counts.dates[decided].len(), 5, "a date {decided}: not by every call that takes dates");
    }
    assert_eq!(seen(counts.pairs), all(&pairs::ALL), "not every kind of faulty pair");
    assert_eq!(seen(counts.rows), all(&rows::ALL), "not every kind of row or room");
    assert_eq!(seen(counts.walks), all(&walks::ALL), "not every kind of step or look-up");
    assert_eq!(seen(counts.fronts), all(&fronts::ALL), "not every kind of hopeless byte");
    counts.reasons.must_be_all();
}

/// The kinds that were counted at least once.
fn seen(counts: BTreeMap<Kind, u64>) -> BTreeSet<Kind> {
    counts.into_iter().filter(|(_, times)| *times > 0).map(|(kind, _)| kind).collect()
}

/// All kinds of a list.
fn all(list: &[(&'static str, &[&'static str])]) -> BTreeSet<Kind> {
    list.iter().flat_map(|(answer, kinds)| kinds.iter().map(|kind| (*answer, *kind))).collect()
}
