//! Drives the programs and the model on the same cases and compares every byte.

mod calls;
mod checksum_calls;
mod drives_calls;
mod fields;
mod in_place_calls;
mod known;
mod known_checksum;
mod known_drives;
mod known_slices;
mod known_storms;
mod listing_calls;
mod programs;
mod random;
mod slice_answers;
mod slice_calls;
mod storms;
mod streams;
mod two_ways;

use calls::Call;
use programs::Program;
use random::Random;
use slice_calls::Asked;
use std::panic::catch_unwind;
use std::process::ExitCode;
use std::sync::atomic::{AtomicBool, AtomicUsize, Ordering};
use std::sync::Mutex;

/// The model that is compared: a session of one of the programs `test_probe_..`, and a run of
/// `sbrlist`.
#[derive(Clone, Copy)]
pub struct Model {
    pub session: fn(usize, &[u8]) -> Vec<u8>,
    pub listing: fn(&[u8]) -> Vec<u8>,
}

/// The programs that make calls, as `probe::program_of` counts them: what may name another command
/// for each, and where it is.
const PROBES: [(&str, &str); 4] = [
    ("PROBE_READERS", "bin/test_probe_readers"),
    ("PROBE_LISTING", "bin/test_probe_listing"),
    ("PROBE_CALLS", "bin/test_probe_calls"),
    ("PROBE_SLICES", "bin/test_probe_slices"),
];

/// The first of them, which makes the calls of the readers of one family.
const READERS: usize = 0;
/// The last of them, which makes those of the readers of a slice.
pub const SLICES: usize = 3;

/// How much of what is run.
struct Amount {
    random_sessions: usize,
    storm_sessions: usize,
    slice_sessions: usize,
    listings: usize,
    storm_listings: usize,
    full_listings: usize,
}

const DEFAULT: Amount = Amount {
    random_sessions: 50,
    storm_sessions: 20,
    slice_sessions: 16,
    listings: 1000,
    storm_listings: 100,
    full_listings: 6,
};
const LONG: Amount = Amount {
    random_sessions: 1000,
    storm_sessions: 400,
    slice_sessions: 320,
    listings: 12_000,
    storm_listings: 2000,
    full_listings: 24,
};
const CALLS_IN_A_SESSION: usize = 600;
const LISTINGS_IN_A_JOB: usize = 20;
const CASES_IN_TWO_WAYS: u64 = 300;

#[derive(Clone, Copy)]
enum Job {
    KnownCalls,
    KnownSlices,
    KnownListings,
    TwoWays(usize),
    TwoChecksums,
    Sweep(usize),
    RandomSession(usize),
    BrokenSession(usize),
    StormSession(usize),
    SliceSweep(usize),
    SliceSession(usize),
    Listings(usize),
    StormListings(usize),
    FullListing(usize),
}

/// What a run was asked for.
struct Run {
    model: Model,
    probes: [Program; 4],
    sbrlist: Program,
    seed: u64,
    at_once: usize,
    amount: Amount,
    /// Whether the programs `test_probe_..` are run at all.
    calls: bool,
    /// Whether `sbrlist` is.
    lists: bool,
    /// Whether only the known cases are.
    known_only: bool,
}

#[derive(Default)]
struct Counts {
    calls: AtomicUsize,
    listings: AtomicUsize,
}

/// `[--long] [--seed N] [--against-model] [--calls-only | --listings-only] [--known-only]`
pub fn run(model: Model, arguments: impl Iterator<Item = String>) -> ExitCode {
    let run = match asked_for(model, arguments) {
        Ok(run) => run,
        Err(wrong) => {
            eprintln!("{wrong}");
            return ExitCode::from(2);
        }
    };
    let counts = Counts::default();
    let disagreement = first_disagreement(&run, &counts);
    let (calls, listings) =
        (counts.calls.load(Ordering::Relaxed), counts.listings.load(Ordering::Relaxed));
    match disagreement {
        None => {
            println!("agree: {calls} calls and {listings} listings, seed {}", run.seed);
            ExitCode::SUCCESS
        }
        Some(report) => {
            println!("DISAGREE: seed {}, {report}", run.seed);
            println!("before it {calls} calls and {listings} listings agreed");
            ExitCode::from(1)
        }
    }
}

fn asked_for(model: Model, mut arguments: impl Iterator<Item = String>) -> Result<Run, String> {
    let mut run = Run {
        model,
        probes: PROBES.map(|(variable, default)| Program::of_environment(variable, default)),
        sbrlist: Program::of_environment("SBRLIST", "bin/sbrlist"),
        seed: 1,
        at_once: 2,
        amount: DEFAULT,
        calls: true,
        lists: true,
        known_only: false,
    };
    while let Some(argument) = arguments.next() {
        match argument.as_str() {
            "--long" => run.amount = LONG,
            "--seed" => run.seed = seed_of(arguments.next())?,
            "--against-model" => {
                run.probes = [
                    Program::Model(|input| right::probe::session(0, input)),
                    Program::Model(|input| right::probe::session(1, input)),
                    Program::Model(|input| right::probe::session(2, input)),
                    Program::Model(|input| right::probe::session(3, input)),
                ];
                run.sbrlist = Program::Model(right::listing::listing);
                run.at_once = 1;
            }
            "--calls-only" => run.lists = false,
            "--listings-only" => run.calls = false,
            "--known-only" => run.known_only = true,
            other => return Err(format!("no such argument: {other}")),
        }
    }
    match run.calls || run.lists {
        true => Ok(run),
        false => Err("--calls-only and --listings-only leave nothing to run".to_string()),
    }
}

fn seed_of(argument: Option<String>) -> Result<u64, String> {
    argument.and_then(|seed| seed.parse().ok()).ok_or("--seed needs a number".to_string())
}

/// The sweeps, then random cases of every kind. The known cases come first; against the model
/// last, so that a fault is left to the generators.
fn jobs(run: &Run, sweeps: usize) -> Vec<Job> {
    let mut jobs = Vec::new();
    jobs.extend((0..4).map(Job::BrokenSession));
    jobs.extend((0..sweeps).map(Job::Sweep));
    jobs.extend((0..slice_calls::SWEEPS).map(Job::SliceSweep));
    let amount = &run.amount;
    let listing_jobs = amount.listings / LISTINGS_IN_A_JOB;
    let storm_listing_jobs = amount.storm_listings / LISTINGS_IN_A_JOB;
    let sessions = amount.random_sessions.max(amount.storm_sessions).max(amount.slice_sessions);
    let listings = listing_jobs.max(storm_listing_jobs).max(amount.full_listings);
    for order in 0..sessions.max(listings) {
        if order < listing_jobs {
            jobs.push(Job::Listings(order));
        }
        if order < amount.random_sessions {
            jobs.push(Job::RandomSession(order));
            jobs.push(Job::BrokenSession(order + 4));
        }
        if order < amount.storm_sessions {
            jobs.push(Job::StormSession(order));
        }
        if order < amount.slice_sessions {
            jobs.push(Job::SliceSession(order));
        }
        if order < storm_listing_jobs {
            jobs.push(Job::StormListings(order));
        }
        if order < amount.full_listings {
            jobs.push(Job::FullListing(order));
        }
    }
    let two_ways = (0..=streams::FAMILIES.len()).map(Job::TwoWays);
    let known = [Job::KnownCalls, Job::KnownSlices, Job::KnownListings, Job::TwoChecksums];
    let known: Vec<Job> = known.into_iter().chain(two_ways).collect();
    let mut jobs = match run.sbrlist {
        _ if run.known_only => known,
        Program::Model(_) => [jobs, known].concat(),
        Program::Command(_) => [known, jobs].concat(),
    };
    jobs.retain(|&job| if is_of_listings(job) { run.lists } else { run.calls });
    jobs
}

fn is_of_listings(job: Job) -> bool {
    matches!(
        job,
        Job::KnownListings | Job::Listings(_) | Job::StormListings(_) | Job::FullListing(_)
    )
}

/// The jobs in turn, some at once, until one disagrees.
fn first_disagreement(run: &Run, counts: &Counts) -> Option<String> {
    let sweeps = calls::sweeps(&mut Random::of(run.seed, 0, 0));
    let sweeps: Vec<&[Call]> = sweeps.chunks(CALLS_IN_A_SESSION).collect();
    let jobs = jobs(run, sweeps.len());
    let (next, stop, found) = (AtomicUsize::new(0), AtomicBool::new(false), Mutex::new(None));
    std::thread::scope(|scope| {
        for _ in 0..run.at_once {
            scope.spawn(|| {
                while let Some(&job) = jobs.get(next.fetch_add(1, Ordering::Relaxed)) {
                    if stop.load(Ordering::Relaxed) {
                        break;
                    }
                    if let Err(report) = do_job(run, job, &sweeps, counts) {
                        stop.store(true, Ordering::Relaxed);
                        found.lock().expect("a report").get_or_insert(report);
                    }
                }
            });
        }
    });
    found.into_inner().expect("a report")
}

fn do_job(run: &Run, job: Job, sweeps: &[&[Call]], counts: &Counts) -> Result<(), String> {
    match job {
        Job::KnownCalls => known_calls(run, counts),
        Job::KnownSlices => known_slices(run, counts),
        Job::KnownListings => known_listings(run, counts),
        Job::TwoWays(which) => two_ways(run, which),
        Job::TwoChecksums => in_two_ways(run, 14, two_ways::checksums_disagree),
        Job::Sweep(case) => compare_session(run, &format!("sweep {case}"), sweeps[case], counts),
        Job::RandomSession(case) => {
            let mut random = Random::of(run.seed, 1, case as u64);
            let calls = calls::random_calls(&mut random, CALLS_IN_A_SESSION);
            compare_session(run, &format!("session {case}"), &calls, counts)
        }
        Job::BrokenSession(case) => {
            let mut random = Random::of(run.seed, 2, case as u64);
            let mut calls = calls::random_calls(&mut random, 5);
            calls.extend(slice_calls::few_calls(&mut random));
            calls.push(calls::broken_ending(case % PROBES.len(), &mut random));
            compare_session(run, &format!("broken session {case}"), &calls, counts)
        }
        Job::StormSession(case) => storm_session(run, case, counts),
        Job::SliceSweep(which) => {
            let mut random = Random::of(run.seed, 12, which as u64);
            let asked = slice_calls::sweep(which, &mut random);
            let ending = slice_calls::ending_of_a_sweep(which, &mut random);
            slice_session(run, &format!("slices, sweep {which}"), &asked, &[ending], counts)
        }
        Job::SliceSession(case) => {
            let asked = slice_calls::random_slices(&mut Random::of(run.seed, 13, case as u64));
            slice_session(run, &format!("slices {case}"), &asked, &[], counts)
        }
        Job::Listings(job) => (0..LISTINGS_IN_A_JOB).try_for_each(|order| {
            let case = job * LISTINGS_IN_A_JOB + order;
            let input = streams::listing_input(&mut Random::of(run.seed, 3, case as u64));
            compare_listing(
                run,
                &format!("listing {case}"),
                "listing, packets cut anywhere",
                &input,
                counts,
            )
            .map(drop)
        }),
        Job::StormListings(job) => (0..LISTINGS_IN_A_JOB)
            .try_for_each(|order| storm_listing(run, job * LISTINGS_IN_A_JOB + order, counts)),
        Job::FullListing(case) => {
            let input = full_listing_input(case, &mut Random::of(run.seed, 4, case as u64));
            compare_listing(
                run,
                &format!("full listing {case}"),
                "listing of 65,536 packets",
                &input,
                counts,
            )
            .map(drop)
        }
    }
}

/// 65,536 packets, or one fewer or more, and something or nothing behind them.
fn full_listing_input(case: usize, random: &mut Random) -> Vec<u8> {
    let (packets, tail): (usize, &[u8]) = match case % 6 {
        0 => (65_536, b""),
        1 => (65_536, b"S"),
        2 => (65_537, b""),
        3 => (65_535, b"SBR\x00\x01\x01"),
        4 => (65_536, b"SBR\x00\x02\x04\x01\x04"),
        _ => (65_536, b"\x00"),
    };
    streams::long_listing_input(random, packets, tail)
}

/// The model's readers of whole streams and of pieces agree, and its listings of whole inputs and
/// of packets.
fn two_ways(run: &Run, which: usize) -> Result<(), String> {
    let kind = 5 + which as u64;
    match streams::FAMILIES.get(which) {
        Some(&family) => in_two_ways(run, kind, |random| two_ways::disagree(family, random)),
        None => in_two_ways(run, kind, two_ways::listings_disagree),
    }
}

/// One rendering of the model against another, on random cases of a kind.
fn in_two_ways(
    run: &Run,
    kind: u64,
    disagree: impl Fn(&mut Random) -> Option<String>,
) -> Result<(), String> {
    (0..CASES_IN_TWO_WAYS).try_for_each(|case| {
        match disagree(&mut Random::of(run.seed, kind, case)) {
            None => Ok(()),
            Some(report) => {
                Err(format!("case {kind} {case}, generator \"the model in two ways\"\n  {report}"))
            }
        }
    })
}

// ---- sessions of the programs test_probe_.. ----

/// The model on an input; a model that stops is no agreement.
fn model_output(model: fn(&[u8]) -> Vec<u8>, input: &[u8]) -> Result<Vec<u8>, String> {
    let input = input.to_vec();
    catch_unwind(move || model(&input)).map_err(|_| "the model stopped".to_string())
}

fn model_session(run: &Run, program: usize, input: &[u8]) -> Result<Vec<u8>, String> {
    let (session, input) = (run.model.session, input.to_vec());
    catch_unwind(move || session(program, &input)).map_err(|_| "the model stopped".to_string())
}

/// The lists of an output; what is left where the last is not whole.
fn results_of(mut output: &[u8]) -> (Vec<&[u8]>, &[u8]) {
    let mut results = Vec::new();
    while output.len() >= 2 {
        let length = usize::from(output[0]) + 256 * usize::from(output[1]);
        if output.len() < 2 + length {
            break;
        }
        results.push(&output[2..2 + length]);
        output = &output[2 + length..];
    }
    (results, output)
}

/// The readers of one family, then all ports. What is asked of a list after a storm is asked of
/// what the program answered.
fn storm_session(run: &Run, case: usize, counts: &Counts) -> Result<(), String> {
    let (mut random, name) = (Random::of(run.seed, 10, case as u64), format!("storm {case}"));
    let chains = storms::chains(&mut random);
    let calls: Vec<(usize, &Call)> =
        chains.iter().flat_map(|chain| &chain.calls).enumerate().collect();
    let mut results = compare_calls(run, READERS, &name, &calls, counts)?.into_iter();
    for chain in &chains {
        let own: Vec<Vec<u8>> = results.by_ref().take(chain.calls.len()).collect();
        if let Some(wrong) = chain.wrong(&own) {
            let generator = chain.generator();
            return Err(format!("case {name}, generator \"{generator}, the list\"\n  {wrong}"));
        }
    }
    let of_all_ports = storms::calls_of_all_ports(&mut random);
    compare_session(run, &format!("{name}, all ports"), &of_all_ports, counts)
}

/// What is asked of the answers about a slice is asked of what the program answered.
fn slice_session(
    run: &Run,
    name: &str,
    asked: &[Asked],
    ending: &[Call],
    counts: &Counts,
) -> Result<(), String> {
    let calls = asked.iter().flat_map(|asked| &asked.calls).chain(ending);
    let calls: Vec<(usize, &Call)> = calls.enumerate().collect();
    let mut results = compare_calls(run, SLICES, name, &calls, counts)?.into_iter();
    for asked in asked {
        let own: Vec<Vec<u8>> = results.by_ref().take(asked.calls.len()).collect();
        if let Some(wrong) = slice_answers::wrong(asked, &own) {
            let generator = asked.calls[0].generator;
            return Err(format!("case {name}, generator \"{generator}, streamed\"\n  {wrong}"));
        }
    }
    Ok(())
}

/// Each call is made by the program that its opcode names, and keeps its place in the report. What
/// is asked of a checksum's twins is asked of what the program answered.
fn compare_session(run: &Run, case: &str, calls: &[Call], counts: &Counts) -> Result<(), String> {
    (0..PROBES.len()).try_for_each(|program| {
        let own = calls.iter().enumerate().filter(|(_, call)| call.program() == program);
        let own: Vec<(usize, &Call)> = own.collect();
        if own.is_empty() {
            return Ok(());
        }
        let given = compare_calls(run, program, case, &own, counts)?;
        match checksum_calls::twins_disagree(&own, &given) {
            None => Ok(()),
            Some(wrong) => Err(format!(
                "case {case}, generator \"checksum, with and without a table\"\n  {wrong}"
            )),
        }
    })
}

/// The calls of one program, in their order: what the program answered, which is what the model
/// did.
fn compare_calls(
    run: &Run,
    program: usize,
    case: &str,
    calls: &[(usize, &Call)],
    counts: &Counts,
) -> Result<Vec<Vec<u8>>, String> {
    let input: Vec<u8> = calls.iter().flat_map(|(_, call)| call.bytes.iter().copied()).collect();
    let label = |at: usize| match calls.get(at) {
        Some((place, call)) => {
            format!("case {case} call {place}, generator \"{}\"", call.generator)
        }
        None => format!("case {case}, generator \"beyond the last call\""),
    };
    let expected = model_session(run, program, &input)
        .map_err(|wrong| model_stopped(run, program, case, calls, &wrong))?;
    let given =
        run.probes[program].output(&input).map_err(|wrong| format!("{}: {wrong}", label(0)))?;
    let ((expected, _), (given, rest)) = (results_of(&expected), results_of(&given));
    let answered = calls.iter().filter(|(_, call)| !call.ends_early()).count();
    if expected.len() != answered {
        return Err(format!("{}: the model has no result", label(expected.len())));
    }
    for at in 0..expected.len().max(given.len()) {
        if expected.get(at) != given.get(at) {
            let bytes = calls.get(at).map_or(&[][..], |(_, call)| &call.bytes);
            let report = both_results(bytes, expected.get(at), given.get(at));
            let slice = match slice_before(program, calls, at) {
                [] => String::new(),
                slice => format!("  the slice is set by: {}\n", shown(slice)),
            };
            return Err(format!("{}\n{slice}{report}", label(at)));
        }
        counts.calls.fetch_add(1, Ordering::Relaxed);
    }
    if !rest.is_empty() {
        return Err(format!("{}: an unfinished result: {}", label(given.len()), fields::hex(rest)));
    }
    Ok(given.into_iter().map(<[u8]>::to_vec).collect())
}

/// Which call the model stopped at.
fn model_stopped(
    run: &Run,
    program: usize,
    case: &str,
    calls: &[(usize, &Call)],
    wrong: &str,
) -> String {
    let stops = |&at: &usize| {
        let alone = [slice_before(program, calls, at), &calls[at].1.bytes].concat();
        model_session(run, program, &alone).is_err()
    };
    let generator = (0..calls.len()).find(stops).map_or("", |at| calls[at].1.generator);
    format!("case {case}, generator \"{generator}\": {wrong}")
}

/// The last call before this one that sets a slice, without which an ask is another one; nothing
/// for the calls of the other programs.
fn slice_before<'a>(program: usize, calls: &[(usize, &'a Call)], at: usize) -> &'a [u8] {
    let mut before = calls.iter().take(at).rev().map(|(_, call)| &call.bytes);
    match before.find(|bytes| program == SLICES && bytes.first() == Some(&0x91)) {
        Some(setting) => setting,
        None => &[],
    }
}

fn both_results(call: &[u8], expected: Option<&&[u8]>, given: Option<&&[u8]>) -> String {
    let op = call.first().copied().unwrap_or(0);
    let words = |result: Option<&&[u8]>| match result {
        Some(result) => fields::in_words(op, result),
        None => "no result".to_string(),
    };
    let (model, program) = (words(expected), words(given));
    let mut report = format!("  call: {}\n  model: {model}\n  program: {program}", shown(call));
    if let (Some(expected), Some(given)) = (expected, given) {
        let same =
            expected.iter().zip(given.iter()).take_while(|(one, other)| one == other).count();
        report.push_str(&format!("\n  first difference at byte {same} of the result"));
    }
    report
}

fn known_calls(run: &Run, counts: &Counts) -> Result<(), String> {
    known::calls().iter().try_for_each(|known| {
        let expected = right::probe::as_list(&known.result);
        known_session(run, known.name, "numbers of the paper", &known.call, &expected, counts)
    })
}

/// Each sets its slice and asks once, so that there are two results.
fn known_slices(run: &Run, counts: &Counts) -> Result<(), String> {
    known_slices::asks().iter().try_for_each(|known| {
        let generator = "answers about slices worked out from the paper";
        known_session(run, known.name, generator, &known.input, &known.output, counts)
    })
}

/// Model and program give what is known.
fn known_session(
    run: &Run,
    name: &str,
    generator: &str,
    input: &[u8],
    expected: &[u8],
    counts: &Counts,
) -> Result<(), String> {
    let program = right::probe::program_of(input[0]);
    let sides = [
        ("model", model_session(run, program, input)),
        ("program", run.probes[program].output(input)),
    ];
    for (side, given) in sides {
        if given.as_deref() != Ok(expected) {
            let given = given.map_or_else(|wrong| wrong, |given| fields::hex(&given));
            let (input, expected) = (shown(input), fields::hex(expected));
            return Err(format!(
                "case {name}, generator \"{generator}\"\n  call: {input}\n  paper: {expected}\n  {side}: {given}"
            ));
        }
    }
    counts.calls.fetch_add(1, Ordering::Relaxed);
    Ok(())
}

// ---- listings ----

/// What the program listed, which is what the model did.
fn compare_listing(
    run: &Run,
    case: &str,
    generator: &str,
    input: &[u8],
    counts: &Counts,
) -> Result<Vec<u8>, String> {
    let label = format!("case {case}, generator \"{generator}\"");
    let expected =
        model_output(run.model.listing, input).map_err(|wrong| format!("{label}: {wrong}"))?;
    let given = run.sbrlist.output(input).map_err(|wrong| format!("{label}: {wrong}"))?;
    if expected != given {
        return Err(format!("{label}\n{}", both_listings(input, &expected, &given)));
    }
    counts.listings.fetch_add(1, Ordering::Relaxed);
    Ok(given)
}

/// A storm and then a list on each port. What is asked of a list after a storm is asked of what the
/// program listed.
fn storm_listing(run: &Run, case: usize, counts: &Counts) -> Result<(), String> {
    let storms = storms::on_all_ports(&mut Random::of(run.seed, 11, case as u64));
    let (name, generator) = (format!("storm listing {case}"), "listing, a storm on each port");
    let listed = compare_listing(run, &name, generator, &storms.input(), counts)?;
    match storms.wrong(&listed) {
        None => Ok(()),
        Some(wrong) => Err(format!("case {name}, generator \"{generator}, the list\"\n  {wrong}")),
    }
}

const MOST_INPUT_SHOWN: usize = 6000;

fn shown(bytes: &[u8]) -> String {
    fields::hex(&bytes[..bytes.len().min(MOST_INPUT_SHOWN)])
}

fn both_listings(input: &[u8], expected: &[u8], given: &[u8]) -> String {
    let shown = &input[..input.len().min(MOST_INPUT_SHOWN)];
    let (model, program) = (String::from_utf8_lossy(expected), String::from_utf8_lossy(given));
    let (model, program): (Vec<&str>, Vec<&str>) =
        (model.split_inclusive('\n').collect(), program.split_inclusive('\n').collect());
    let line = model.iter().zip(&program).take_while(|(one, other)| one == other).count();
    let (model, program) = (model.get(line), program.get(line));
    format!(
        "  input of {} bytes: {}\n  first difference in line {}\n  model: {model:?}\n  program: {program:?}",
        input.len(), fields::hex(shown), line + 1
    )
}

fn known_listings(run: &Run, counts: &Counts) -> Result<(), String> {
    for known in known::listings() {
        let sides = [
            ("model", model_output(run.model.listing, &known.input)),
            ("program", run.sbrlist.output(&known.input)),
        ];
        for (side, given) in sides {
            if given.as_deref() != Ok(known.output.as_bytes()) {
                let given = given.map_or_else(
                    |wrong| wrong,
                    |given| String::from_utf8_lossy(&given).into_owned(),
                );
                let shown = &known.input[..known.input.len().min(MOST_INPUT_SHOWN)];
                let (name, input) = (known.name, fields::hex(shown));
                return Err(format!(
                    "case {name}, generator \"listings of the paper\"\n  input: {input}\n  paper: {:?}\n  {side}: {given:?}",
                    known.output
                ));
            }
        }
        counts.listings.fetch_add(1, Ordering::Relaxed);
    }
    Ok(())
}
