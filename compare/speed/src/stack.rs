//! The least stack on which some jobs run, by a thread of a process of its own: a stack that is too small ends it.
use crate::benchmarks::{bands, levels, sheet, two_arrangements};
use crate::uneven::{setting, CELLS, SYMBOLS};
use cross::cases::{factorial, record};
use cross::weights::ANY;
use cross::{held, Random};
use std::process::{Command, Stdio};
use std::thread::Builder;

/// The word that asks for these numbers. With an index in the list of jobs and a size in KiB: run that job on such a stack.
pub const STACK: &str = "stack";

const STEP: usize = 16;

const JOBS: [(&str, fn()); 17] = [
    ("rank", || done(turretmedlar::rank(permutation()))),
    ("unrank", || done(turretmedlar::unrank(20, factorial(20) - 1))),
    ("value", || done(turretmedlar::value(permutation(), turretmedlar::Zero::New))),
    ("permutation_of_value", || done(turretmedlar::permutation_of_value(20, factorial(20) - 1, turretmedlar::Zero::New))),
    ("count_up by 60,000", || done(turretmedlar::count_up(&mut low(), 60_000))),
    ("rewrite", || done(turretmedlar::rewrite(&mut low(), permutation(), &mut [0; 20]))),
    ("store", || done(turretmedlar::store(&mut low(), factorial(20), factorial(20) - 1))),
    ("read_symbol_bands", || done(turretmedlar::read_symbol_bands(&sure()[0], &sure()[1], factorial(20)))),
    ("within_reach, 7 cells, r = 6", || done(turretmedlar::within_reach(&low()[..7], 6, &mut vec![0; 65_536]))),
    ("prefix_uneven, 8 cells, 64 symbols", prefix_uneven),
    ("store_uneven, 8 cells, 64 symbols", store_uneven),
    ("read_uneven, 8 cells, 64 symbols", read_uneven),
    ("rearrange, 64 cells on 16 levels", rearrange),
    ("bench, 1,000 rewrites", || bench("longest")),
    ("bench, 1,000 stores", || bench("thousand-stores")),
    ("write_sheet, 1,000 rewrites", || write("longest")),
    ("write_sheet, 1,000 stores", || write("thousand-stores")),
];

fn permutation() -> turretmedlar::Permutation {
    record(&Random::seeded(0).names(20))
}

fn low() -> [u16; 20] {
    levels(&mut Random::seeded(0), 20)
}

fn sure() -> [[u16; 20]; 2] {
    bands(&mut Random::seeded(0), 20)
}

/// The weights are not on the stack.
fn prefix_uneven() {
    let (weights, symbol) = setting(&mut Random::seeded(0), ANY);
    done(turretmedlar::prefix_uneven(CELLS, &weights, SYMBOLS, symbol));
}

fn store_uneven() {
    let (weights, symbol) = setting(&mut Random::seeded(0), ANY);
    done(turretmedlar::store_uneven(&mut low()[..CELLS], &weights, SYMBOLS, symbol));
}

/// The order that stands may have no symbol.
fn read_uneven() {
    let (weights, _) = setting(&mut Random::seeded(0), ANY);
    let answer = turretmedlar::read_uneven(&low()[..CELLS], &weights, SYMBOLS);
    assert!(matches!(answer, Ok(_) | Err(turretmedlar::Reason::Idle)));
}

/// The two arrangements are not on the stack.
fn rearrange() {
    let [old, new] = two_arrangements(&mut Random::seeded(0), 16, 4);
    done(turretmedlar::rearrange(16, 4, &old, &new, &mut [0; 64]));
}

/// The sheet and the text are not on the stack.
fn bench(file: &str) {
    done(turretmedlar::bench(&sheet(file), &mut vec![0; turretmedlar::TEXT_BYTES]));
}

/// Neither are the groups and commands, nor the sheet that is written.
fn write(file: &str) {
    let (groups, commands) = held(&model::read_sheet(&sheet(file)).expect("a sheet without fault"));
    done(turretmedlar::write_sheet(&groups, &commands, &mut vec![0; turretmedlar::SHEET_BYTES]));
}

fn done<T>(answer: Result<T, turretmedlar::Reason>) {
    assert!(answer.is_ok());
}

pub fn run(index: usize, kib: usize) {
    let thread = Builder::new().stack_size(kib * 1024).spawn(JOBS[index].1).expect("a thread");
    thread.join().expect("the job is done");
}

fn enough(index: usize, kib: usize) -> bool {
    let mut command = Command::new(std::env::current_exe().expect("the program's own path"));
    command.args([STACK, &index.to_string(), &kib.to_string()]).stderr(Stdio::null());
    command.status().expect("the program starts").success()
}

pub fn print() {
    println!("| job, of 20 cells but where it says otherwise | least stack, KiB |\n| --- | --: |");
    for (index, (name, _)) in JOBS.iter().enumerate() {
        let least = (1..).map(|steps| steps * STEP).find(|&kib| enough(index, kib)).expect("some stack is enough");
        println!("| {name} | {least} |");
    }
}
