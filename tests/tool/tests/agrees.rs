//! The tool against the second program, on both sides of each of FORMAT's lines and on generated cases.

use second::cases::commands::RunCase;
use second::cases::load::LoadCase;
use second::cases::sbs::{OpenCase, PackCase, SignatureCase};
use second::cases::{load_lines, run_lines, sbs_lines, Case};
use second::random::Random;
use second::{load, machine, sbs};
use std::env;
use tool::calls;

/// Runs the cases of the first seeds. They are few, since each starts the tool.
fn agree<C: Case>(one: C::Call, other: C::Call) {
    let cases = env::var("TOOL_CASES").map_or(150, |text| text.parse().unwrap());
    for seed in 1..=cases {
        let case = C::make(&mut Random::new(seed));
        assert_eq!(case.run(one), case.run(other), "seed {seed}: {case:#?}");
    }
}

#[test]
fn run_lines() {
    run_lines::run_lines(calls::run);
}

#[test]
fn run_cases() {
    agree::<RunCase>(machine::run, calls::run);
}

#[test]
fn load_lines() {
    load_lines::load_lines(calls::load);
}

#[test]
fn load_cases() {
    agree::<LoadCase>(load::load, calls::load);
}

#[test]
fn open_lines() {
    sbs_lines::open_lines(calls::open);
}

#[test]
fn open_cases() {
    agree::<OpenCase>(sbs::open, calls::open);
}

#[test]
fn pack_lines() {
    sbs_lines::pack_lines(calls::pack);
}

#[test]
fn pack_cases() {
    agree::<PackCase>(sbs::pack, calls::pack);
}

#[test]
fn signature_lines() {
    sbs_lines::signature_lines(calls::signature);
}

#[test]
fn signature_cases() {
    agree::<SignatureCase>(sbs::signature, calls::signature);
}
