//! The library's calls against the second program's: generated cases, and both sides of each line.

use compare::library;
use second::cases::commands::RunCase;
use second::cases::load::LoadCase;
use second::cases::sbs::{OpenCase, PackCase, SignatureCase};
use second::cases::{agree, load_lines, run_lines, sbs_lines};
use second::{load, machine, sbs};

#[test]
fn open_agrees() {
    agree::<OpenCase>(library::open, sbs::open);
    sbs_lines::open_lines(library::open);
}

#[test]
fn pack_agrees() {
    agree::<PackCase>(library::pack, sbs::pack);
    sbs_lines::pack_lines(library::pack);
}

#[test]
fn signature_agrees() {
    agree::<SignatureCase>(library::signature, sbs::signature);
    sbs_lines::signature_lines(library::signature);
}

#[test]
fn run_agrees() {
    agree::<RunCase>(library::run, machine::run);
    run_lines::run_lines(library::run);
}

#[test]
fn load_agrees() {
    agree::<LoadCase>(library::load, load::load);
    load_lines::load_lines(library::load);
}
