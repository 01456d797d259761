//! A host's test of the library's C interface: whole calls, compared with docs/RULES.md and docs/LAYOUT.md.

mod calls;
mod damaged;
mod demand_three;
mod dice;
mod index;
mod layout;
mod lender;
mod lent;
mod lines;
mod player;
mod sessions;

use std::process::ExitCode;
use std::time::Instant;

type Trial = (&'static str, fn() -> lent::Outcome<String>);

const TRIALS: [Trial; 16] = [
    ("edges of the rules", calls::edges),
    ("pools of allowed lengths", calls::allowed_lengths),
    ("pools of other lengths", calls::other_lengths),
    ("empty buffers anywhere", calls::empty_buffers),
    ("lengths of commands and answer rooms", calls::command_lengths),
    ("the order of refusals", calls::order_of_refusals),
    ("calls without frames", sessions::no_frames),
    ("marks of lines", lines::lines),
    ("no block free", sessions::no_block_free),
    ("random sessions", sessions::random_sessions),
    ("the largest name", sessions::largest_name),
    ("one call or several", sessions::one_call_or_several),
    ("saved pools", sessions::saved_pools),
    ("other names untouched", sessions::others_untouched),
    ("one name's answers in two runs", demand_three::same_for_name),
    ("damaged pools", damaged::damaged_pools),
];

const USAGE: &str = "usage: host [--list | [--without-model] [TRIAL ...]]";

/// Runs the trials named, or all. `--list` prints their names. `--without-model` leaves out what every trial has from the model, the
/// comparison of answers and of what pools mean, so that what is left is what a trial compares by itself.
pub fn main() -> ExitCode {
    let (flags, named): (Vec<String>, Vec<String>) = std::env::args().skip(1).partition(|word| word.starts_with("--"));
    let known = |name: &String| TRIALS.iter().any(|(trial, _)| trial == name);
    match flags.iter().map(String::as_str).collect::<Vec<_>>()[..] {
        [] => {}
        ["--without-model"] => lender::leave_the_model_out(),
        ["--list"] => {
            TRIALS.iter().for_each(|(name, _)| println!("{name}"));
            return ExitCode::SUCCESS;
        }
        _ => return refuse(USAGE),
    }
    match named.iter().find(|name| !known(name)) {
        Some(name) => {
            refuse(&format!("host's test: no trial is called '{name}'; host --list prints their names\n{USAGE}"))
        }
        None => run(|name| named.is_empty() || named.iter().any(|word| word == name)),
    }
}

fn refuse(why: &str) -> ExitCode {
    eprintln!("{why}");
    ExitCode::from(2)
}

fn run(chosen: impl Fn(&str) -> bool) -> ExitCode {
    let (mut passed, mut failed) = (0, 0);
    for (name, trial) in TRIALS.into_iter().filter(|(name, _)| chosen(name)) {
        let start = Instant::now();
        let outcome = trial();
        let seconds = start.elapsed().as_secs_f32();
        match outcome {
            Ok(what) => {
                println!("passed  {name}: {what} ({seconds:.1} s)");
                passed += 1;
            }
            Err(why) => {
                println!("FAILED  {name}: {why}");
                failed += 1;
            }
        }
    }
    println!("host's test: {passed} passed, {failed} failed");
    if failed == 0 { ExitCode::SUCCESS } else { ExitCode::FAILURE }
}
