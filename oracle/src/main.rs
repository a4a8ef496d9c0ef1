//! An independent, brute-force implementation of the product, written from
//! its documents alone. README.md lists the commands.

mod casefile;
mod cases;
mod definitions;
mod judging;
mod kinds;
mod laws;
mod panel;
mod prng;
mod programs;
mod rounds;
mod rules;
mod selftest;
mod sets;
mod sorting;
mod statement;
mod texts;
mod trialfile;
mod trials;

use std::io::{Read, Write};
use std::process::ExitCode;

const USAGE: &str = "\
usage: oracle guilds < TEXT
       oracle judge < TEXT
       oracle chost MASK < TEXT
       oracle fault < TEXT
       oracle texts SEED COUNT DIR
       oracle panel [-v] < CASES
       oracle cases SEED COUNT
       oracle trials SEED COUNT
       oracle replay < FILE
       oracle rounds COUNT
       oracle selftest
";

fn input() -> Result<Vec<u8>, String> {
    let mut bytes = Vec::new();
    std::io::stdin().read_to_end(&mut bytes).map_err(|e| e.to_string())?;
    Ok(bytes)
}

fn print(output: &str) -> Result<(), String> {
    std::io::stdout().write_all(output.as_bytes()).map_err(|e| e.to_string())
}

fn parse<T: std::str::FromStr>(word: &str) -> Result<T, String> {
    word.parse().map_err(|_| format!("not a number: {word}"))
}

/// Gives whether all is well.
fn run(words: &[&str]) -> Result<bool, String> {
    match words {
        ["guilds"] => print(&programs::guilds(&input()?))?,
        ["judge"] => print(&programs::judge_text(&input()?))?,
        ["chost", mask] => {
            let faulty = casefile::mask(mask)?.mask();
            print(&format!("{}\n", programs::chost(&input()?, faulty)))?
        }
        ["fault"] => print(&programs::fault(&input()?))?,
        ["texts", seed, count, directory] => {
            texts::write_all(parse(seed)?, parse(count)?, directory).map_err(|e| e.to_string())?
        }
        ["panel", options @ ..] if options.is_empty() || options == ["-v"] => {
            let cases = String::from_utf8(input()?).map_err(|e| e.to_string())?;
            let (output, laws_kept) = casefile::play_all(&cases, !options.is_empty())?;
            print(&output)?;
            return Ok(laws_kept);
        }
        ["cases", seed, count] => print(&cases::make_all(parse(seed)?, parse(count)?))?,
        ["trials", seed, count] => print(&trials::make_all(parse(seed)?, parse(count)?))?,
        ["replay"] => print(&trialfile::replay(&input()?))?,
        ["rounds", count] => print(&rounds::rounds(parse(count)?))?,
        ["selftest"] => {
            let (report, all_passed) = selftest::run();
            print(&report)?;
            return Ok(all_passed);
        }
        _ => return Err(USAGE.to_string()),
    }
    Ok(true)
}

fn main() -> ExitCode {
    let words: Vec<String> = std::env::args().skip(1).collect();
    let words: Vec<&str> = words.iter().map(|w| w.as_str()).collect();
    match run(&words) {
        Ok(true) => ExitCode::SUCCESS,
        Ok(false) => ExitCode::from(2),
        Err(problem) => {
            eprintln!("oracle: {problem}");
            ExitCode::FAILURE
        }
    }
}
