//! A small tool for who sets up a station or looks into one: see `HELP`. Texts in, bytes out, and the other way round.
mod genesis;
mod input;
mod refusals;

use std::io::{self, Read, Write};
use std::process::ExitCode;
use std::{env, fs};

const HELP: &str = "\
ledger-tools genesis make < TEXT > GENESIS   makes a genesis from its text
ledger-tools genesis show < GENESIS          shows a genesis as the text that makes it, or what is wrong with it
ledger-tools input make GENESIS NOW [CHAIN]  makes the report program's input from files, and a slot
ledger-tools input show < INPUT              shows such an input: the genesis, the slot, each block, and what is refused
ledger-tools refusals                        lists every refusal: number, name, words
ledger-tools refusal NUMBER                  shows one

The text of a genesis has a line for each of these; what follows a # is left out:
    n 6                 so many controllers
    t 1                 so many of them may be faulty
    u 64                of no effect, and may be left out: a new genesis has 64, whatever stands here
    release 2 40        display 2 starts at release 40; displays that are not listed start at 0
    key 1 0A1B..        the key of controller 1, 64 hexadecimal digits; one such line for each controller, from 1 on
";

/// What a command writes, or what is wrong.
type Answer = Result<Vec<u8>, String>;

fn main() -> ExitCode {
    let words: Vec<String> = env::args().skip(1).collect();
    let words: Vec<&str> = words.iter().map(String::as_str).collect();
    match answer(&words) {
        Ok(bytes) => match io::stdout().write_all(&bytes) {
            Ok(()) => ExitCode::SUCCESS,
            Err(_) => ExitCode::FAILURE,
        },
        Err(wrong) => {
            eprintln!("{wrong}");
            ExitCode::FAILURE
        }
    }
}

fn answer(words: &[&str]) -> Answer {
    match words {
        ["genesis", "make"] => genesis::make(&text()?),
        ["genesis", "show"] => genesis::show(&bytes()?).map(Vec::from),
        ["input", "make", genesis, now] => input::make(&file(genesis)?, now, &[]),
        ["input", "make", genesis, now, chain] => input::make(&file(genesis)?, now, &file(chain)?),
        ["input", "show"] => input::show(&bytes()?).map(Vec::from),
        ["refusals"] => Ok(refusals::all().into()),
        ["refusal", number] => refusals::one(number).map(Vec::from),
        ["--help"] => Ok(HELP.into()),
        _ => Err(HELP.trim_end().into()),
    }
}

fn bytes() -> Answer {
    let mut bytes = Vec::new();
    let read = io::stdin().read_to_end(&mut bytes);
    read.map_err(|fault| format!("standard input: {fault}"))?;
    Ok(bytes)
}

fn text() -> Result<String, String> {
    String::from_utf8(bytes()?).map_err(|_| "standard input is not text".into())
}

fn file(path: &str) -> Answer {
    fs::read(path).map_err(|fault| format!("{path}: {fault}"))
}
