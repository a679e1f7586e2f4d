//! The command: list, judge, generate, vectors.

use spernevan_reference::{generate, judge, listing, vectors};
use std::io::{Read, Write};
use std::process::ExitCode;

const USAGE: &str = "usage:
  spernevan-reference list < FILE
  spernevan-reference judge FILE LISTING
  spernevan-reference generate SEED COUNT DIR
  spernevan-reference vectors SEED COUNT";

fn run(arguments: &[&str]) -> Result<bool, String> {
    let number = |text: &str| text.parse::<u64>().map_err(|_| format!("not a number: {text}"));
    let load = |path: &str| std::fs::read(path).map_err(|e| format!("{path}: {e}"));
    let mut out = std::io::BufWriter::new(std::io::stdout().lock());
    match arguments {
        ["list"] => {
            let mut input = vec![];
            let limit = listing::INPUT_LIMIT as u64;
            std::io::stdin().take(limit).read_to_end(&mut input).map_err(|e| e.to_string())?;
            out.write_all(listing::list(&input).as_bytes()).map_err(|e| e.to_string())?;
        }
        ["judge", file, text] => {
            if let Err(why) = judge::judge(&load(file)?, &load(text)?) {
                writeln!(out, "wrong: {why}").map_err(|e| e.to_string())?;
                return Ok(false);
            }
            writeln!(out, "right").map_err(|e| e.to_string())?;
        }
        ["generate", seed, count, directory] => {
            let seed = number(seed)?;
            std::fs::create_dir_all(directory).map_err(|e| format!("{directory}: {e}"))?;
            for k in 0..number(count)? {
                let path = format!("{directory}/{k:06}.file");
                std::fs::write(&path, generate::file(seed, k)).map_err(|e| format!("{path}: {e}"))?;
            }
        }
        ["vectors", seed, count] => {
            let seed = number(seed)?;
            for k in 0..number(count)? {
                out.write_all(vectors::vector(seed, k).as_bytes()).map_err(|e| e.to_string())?;
            }
        }
        _ => return Err(USAGE.into()),
    }
    out.flush().map_err(|e| e.to_string())?;
    Ok(true)
}

fn main() -> ExitCode {
    let arguments: Vec<String> = std::env::args().skip(1).collect();
    let arguments: Vec<&str> = arguments.iter().map(|a| a.as_str()).collect();
    match run(&arguments) {
        Ok(true) => ExitCode::SUCCESS,
        Ok(false) => ExitCode::from(1),
        Err(why) => {
            eprintln!("{why}");
            ExitCode::from(2)
        }
    }
}
