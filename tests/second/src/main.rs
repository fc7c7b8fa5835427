//! The command line of the second implementation.

use second::{compare, generate, protocol, rows};
use std::io::{self, BufRead, Write};
use std::process::ExitCode;

const HELP: &str = "\
second answer                     reads requests, a line each, and prints an answer line for each
second generate SEED COUNT        prints so many random requests
second compare REQUESTS ANSWERS   compares a file of answers to a file of requests with its own
second rows                       checks rows A to K and the requests' samples
";

fn main() -> ExitCode {
    let words: Vec<String> = std::env::args().skip(1).collect();
    let words: Vec<&str> = words.iter().map(String::as_str).collect();
    let outcome = match words[..] {
        ["answer"] => answer(),
        ["generate", seed, count] => generate(seed, count),
        ["compare", requests, answers] => compare(requests, answers),
        ["rows"] => rows(),
        _ => help(),
    };
    match outcome {
        Ok(true) => ExitCode::SUCCESS,
        Ok(false) => ExitCode::FAILURE,
        Err(error) => {
            eprintln!("second: {error}");
            ExitCode::FAILURE
        }
    }
}

/// Whether the command succeeded.
type Outcome = io::Result<bool>;

fn help() -> Outcome {
    eprint!("{HELP}");
    Ok(false)
}

fn answer() -> Outcome {
    let mut out = io::stdout().lock();
    for line in io::stdin().lock().split(b'\n') {
        writeln!(out, "{}", protocol::answer_line(&String::from_utf8_lossy(&line?)))?;
    }
    Ok(true)
}

fn generate(seed: &str, count: &str) -> Outcome {
    let (Ok(seed), Ok(count)) = (seed.parse(), count.parse()) else {
        return help();
    };
    let mut out = io::BufWriter::new(io::stdout().lock());
    for request in generate::requests(seed, count) {
        writeln!(out, "{request}")?;
    }
    out.flush()?;
    Ok(true)
}

fn compare(requests: &str, answers: &str) -> Outcome {
    let (requests, answers) = (lines_of(requests)?, lines_of(answers)?);
    let mut summary = compare::Summary::default();
    for (request, other) in requests.iter().zip(&answers) {
        if let Some(difference) = summary.compare(request, other) {
            println!("{difference}");
        }
    }
    let same_number = requests.len() == answers.len();
    if !same_number {
        println!("{} requests, but {} answers", requests.len(), answers.len());
    }
    println!("{}", summary.text());
    Ok(summary.all_equal() && same_number)
}

fn lines_of(file: &str) -> io::Result<Vec<String>> {
    let reader = io::BufReader::new(std::fs::File::open(file)?);
    reader.split(b'\n').map(|line| Ok(String::from_utf8_lossy(&line?).into_owned())).collect()
}

fn rows() -> Outcome {
    let failing = rows::failing();
    failing.iter().for_each(|name| println!("fails: {name}"));
    Ok(failing.is_empty())
}
