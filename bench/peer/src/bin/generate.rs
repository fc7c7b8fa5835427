//! generate [--NAME VALUE ...]: writes a random recording to standard output. The names are those of the
//! options in `gen`: seed, style, tasks, locks, vars, events, depth, invert, again, access, stick and waves.

use oracle::gen::{generate, Options};
use std::io::Write;

fn main() {
    let mut options = Options::default();
    let args: Vec<String> = std::env::args().skip(1).collect();
    for pair in args.chunks(2) {
        let value = pair.get(1).expect("a value for each name").as_str();
        match pair[0].as_str() {
            "--seed" => options.seed = value.parse().unwrap(),
            "--style" => options.style = value.into(),
            "--tasks" => options.tasks = value.parse::<usize>().unwrap().clamp(1, 16),
            "--locks" => options.locks = value.parse::<usize>().unwrap().clamp(1, 64),
            "--vars" => options.vars = value.parse::<usize>().unwrap().min(1024),
            "--events" => options.events = value.parse::<usize>().unwrap().min(4095),
            "--depth" => options.depth = value.parse().unwrap(),
            "--invert" => options.invert = value.parse().unwrap(),
            "--again" => options.again = value.parse().unwrap(),
            "--access" => options.access = value.parse().unwrap(),
            "--stick" => options.stick = value.parse().unwrap(),
            "--waves" => options.waves = value.parse::<usize>().unwrap().max(1),
            name => panic!("unknown option {name}"),
        }
    }
    std::io::stdout().write_all(&generate(&options)).unwrap();
}
