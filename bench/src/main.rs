//! Compares the kit, linked as a static library, with the plain simulator: answers first, then times.

mod answers;
mod kit;
mod sides;
mod timing;

use sides::{Side, buffer_size};
use std::process::ExitCode;
use timing::{Spread, Timing};

const USAGE: &str = "usage: compare [--steps N] [--rounds N] [--no-answers] [--tabs] IMAGE..
       compare --once kit|plain [--steps N] IMAGE

  --steps N      up to so many steps a run (10000000)
  --rounds N     so many rounds, each a run of the kit and one of plain (15); 0: no times
  --no-answers   leaves out the comparison of answers on small inputs
  --tabs         prints a line of numbers for each image, for the script
  --once SIDE    one run of one side, and its four lines, for a count of instructions";

struct Options {
    steps: u64,
    rounds: usize,
    answers: bool,
    tabs: bool,
    once: Option<Side>,
    files: Vec<String>,
}

fn options(arguments: impl Iterator<Item = String>) -> Option<Options> {
    let mut options = Options {
        steps: 10_000_000,
        rounds: 15,
        answers: true,
        tabs: false,
        once: None,
        files: Vec::new(),
    };
    let mut arguments = arguments;
    while let Some(argument) = arguments.next() {
        match argument.as_str() {
            "--steps" => options.steps = arguments.next()?.parse().ok()?,
            "--rounds" => options.rounds = arguments.next()?.parse().ok()?,
            "--no-answers" => options.answers = false,
            "--tabs" => options.tabs = true,
            "--once" => {
                options.once = Some(match arguments.next()?.as_str() {
                    "kit" => Side::Kit,
                    "plain" => Side::Plain,
                    _ => return None,
                });
            }
            _ if argument.starts_with('-') => return None,
            _ => options.files.push(argument),
        }
    }
    (!options.files.is_empty()).then_some(options)
}

fn run(options: &Options) -> Result<(), String> {
    let mut images = Vec::new();
    for file in &options.files {
        let image = std::fs::read(file).map_err(|error| format!("{file}: {error}"))?;
        let name = file.rsplit('/').next().unwrap_or(file).to_string();
        images.push((name, image));
    }
    if let Some(side) = options.once {
        for (name, image) in &images {
            once(side, image, options.steps).map_err(|error| format!("{name}: {error}"))?;
        }
        return Ok(());
    }
    if options.answers {
        let inputs = answers::compare_answers(&images)?;
        if !options.tabs {
            println!("equal answers and buffers on {inputs} small inputs");
        }
    }
    if options.rounds == 0 {
        return Ok(());
    }
    for (name, image) in &images {
        let timing = timing::time_image(image, options.steps, options.rounds)
            .map_err(|error| format!("{name}: {error}"))?;
        if options.tabs {
            print_tabs(name, &timing);
        } else {
            print_lines(name, &timing);
        }
    }
    Ok(())
}

fn once(side: Side, image: &[u8], steps: u64) -> Result<(), String> {
    let size = buffer_size(image).ok_or("word 1 is no size")?;
    let report = side.run(image, &mut vec![0; size], steps);
    println!(
        "end {}\nsteps {}\ncycles {}",
        report.end, report.steps, report.cycles
    );
    match report.top {
        Some(top) => println!("top {top}"),
        None => println!("top -"),
    }
    Ok(())
}

fn print_lines(name: &str, timing: &Timing) {
    let Timing {
        steps,
        cycles,
        kit,
        plain,
        paired,
    } = timing;
    let line = |what: &str,
                unit: &str,
                Spread {
                    least,
                    median,
                    most,
                }: &Spread| {
        println!("  {what:6} {median:8.3}{unit}, from {least:.3} to {most:.3}");
    };
    println!("{name}: {steps} steps, {cycles} cycles");
    line("kit", " ns a cycle", kit);
    line("plain", " ns a cycle", plain);
    println!("  ratio  {:8.3} of the medians", timing.ratio());
    line("", " of the pairs", paired);
    println!("         {:8.3} of the least", kit.least / plain.least);
}

fn print_tabs(name: &str, timing: &Timing) {
    let Timing {
        steps,
        cycles,
        kit,
        plain,
        paired,
    } = timing;
    print!("{name}\t{steps}\t{cycles}\t{:.4}", timing.ratio());
    for Spread {
        least,
        median,
        most,
    } in [kit, plain, paired]
    {
        print!("\t{least:.4}\t{median:.4}\t{most:.4}");
    }
    println!();
}

fn main() -> ExitCode {
    let Some(options) = options(std::env::args().skip(1)) else {
        eprintln!("{USAGE}");
        return ExitCode::from(2);
    };
    match run(&options) {
        Ok(()) => ExitCode::SUCCESS,
        Err(error) => {
            eprintln!("compare: {error}");
            ExitCode::FAILURE
        }
    }
}
