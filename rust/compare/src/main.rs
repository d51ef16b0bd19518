//! Compares the model with the linked library, or with `--stand-in` with the model itself.

use compare::harness::session::{compare, try_planted};
use compare::harness::world::World;
use compare::link::{Library, Linked};
use model::planted::Planted;
use model::Model;
use std::process::ExitCode;
use std::time::Instant;

const USAGE: &str = "compare [--seed S] [--steps N] [--stand-in] [--case K] [--plant NAME] | --planted | --list";

#[derive(Default)]
struct Options {
    seed: u64,
    steps: Option<u64>,
    case: Option<u64>,
    plant: Option<Planted>,
    planted: bool,
    list: bool,
    stand_in: bool,
}

fn options() -> Result<Options, String> {
    let mut options = Options { seed: 1, ..Options::default() };
    let mut arguments = std::env::args().skip(1);
    while let Some(argument) = arguments.next() {
        let mut value = || arguments.next().ok_or_else(|| format!("{argument} needs a value"));
        let number = |text: String| text.replace('_', "").parse::<u64>().map_err(|error| format!("{text}: {error}"));
        match argument.as_str() {
            "--seed" => options.seed = number(value()?)?,
            "--steps" => options.steps = Some(number(value()?)?),
            "--case" => options.case = Some(number(value()?)?),
            "--plant" => {
                let name = value()?;
                options.plant = Some(Planted::named(&name).ok_or_else(|| format!("no planted fault {name}"))?);
            }
            "--planted" => options.planted = true,
            "--list" => options.list = true,
            "--stand-in" => options.stand_in = true,
            _ => return Err(format!("{argument} is not known; {USAGE}")),
        }
    }
    Ok(options)
}

fn library(options: &Options) -> Box<dyn Library> {
    if options.stand_in {
        Box::new(Model::new(None))
    } else {
        Box::new(Linked)
    }
}

fn run(options: &Options) -> ExitCode {
    let mut world = World::new(Model::new(options.plant), library(options));
    let start = Instant::now();
    let cases = options.case.map_or(0..u64::MAX, |case| case..case + 1);
    let compared = compare(&mut world, options.seed, cases, options.steps.unwrap_or(1_000_000));
    let seconds = start.elapsed().as_secs_f64();
    match compared {
        Err(found) => {
            println!("DIFFERENCE at seed {}, case {} ({})", options.seed, found.case, found.kind);
            found.differences.iter().for_each(|line| println!("  {line}"));
            println!("after {} steps, {} offers", world.steps, world.offers);
            ExitCode::FAILURE
        }
        Ok(cases) => {
            let (text, missing) = world.model.tally.report();
            print!("{text}");
            println!(
                "seed {}: {cases} cases, {} offers, {} steps compared in {seconds:.1} s, {:.0} steps/s, no difference",
                options.seed,
                world.offers,
                world.steps,
                world.steps as f64 / seconds
            );
            if world.model.tally.has_broken_state() {
                println!("A TAKEN OFFER LEFT AN UNSOUND STATE");
                return ExitCode::FAILURE;
            }
            if options.case.is_none() && !missing.is_empty() {
                println!("NOT EXERCISED: {}", missing.join("; "));
                return ExitCode::FAILURE;
            }
            ExitCode::SUCCESS
        }
    }
}

fn main() -> ExitCode {
    let options = match options() {
        Ok(options) => options,
        Err(message) => {
            eprintln!("{message}");
            return ExitCode::FAILURE;
        }
    };
    if options.list {
        Planted::all().iter().for_each(|planted| println!("{}", planted.name()));
        return ExitCode::SUCCESS;
    }
    if options.planted {
        let all = try_planted(options.seed, options.steps.unwrap_or(5_000_000), || library(&options));
        return if all { ExitCode::SUCCESS } else { ExitCode::FAILURE };
    }
    run(&options)
}
