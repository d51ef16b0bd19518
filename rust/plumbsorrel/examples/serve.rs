//! Loads examples/job.image, or the image named, and serves its clock and its devices until the machine stops.

use plumbsorrel::{End, Machine, Stop};
use std::error::Error;
use std::process::ExitCode;

fn serve(image: &str) -> Result<Option<Stop>, Box<dyn Error>> {
    let mut machine = Machine::load(&std::fs::read(image)?)?;
    let mut count = 0;
    loop {
        let ran = machine.run(1000)?;
        count += u64::from(ran.count);
        match ran.end {
            End::Budget | End::Idle => machine.tick()?,
            End::Started(device) => {
                let record = machine.record(device.into())?;
                println!("second {}: device {device} is given {}", machine.seconds(), record.arg);
                machine.done(device.into(), 0, 0)?;
            }
            End::Stopped => break,
        }
    }
    if let Some(Stop { number, line }) = machine.stop() {
        println!("stopped with {number} at line {line} after {count} instructions");
    }
    Ok(machine.stop())
}

fn main() -> ExitCode {
    let image = std::env::args().nth(1).unwrap_or_else(|| "examples/job.image".into());
    match serve(&image) {
        Ok(Some(Stop { number: 0, .. })) => ExitCode::SUCCESS,
        Ok(_) => ExitCode::FAILURE,
        Err(why) => {
            eprintln!("serve: {why}");
            ExitCode::FAILURE
        }
    }
}
