//! `assemble LISTING..` writes the image of each NAME.list to NAME.image beside it.

use std::path::Path;
use std::process::ExitCode;

fn assemble(listing: &Path) -> Result<usize, String> {
    let text = std::fs::read_to_string(listing).map_err(|error| error.to_string())?;
    let image = assemble::image(&text)?;
    std::fs::write(listing.with_extension("image"), &image).map_err(|error| error.to_string())?;
    Ok(image.len())
}

fn main() -> ExitCode {
    let names: Vec<String> = std::env::args().skip(1).collect();
    if names.is_empty() {
        eprintln!("usage: assemble LISTING..");
        return ExitCode::from(2);
    }
    let mut status = ExitCode::SUCCESS;
    for name in names {
        match assemble(Path::new(&name)) {
            Ok(length) => println!("{name}: an image of {length} bytes"),
            Err(why) => {
                eprintln!("{name}: {why}");
                status = ExitCode::FAILURE;
            }
        }
    }
    status
}
