//! Times the proved replays, contraction and check number beside their rivals on the same lists, graphs and tables.
//! The one argument is the folder that results.md and plot.svg are written to.

mod plot;
mod proved;
mod report;
mod timing;

use std::path::Path;
use std::process::ExitCode;

fn main() -> ExitCode {
    let Some(folder) = std::env::args().nth(1) else {
        eprintln!("usage: bench FOLDER");
        return ExitCode::from(2);
    };
    match run(Path::new(&folder)) {
        Ok(()) => ExitCode::SUCCESS,
        Err(message) => {
            eprintln!("bench: {message}");
            ExitCode::FAILURE
        }
    }
}

fn run(folder: &Path) -> Result<(), String> {
    let replays = timing::replays()?;
    let junctions = timing::junctions()?;
    let contractions = timing::contractions()?;
    let numbers = timing::numbers()?;
    let text = report::markdown(&replays, &junctions, &contractions, &numbers);
    print!("{text}");
    let write = |name: &str, text: &str| {
        let path = folder.join(name);
        std::fs::write(&path, text).map_err(|e| format!("{}: {e}", path.display()))
    };
    write("results.md", &text)?;
    write("plot.svg", &plot::svg(&replays))
}
