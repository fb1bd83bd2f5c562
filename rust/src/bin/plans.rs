//! Writes the example plans into a folder: `plans FOLDER`.

use pool::examples;
use pool::plan;
use std::path::Path;
use std::process::ExitCode;

fn main() -> ExitCode {
    let Some(folder) = std::env::args_os().nth(1) else {
        eprintln!("usage: plans FOLDER");
        return ExitCode::from(2);
    };
    match write_all(Path::new(&folder)) {
        Ok(()) => ExitCode::SUCCESS,
        Err(error) => {
            eprintln!("plans: {error}");
            ExitCode::FAILURE
        }
    }
}

/// Writes each example to its own file and says what it holds.
fn write_all(folder: &Path) -> std::io::Result<()> {
    std::fs::create_dir_all(folder)?;
    for example in examples::all() {
        let name = format!("{}.plan", example.name);
        std::fs::write(folder.join(&name), &example.plan)?;
        if let Ok(plan) = plan::read(&example.plan) {
            let (m, n) = (plan.instruments, plan.teams.len());
            let bytes = example.plan.len();
            println!("{name}: {m} instruments, {n} teams, {bytes} bytes");
        }
    }
    Ok(())
}
