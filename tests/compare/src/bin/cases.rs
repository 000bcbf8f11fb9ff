//! `cases DIR`: runs every case of DIR against the plain reader and the library.

use std::path::{Path, PathBuf};
use std::process::ExitCode;

use comparison::case::{cases_of, Case};
use comparison::run::differences;
use comparison::subject::{LIBRARY, PLAIN_READER};

fn main() -> ExitCode {
    let Some(directory) = std::env::args().nth(1) else {
        eprintln!("usage: cases DIR");
        return ExitCode::FAILURE;
    };
    match run(Path::new(&directory)) {
        Ok(0) => ExitCode::SUCCESS,
        Ok(_) => ExitCode::FAILURE,
        Err(error) => {
            eprintln!("{error}");
            ExitCode::FAILURE
        }
    }
}

/// Runs the cases of every file; gives how many differences there were.
fn run(directory: &Path) -> Result<usize, String> {
    let files = case_files(directory)?;
    let (mut cases, mut expectations, mut differences) = (0, 0, 0);
    for file in &files {
        for case in cases_of(file)? {
            cases += 1;
            expectations += case.expected();
            differences += report(file, &case);
        }
    }
    println!(
        "cases: {} files, {cases} cases, {expectations} expectations, {differences} differences",
        files.len()
    );
    Ok(differences)
}

/// The files `NN-name.txt` of the directory, in order. Beside them there is only the README: a file
/// of another name would never be run.
fn case_files(directory: &Path) -> Result<Vec<PathBuf>, String> {
    let told = |error| format!("{}: {error}", directory.display());
    let entries = std::fs::read_dir(directory).map_err(told)?;
    let paths = entries.map(|entry| entry.map(|entry| entry.path()));
    let mut files: Vec<PathBuf> = paths.collect::<Result<_, _>>().map_err(told)?;
    files.retain(|path| !path.ends_with("README.md"));
    files.sort();
    let is_case_file = |path: &PathBuf| path.extension().is_some_and(|end| end == "txt");
    match files.iter().find(|path| !is_case_file(path)) {
        Some(other) => Err(format!("{}: not named NN-name.txt", other.display())),
        None if files.is_empty() => Err(format!("{}: no cases", directory.display())),
        None => Ok(files),
    }
}

fn report(file: &Path, case: &Case) -> usize {
    let mut count = 0;
    for subject in [&PLAIN_READER, &LIBRARY] {
        for difference in differences(case, subject) {
            count += 1;
            println!(
                "{}: {}: {}: {difference}",
                file.display(),
                case.name,
                subject.name
            );
        }
    }
    count
}
