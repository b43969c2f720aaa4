//! Puts faults into a copy of the independent program, one at a time, and demands that the comparison sees each.
//!
//!     faults [NAME ..]     all faults, or these (then the copy without a fault is not run first)
//!
//! Run by rust/compare/faults, from the root of the repository. The copy lies in target/faults; nothing else is changed.
//! Prints a row for each fault. Ends with 0 if each was seen; with 1 if one was not, if the text that it replaces does not
//! occur exactly once, or if the copy without a fault shows a difference; with 2 on wrong usage.
mod answer;
mod audit;
mod audited;
mod blocks;
mod deploy;
mod deployed;
mod parts;
mod printed;
mod products;
mod texts;

use std::path::{Path, PathBuf};
use std::process::Command;
use std::time::Instant;
use std::{env, fs, io, process};

/// One edit of the independent program: in this file of its src folder this text, which occurs once, becomes another one.
pub struct Fault {
    name: &'static str,
    /// What the comparison is asked for, as its --only.
    calls: &'static str,
    file: &'static str,
    old: &'static str,
    new: &'static str,
}

pub const fn fault(
    name: &'static str,
    calls: &'static str,
    file: &'static str,
    old: &'static str,
    new: &'static str,
) -> Fault {
    Fault { name, calls, file, old, new }
}

const TABLES: [&[Fault]; 19] = [
    answer::FAULTS,
    parts::FAULTS,
    products::MULTIPLY,
    products::SAME,
    blocks::READ,
    blocks::WRITE,
    printed::FAULTS,
    texts::READ,
    texts::WRITE,
    audit::GIVEN,
    audit::CHECKS,
    audited::SAYS,
    audited::PARTS,
    audited::SHARED,
    deploy::WHOLE,
    deploy::ANSWERS,
    deployed::BOARDS,
    deployed::LEFT,
    deployed::SHARED,
];

/// A comparison that takes longer than this has not seen the fault.
const SECONDS: &str = "400";

const SOURCES: &str = "rust/independent/src";

fn main() {
    match start() {
        Ok(0) => {}
        Ok(failed) => {
            println!("{failed} not seen or not applied");
            process::exit(1)
        }
        Err(error) => {
            eprintln!("faults: {error}");
            process::exit(2)
        }
    }
}

/// How many failed.
fn start() -> Result<usize, String> {
    let names: Vec<String> = env::args().skip(1).collect();
    let faults = wanted(&names)?;
    let root = env::current_dir().map_err(|e| e.to_string())?;
    let copy = Copy::make(&root).map_err(|e| format!("no copy in target/faults: {e}"))?;
    let began = Instant::now();
    let mut failed = 0;
    if names.is_empty() {
        failed += copy.without_a_fault()?;
    }
    println!("| fault | file | calls | seen in |\n|---|---|---|---|");
    for fault in &faults {
        let outcome = copy.with(fault).map_err(|e| format!("{}: {e}", fault.name))?;
        failed += outcome.is_err() as usize;
        let (Ok(seen) | Err(seen)) = outcome;
        println!("| {} | {} | {} | {seen} |", fault.name, fault.file, fault.calls.replace(',', ", "));
    }
    println!(
        "\n{} faults, {} seen, {:.0} s",
        faults.len(),
        faults.len() - failed.min(faults.len()),
        began.elapsed().as_secs_f64()
    );
    Ok(failed)
}

fn wanted(names: &[String]) -> Result<Vec<&'static Fault>, String> {
    let all: Vec<&Fault> = TABLES.iter().flat_map(|table| table.iter()).collect();
    for (i, fault) in all.iter().enumerate() {
        if all[..i].iter().any(|other| other.name == fault.name) {
            return Err(format!("two faults are called {}", fault.name));
        }
    }
    if let Some(name) = names.iter().find(|name| !all.iter().any(|fault| fault.name == name.as_str())) {
        return Err(format!("no fault is called {name}"));
    }
    Ok(all.into_iter().filter(|fault| names.is_empty() || names.iter().any(|name| name == fault.name)).collect())
}

/// The copy in which the faults are made.
struct Copy {
    root: PathBuf,
    tree: PathBuf,
}

impl Copy {
    fn make(root: &Path) -> io::Result<Copy> {
        let tree = root.join("target/faults");
        for folder in ["rust", "include", "scripts"] {
            let _ = fs::remove_dir_all(tree.join(folder));
            copy_folder(&root.join(folder), &tree.join(folder))?;
        }
        Ok(Copy { root: root.to_path_buf(), tree })
    }

    fn without_a_fault(&self) -> Result<usize, String> {
        let (status, text) = self.compare(&[])?;
        if status == Some(0) {
            println!("without a fault: no difference\n");
            return Ok(0);
        }
        println!("WITHOUT A FAULT: status {status:?}\n{text}");
        Ok(1)
    }

    /// In which family the fault is seen, or why it is not.
    fn with(&self, fault: &Fault) -> Result<Result<String, String>, String> {
        let place = self.tree.join(SOURCES).join(fault.file);
        let text = fs::read_to_string(self.root.join(SOURCES).join(fault.file)).map_err(|e| e.to_string())?;
        let found = text.matches(fault.old).count();
        if found != 1 {
            return Ok(Err(format!("NOT APPLIED: the text occurs {found} times")));
        }
        fs::write(&place, text.replace(fault.old, fault.new)).map_err(|e| e.to_string())?;
        let outcome = self.compare(&["--only", fault.calls]);
        fs::write(&place, text).map_err(|e| e.to_string())?;
        let (status, said) = outcome?;
        let line = said.lines().find(|line| line.starts_with("DIFFERENCE"));
        Ok(match (status, line) {
            (Some(1), Some(line)) => Ok(line.split('"').nth(1).unwrap_or("the printed split").to_string()),
            _ => Err(format!("NOT SEEN: status {status:?}: {}", said.lines().last().unwrap_or_default())),
        })
    }

    /// The status of the comparison in the copy, and what it printed. Little is optimised: most of the time goes into building.
    fn compare(&self, words: &[&str]) -> Result<(Option<i32>, String), String> {
        let archive = env::var("APFELRUDER_LIB_DIR").unwrap_or("target/staticlib".to_string());
        let ended = Command::new("timeout")
            .arg(SECONDS)
            .arg(self.tree.join("rust/compare/run"))
            .args(words)
            .env("APFELRUDER_LIB_DIR", self.root.join(archive))
            .env("CARGO_PROFILE_RELEASE_OPT_LEVEL", "1")
            .env("CARGO_INCREMENTAL", "1")
            .output()
            .map_err(|e| e.to_string())?;
        let text = [ended.stdout, ended.stderr].map(|bytes| String::from_utf8_lossy(&bytes).into_owned()).concat();
        Ok((ended.status.code(), text))
    }
}

fn copy_folder(from: &Path, to: &Path) -> io::Result<()> {
    fs::create_dir_all(to)?;
    for entry in fs::read_dir(from)? {
        let entry = entry?;
        let place = to.join(entry.file_name());
        match entry.file_type()?.is_dir() {
            true => copy_folder(&entry.path(), &place)?,
            false => fs::copy(entry.path(), place).map(|_| ())?,
        }
    }
    Ok(())
}

#[cfg(test)]
mod tests {
    use super::*;

    fn text(name: &str) -> String {
        let root = Path::new(env!("CARGO_MANIFEST_DIR")).join("../..");
        fs::read_to_string(root.join(name)).unwrap_or_else(|error| panic!("{name}: {error}"))
    }

    /// The attack itself is made by hand; that each fault still fits the independent program is seen at each test.
    #[test]
    fn every_fault_applies() {
        for fault in wanted(&[]).unwrap() {
            let found = text(&format!("{SOURCES}/{}", fault.file)).matches(fault.old).count();
            assert_eq!(found, 1, "{}: how often its text occurs in {}", fault.name, fault.file);
            assert_ne!(fault.old, fault.new, "{} changes nothing", fault.name);
        }
    }

    /// The page has a row for each fault, in this order, and no other row; and it says how many there are.
    #[test]
    fn the_page_has_these_faults() {
        let page = text("docs/COMPARISON.md");
        let (before, table) =
            page.split_once("| fault | file | calls | seen in |\n|---|---|---|---|\n").expect("no table");
        let told: Vec<Vec<&str>> = table
            .lines()
            .take_while(|line| line.starts_with("| "))
            .map(|line| line.split(" | ").map(|cell| cell.trim_matches(['|', ' '])).take(3).collect())
            .collect();
        let faults = wanted(&[]).unwrap();
        for (row, fault) in told.iter().zip(&faults) {
            assert_eq!(row[..], [fault.name, fault.file, &fault.calls.replace(',', ", ")]);
        }
        assert_eq!(told.len(), faults.len());
        assert!(before.ends_with(&format!("\n{} faults, all seen:\n\n", faults.len())), "another number of faults");
    }
}
