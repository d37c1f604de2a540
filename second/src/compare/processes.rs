//! The list and step programs, run as processes or taken from a model.

use crate::model::rules::Model;
use std::fs;
use std::io::{self, Read, Write};
use std::path::{Path, PathBuf};
use std::process::{Command, Stdio};
use std::sync::mpsc;
use std::thread;
use std::time::Duration;

/// The machine file as the step program is given it.
pub enum Named {
    Holding(Vec<u8>),
    NotNamed,
    NotThere,
    /// Opens, but cannot be read.
    Folder,
}

/// The two programs; each gives what it prints, or what went wrong with it.
pub trait Runner {
    fn list(&self, file: &[u8]) -> Result<Vec<u8>, String>;
    fn step(&self, named: &Named, calls: &[u8]) -> Result<Vec<u8>, String>;
}

pub struct ModelRunner<'a>(pub &'a Model);

impl Runner for ModelRunner<'_> {
    fn list(&self, file: &[u8]) -> Result<Vec<u8>, String> {
        Ok(self.0.list(file).into_bytes())
    }

    /// A file not named, not opened or not read counts as empty.
    fn step(&self, named: &Named, calls: &[u8]) -> Result<Vec<u8>, String> {
        let file: &[u8] = match named {
            Named::Holding(file) => file,
            Named::NotNamed | Named::NotThere | Named::Folder => b"",
        };
        Ok(self.0.step(file, calls).into_bytes())
    }
}

pub struct Processes {
    list: PathBuf,
    step: PathBuf,
    /// Holds the machine file handed to the step program.
    folder: PathBuf,
}

impl Processes {
    pub fn new(list: PathBuf, step: PathBuf) -> io::Result<Processes> {
        let name = format!("otravelun-compare-{}", std::process::id());
        let folder = std::env::temp_dir().join(name);
        fs::create_dir_all(&folder)?;
        Ok(Processes { list, step, folder })
    }
}

impl Drop for Processes {
    fn drop(&mut self) {
        // Nothing depends on it: a folder left behind is only untidy.
        let _ = fs::remove_dir_all(&self.folder);
    }
}

impl Runner for Processes {
    fn list(&self, file: &[u8]) -> Result<Vec<u8>, String> {
        output_of(&self.list, &[], file)
    }

    fn step(&self, named: &Named, calls: &[u8]) -> Result<Vec<u8>, String> {
        let machine = self.folder.join("machine");
        let arguments = match named {
            Named::Holding(file) => {
                fs::write(&machine, file).map_err(|error| error.to_string())?;
                vec![machine]
            }
            Named::NotNamed => Vec::new(),
            Named::NotThere => vec![self.folder.join("not-there")],
            Named::Folder => vec![self.folder.clone()],
        };
        output_of(&self.step, &arguments, calls)
    }
}

/// Long enough for a busy machine.
const PATIENCE: Duration = Duration::from_secs(60);

/// What a program prints for an input. Writing and reading go on side by side, so that neither
/// pipe blocks the other; a program that does not end is stopped.
fn output_of(program: &Path, arguments: &[PathBuf], input: &[u8]) -> Result<Vec<u8>, String> {
    let failed = |error: io::Error| format!("{}: {error}", program.display());
    let mut process = Command::new(program)
        .args(arguments)
        .stdin(Stdio::piped())
        .stdout(Stdio::piped())
        .spawn()
        .map_err(failed)?;
    let (stdin, stdout) = (process.stdin.take(), process.stdout.take());
    let input = input.to_vec();
    let writer = thread::spawn(move || {
        // A program may end without reading all of its input, as a refusal makes it.
        let _ = stdin.map(|mut pipe| pipe.write_all(&input));
    });
    let (sender, receiver) = mpsc::channel();
    thread::spawn(move || {
        let mut output = Vec::new();
        let read = stdout.map(|mut pipe| pipe.read_to_end(&mut output));
        let _ = sender.send(read.map(|_| output));
    });
    let output = receiver.recv_timeout(PATIENCE);
    if output.is_err() {
        process.kill().map_err(failed)?;
    }
    let status = process.wait().map_err(failed)?;
    let _ = writer.join();
    match (output, status.code()) {
        (Err(_), _) => Err("does not end".to_string()),
        (Ok(_), None) => Err(format!("ends by {status}")),
        (Ok(output), Some(_)) => Ok(output.unwrap_or_default()),
    }
}
