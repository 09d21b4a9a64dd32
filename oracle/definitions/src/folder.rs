//! A repository of the proof checker's, with a copy of the definitions and the claims about them.

use std::fs;
use std::io;
use std::path::{Path, PathBuf};
use std::process::{Command, Output};

use crate::opened;

const CRATES: &str = "paper:\n";
const ROOT_OF_THE_PROOFS: &str = "pub mod Sample\n";

pub struct Folder {
    path: PathBuf,
}

impl Folder {
    pub fn make(path: PathBuf) -> io::Result<Folder> {
        let folder = Folder { path };
        if folder.paper().exists() {
            fs::remove_dir_all(folder.paper())?;
        }
        for part in ["src", "specs"] {
            copy_files(&definitions().join(part), &folder.paper().join(part))?;
        }
        fs::create_dir(folder.paper().join("proofs"))?;
        fs::write(folder.paper().join("proofs/Lib.antt"), ROOT_OF_THE_PROOFS)?;
        fs::write(folder.path.join("crates.txt"), CRATES)?;
        Ok(folder)
    }

    pub fn opened(&self) -> io::Result<Vec<String>> {
        let mut names = Vec::new();
        for file in files(&self.paper().join("specs"))? {
            if let Some(module) = file.file_stem().and_then(|stem| stem.to_str()) {
                names.extend(opened::definitions(module, &fs::read_to_string(&file)?));
            }
        }
        Ok(names)
    }

    pub fn claims(&self) -> PathBuf {
        self.paper().join("proofs/Sample.antt")
    }

    pub fn check(&self) -> io::Result<Output> {
        Command::new("rt")
            .arg("check")
            .current_dir(self.paper())
            .output()
    }

    pub fn remove(self) -> io::Result<()> {
        fs::remove_dir_all(self.path)
    }

    fn paper(&self) -> PathBuf {
        self.path.join("crates/paper")
    }
}

fn definitions() -> PathBuf {
    Path::new(env!("CARGO_MANIFEST_DIR")).join("../../crates/paper")
}

fn copy_files(from: &Path, to: &Path) -> io::Result<()> {
    fs::create_dir_all(to)?;
    for file in files(from)? {
        if let Some(name) = file.file_name() {
            fs::copy(&file, to.join(name))?;
        }
    }
    Ok(())
}

fn files(folder: &Path) -> io::Result<Vec<PathBuf>> {
    let mut files = fs::read_dir(folder)?
        .map(|entry| entry.map(|entry| entry.path()))
        .collect::<io::Result<Vec<_>>>()?;
    files.sort();
    Ok(files)
}
