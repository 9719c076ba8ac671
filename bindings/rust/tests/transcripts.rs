//! The stored run and the worked rows, line by line and as whole scripts, byte for byte.

use paris::{transcript, Session};
use std::error::Error;
use std::fs;
use std::io;
use std::path::{Path, PathBuf};

type Tested = Result<(), Box<dyn Error>>;

fn repository() -> PathBuf {
    Path::new(env!("CARGO_MANIFEST_DIR")).join("../..")
}

fn by_line(script: &[u8]) -> Result<String, paris::Error> {
    let mut session = Session::new()?;
    script
        .split(|byte| *byte == b'\n')
        .map(|line| session.answer(line))
        .collect()
}

fn assert_transcript(script: &Path, expected: &Path) -> Tested {
    let bytes = fs::read(script)?;
    let expected = fs::read_to_string(expected)?;
    assert_eq!(by_line(&bytes)?, expected, "{} by line", script.display());
    assert_eq!(
        transcript(&bytes)?,
        expected,
        "{} as a whole",
        script.display()
    );
    Ok(())
}

fn entries(folder: &Path) -> io::Result<Vec<PathBuf>> {
    fs::read_dir(folder)?
        .map(|entry| Ok(entry?.path()))
        .collect()
}

/// The scripts of the worked rows.
fn scripts() -> io::Result<Vec<PathBuf>> {
    let mut scripts = Vec::new();
    for folder in entries(&repository().join("checks/rows"))? {
        if folder.is_dir() {
            scripts.extend(entries(&folder)?);
        }
    }
    scripts.retain(|path| path.extension().is_some_and(|ending| ending == "paris"));
    Ok(scripts)
}

#[test]
fn the_stored_run() -> Tested {
    let front = repository().join("crates/paris_front");
    assert_transcript(&front.join("stdin"), &front.join("stdout"))
}

#[test]
fn the_worked_rows() -> Tested {
    let scripts = scripts()?;
    assert!(
        scripts.len() > 50,
        "there are {} worked rows",
        scripts.len()
    );
    for script in scripts {
        assert_transcript(&script, &script.with_extension("expected"))?;
    }
    Ok(())
}

#[test]
fn a_transcript_may_be_longer_than_its_script() -> Tested {
    let script = "set s 64\nfield a s 64\nshow a end\nshow a end";
    let values = format!("values{}\n", " 0".repeat(64));
    assert_eq!(transcript(script)?, format!("ok\nok\n{values}{values}"));
    assert_eq!(transcript("")?, "");
    assert_eq!(transcript("list")?, "rows 0\n");
    Ok(())
}
