//! A table kept from before there was a second key, brought over into a file of its own.

use crate::store::{self, Store};
use pumxaqert::{earlier, Refusal, Setup};
use std::ffi::OsString;
use std::fs;
use std::io::{Error, Result};
use std::path::{Path, PathBuf};

/// Says how many records came over, once the new file is on the disk. The old one is only read.
pub fn run(old: &Path, setup: Setup, new: &Path) -> Result<bool> {
    let kept = fs::read(old).map_err(|wrong| about(old, wrong))?;
    let mut table = vec![0; setup.table_len().unwrap_or(0)];
    let brought = earlier::bring_over(setup, &mut table, &kept);
    let count = brought.map_err(|refusal| Store::bad(reason(refusal, setup, old, &kept)))?;
    save_new(new, &table).map_err(|wrong| about(new, wrong))?;
    println!("{count} records brought over, {} are blank", setup.n * setup.s - count);
    Ok(true)
}

fn about(path: &Path, wrong: Error) -> Error {
    Error::new(wrong.kind(), format!("{}: {wrong}", path.display()))
}

/// What is wrong with the old table, and, of its length or head, what they are and would have to be.
fn reason(refusal: Refusal, setup: Setup, old: &Path, kept: &[u8]) -> String {
    let Setup { n, s, copy } = setup;
    let said = format!("{}: refused {refusal}", old.display());
    match (refusal, earlier::table_len(setup)) {
        (Refusal::Setup, Some(length)) if copy < n => {
            let (has, head) = (kept.len(), &kept[..kept.len().min(3)]);
            format!(
                "{said}: it has {has} bytes and begins with {head:?}, where a table from before \
                 there was a second key has {length} and begins with {:?}",
                [n, s, copy]
            )
        }
        (Refusal::Setup, _) => format!("{said}: there is no copy {copy} of {n} with {s} numbers"),
        _ => said,
    }
}

/// The whole table under the new name, or nothing. A rename would put it over a file that is there already, so the second
/// name is given by a link, which does not; then the first one goes.
fn save_new(new: &Path, table: &[u8]) -> Result<()> {
    let unnamed = unnamed(new);
    store::write_new(&unnamed, table)?;
    let linked = fs::hard_link(&unnamed, new);
    fs::remove_file(&unnamed)?;
    linked?;
    store::sync_folder(match new.parent() {
        Some(folder) if folder != Path::new("") => folder,
        _ => Path::new("."),
    })
}

/// In the new file's folder, and nobody else's: what a cut leaves under it is in no later run's way.
fn unnamed(new: &Path) -> PathBuf {
    let mut name = OsString::from(new);
    name.push(format!(".{}.new", std::process::id()));
    PathBuf::from(name)
}
