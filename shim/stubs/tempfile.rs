//! A stand-in for the crate of this name: a folder that goes when it is dropped.
use std::path::{Path, PathBuf};
use std::sync::atomic::{AtomicU32, Ordering};
use std::{env, fs, io, process};

pub struct TempDir(PathBuf);

impl TempDir {
    pub fn path(&self) -> &Path {
        &self.0
    }
}

impl Drop for TempDir {
    fn drop(&mut self) {
        fs::remove_dir_all(&self.0).ok();
    }
}

pub fn tempdir() -> io::Result<TempDir> {
    static MADE: AtomicU32 = AtomicU32::new(0);
    let name = format!("aio-shim-{}-{}", process::id(), MADE.fetch_add(1, Ordering::Relaxed));
    let folder = env::temp_dir().join(name);
    fs::create_dir(&folder)?;
    Ok(TempDir(folder))
}
