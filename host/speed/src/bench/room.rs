//! A temporary folder, removed at the end.

use std::path::{Path, PathBuf};
use std::sync::atomic::{AtomicU32, Ordering};
use std::{env, fs, process};

pub struct Room {
    path: PathBuf,
}

impl Room {
    pub fn new() -> Result<Room, String> {
        static ROOMS: AtomicU32 = AtomicU32::new(0);
        let number = ROOMS.fetch_add(1, Ordering::Relaxed);
        let path = env::temp_dir().join(format!("milecopper-bench-{}-{number}", process::id()));
        fs::create_dir(&path).map_err(|error| format!("no temporary folder {}: {error}", path.display()))?;
        Ok(Room { path })
    }

    pub fn path(&self) -> &Path {
        &self.path
    }
}

impl Drop for Room {
    fn drop(&mut self) {
        // What cannot be removed stays in the temporary folder.
        let _ = fs::remove_dir_all(&self.path);
    }
}
