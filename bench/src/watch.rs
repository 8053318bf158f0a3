//! The program once more, as a child process that does the work and notes how far it is. Where it crashes, panics or hangs, its
//! parent is left to say so.

use std::cell::Cell;
use std::fs::File;
use std::os::unix::fs::FileExt;
use std::os::unix::process::parent_id;
use std::path::{Path, PathBuf};
use std::process::{Child, Command, ExitStatus};
use std::thread::sleep;
use std::time::Duration;
use std::{env, fs, io, process};

/// Tells a child its folder.
const FOLDER: &str = "GUSSETREED_FUZZ_FOLDER";
/// The part that a child is to do again, if not all.
const PART: &str = "GUSSETREED_FUZZ_PART";
/// A child that notes nothing for so long hangs.
pub const LIMIT: Duration = Duration::from_secs(30);
const PAUSE: Duration = Duration::from_millis(10);
/// The beats of a child that came to its end.
const END: u64 = u64::MAX;

/// A temporary folder, in memory if that can be had. It goes with its owner.
pub struct Folder(PathBuf);

impl Folder {
    pub fn new() -> io::Result<Folder> {
        let memory = Path::new("/dev/shm");
        let base = if memory.is_dir() { memory.to_path_buf() } else { env::temp_dir() };
        let folder = base.join(format!("gussetreed-fuzz-{}", process::id()));
        fs::create_dir_all(&folder)?;
        Ok(Folder(folder))
    }
}

impl Drop for Folder {
    fn drop(&mut self) {
        let _ = fs::remove_dir_all(&self.0);
    }
}

fn note_in(folder: &Path) -> PathBuf {
    folder.join("note")
}

// ## The child

/// What a child was told, and where it notes which part of its work it is at.
pub struct Work {
    pub folder: PathBuf,
    /// the one part to do again, if not all
    pub part: Option<u64>,
    note: File,
    parent: u32,
    at: Cell<u64>,
    beats: Cell<u64>,
}

impl Work {
    /// None if this process is no child.
    pub fn given() -> Option<io::Result<Work>> {
        let folder = PathBuf::from(env::var_os(FOLDER)?);
        let part = env::var(PART).ok().and_then(|n| n.parse().ok());
        let note = File::options().write(true).open(note_in(&folder));
        Some(note.map(|note| Work { folder, part, note, parent: parent_id(), at: Cell::new(0), beats: Cell::new(0) }))
    }

    /// Part `n` begins.
    pub fn at(&self, n: u64) {
        self.at.set(n);
        self.beat();
    }

    /// It goes on.
    pub fn beat(&self) {
        self.beats.set(self.beats.get() + 1);
        self.write();
    }

    pub fn end(&self) {
        self.beats.set(END);
        self.write();
    }

    /// A child without its parent ends.
    fn write(&self) {
        let words = [self.at.get(), self.beats.get()].map(u64::to_le_bytes);
        if self.note.write_all_at(words.as_flattened(), 0).is_err() || parent_id() != self.parent {
            process::exit(2);
        }
    }
}

// ## The parent

/// How a child ended.
pub enum Ended {
    Status(i32),
    /// in which part of its work, and how
    Fault {
        at: u64,
        how: String,
    },
}

/// The part that the child is at, and its beats.
fn noted(note: &File) -> io::Result<[u64; 2]> {
    let mut words = [[0; 8]; 2];
    let n = note.read_at(words.as_flattened_mut(), 0)?;
    Ok(if n == 16 { words.map(u64::from_le_bytes) } else { [0; 2] })
}

/// Waits for the child's end; one that hangs is killed, and has no status. What counts is the pauses that this process sees, so that
/// both may be stopped for a while.
fn wait(child: &mut Child, note: &File) -> io::Result<Option<ExitStatus>> {
    let (mut last, mut still) = ([0; 2], Duration::ZERO);
    loop {
        if let Some(status) = child.try_wait()? {
            return Ok(Some(status));
        }
        sleep(PAUSE);
        let now = noted(note)?;
        still = if now == last { still + PAUSE } else { Duration::ZERO };
        last = now;
        if still >= LIMIT {
            child.kill()?;
            child.wait()?;
            return Ok(None);
        }
    }
}

/// Runs this program again with the same arguments, as a child: all of its work, or one part.
pub fn child(folder: &Folder, part: Option<u64>) -> io::Result<Ended> {
    let note = File::options().read(true).write(true).create(true).truncate(true).open(note_in(&folder.0))?;
    let mut command = Command::new("/proc/self/exe");
    command.args(env::args_os().skip(1)).env(FOLDER, &folder.0).env_remove(PART);
    if let Some(n) = part {
        command.env(PART, n.to_string());
    }
    let status = wait(&mut command.spawn()?, &note)?;
    let [at, beats] = noted(&note)?;
    let how = match status {
        Some(status) if beats == END => match status.code() {
            Some(code) => return Ok(Ended::Status(code)),
            None => format!("faulted at its end: {status}"),
        },
        Some(status) => format!("faulted: {status}"),
        None => format!("took longer than {} s", LIMIT.as_secs()),
    };
    Ok(Ended::Fault { at, how })
}
