//! The proved program that runs script files.

use std::io::Read;
use std::path::{Path, PathBuf};
use std::process::{Command, Stdio};
use std::sync::mpsc::{channel, Receiver};
use std::time::Duration;
use std::{fs, io, thread};

/// A run that takes longer is ended.
const LIMIT: Duration = Duration::from_secs(20);
/// More is not read of what a run prints.
const MOST: u64 = 1 << 28;

pub struct Program {
    path: PathBuf,
    /// where the scripts are put
    folder: PathBuf,
}

/// What a run printed, and what else is wrong with it.
struct Run {
    text: String,
    fault: Option<String>,
}

/// All that comes from a pipe, once it is closed.
fn all(from: Option<impl Read + Send + 'static>) -> Receiver<Vec<u8>> {
    let (to, received) = channel();
    thread::spawn(move || {
        let mut bytes = Vec::new();
        if let Some(pipe) = from {
            let _ = pipe.take(MOST).read_to_end(&mut bytes);
        }
        // the receiver may have gone
        let _ = to.send(bytes);
    });
    received
}

impl Program {
    pub fn new(path: &Path, folder: &Path) -> Result<Program, String> {
        if !path.is_file() {
            return Err(format!("{} is missing: `bin/hosts fuzz scripts` proves and builds it", path.display()));
        }
        Ok(Program { path: path.to_path_buf(), folder: folder.to_path_buf() })
    }

    fn file(&self, i: usize) -> PathBuf {
        self.folder.join(format!("{i}.bin"))
    }

    /// The printouts of some scripts. Whatever else is wrong with a run stands behind one of them, so that it differs. Scripts whose
    /// run is not as it should be are run one by one, to see which it is; `begins` is told of each.
    pub fn printouts(&self, scripts: &[Vec<u8>], begins: impl Fn(usize)) -> Result<Vec<String>, String> {
        let (mut printouts, fault) = self.together(scripts)?;
        let Some(fault) = fault else { return Ok(printouts) };
        if scripts.len() > 1 {
            printouts = self.one_by_one(scripts, begins, &fault)?;
        } else if let Some(only) = printouts.last_mut() {
            only.push_str(&fault);
        }
        Ok(printouts)
    }

    fn one_by_one(&self, scripts: &[Vec<u8>], begins: impl Fn(usize), fault: &str) -> Result<Vec<String>, String> {
        let mut printouts = Vec::with_capacity(scripts.len());
        let mut good = true;
        for (i, script) in scripts.iter().enumerate() {
            begins(i);
            let (printout, its_fault) = self.together(std::slice::from_ref(script))?;
            good &= its_fault.is_none();
            printouts.push(printout.concat() + &its_fault.unwrap_or_default());
        }
        match printouts.last_mut() {
            Some(last) if good => last.push_str(&format!("{} scripts in one run: {fault}", scripts.len())),
            _ => {}
        }
        Ok(printouts)
    }

    /// The printouts of one run, and what is wrong with it.
    fn together(&self, scripts: &[Vec<u8>]) -> Result<(Vec<String>, Option<String>), String> {
        for (i, script) in scripts.iter().enumerate() {
            fs::write(self.file(i), script).map_err(|e| format!("{}: {e}", self.file(i).display()))?;
        }
        let run = self.run(scripts.len()).map_err(|e| format!("{}: {e}", self.path.display()))?;
        Ok(match self.split(&run.text, scripts.len()) {
            Some(printouts) => (printouts, run.fault),
            None => (vec![String::new(); scripts.len()], Some(run.fault.unwrap_or("no printout\n".to_string()))),
        })
    }

    /// Before each printout stands a line with `==` and the file's name.
    fn split(&self, text: &str, n: usize) -> Option<Vec<String>> {
        let mut rest = text;
        let mut all = Vec::with_capacity(n);
        for i in 0..n {
            let body = rest.strip_prefix(&format!("== {}\n", self.file(i).display()))?;
            let end = body.find("== ").unwrap_or(body.len());
            all.push(body[..end].to_string());
            rest = &body[end..];
        }
        rest.is_empty().then_some(all)
    }

    fn run(&self, n: usize) -> io::Result<Run> {
        let files = (0..n).map(|i| self.file(i));
        let mut child = Command::new(&self.path).args(files).stdin(Stdio::null()).stdout(Stdio::piped()).stderr(Stdio::piped()).spawn()?;
        let (out, err) = (all(child.stdout.take()), all(child.stderr.take()));
        let text = out.recv_timeout(LIMIT);
        if text.is_err() {
            child.kill()?;
        }
        let status = child.wait()?;
        let said = String::from_utf8_lossy(&err.recv().unwrap_or_default()).trim_end().replace('\n', " / ");
        let fault = match &text {
            Err(_) => Some(format!("the program took longer than {} s\n", LIMIT.as_secs())),
            Ok(_) if !said.is_empty() => Some(format!("the program ended with {status} and said: {said}\n")),
            Ok(_) => (!status.success()).then(|| format!("the program ended with {status}\n")),
        };
        Ok(Run { text: String::from_utf8_lossy(&text.unwrap_or_default()).into_owned(), fault })
    }
}
