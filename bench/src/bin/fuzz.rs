//! Random calls and scripts, run by the proved library and by plain Rust, and compared.

use gussetreed_bench::calls::Calls;
use gussetreed_bench::cases::{call_text, damage_text, Answer, Call, Case, TITLE};
use gussetreed_bench::compare::{self, Pair};
use gussetreed_bench::generate::calls::Sequence;
use gussetreed_bench::generate::scripts::{self, Script};
use gussetreed_bench::library::Proved;
use gussetreed_bench::plain::{Plain, BAD_STATE};
use gussetreed_bench::planted::{self, Planted, CALLS_ONLY, PLANTS};
use gussetreed_bench::program::Program;
use gussetreed_bench::say;
use gussetreed_bench::script;
use gussetreed_bench::shrink::shrink;
use gussetreed_bench::tally::{Tally, OUTCOMES, REFUSALS};
use gussetreed_bench::watch::{self, Ended, Folder, Work};
use std::io::{stderr, IsTerminal, Write};
use std::path::{Path, PathBuf};
use std::process::ExitCode;
use std::time::{Duration, Instant};
use std::{env, fs, io};

const SCRIPTS: u64 = 10_000;
const CALLS: u64 = 1_000_000;
/// So many scripts go to the proved program at once.
const BATCH: u64 = 200;
/// So many differences are shown and saved; the others are counted.
const SHOWN: u64 = 3;
/// For so long a script is made smaller: the program may hang with each that is tried.
const PATIENCE: Duration = Duration::from_secs(60);

fn help() -> String {
    let plants: String = PLANTS.iter().map(|(name, what)| format!("  {name:<11} {what}\n")).collect();
    format!(
        "usage: bin/hosts fuzz scripts [--count N] [--seed S] [--plant NAME] [--program FILE] [--save FOLDER]
       bin/hosts fuzz calls [--count N] [--seed S] [--plant NAME] [--save FOLDER]
       bin/hosts fuzz case FILE [--plant NAME] [--program FILE]
       bin/hosts fuzz --help

scripts   random call scripts, good and damaged: the printout of plain Rust is compared with that of the proved program, and with
          that of the proved library's calls under the same runner
calls     random direct calls, some 40 from each new or nearly full target, one in five of them on a target that was damaged: replies,
          buffers and targets of the proved library and of plain Rust are compared
case      a saved case again, with the answers of both sides; or any script file

--count N       how many scripts ({SCRIPTS} if not given) or calls ({CALLS})
--seed S        from which all is made (1 if not given): the same seed, the same run
--plant NAME    an error in plain Rust, to see that it is found:
{plants}--program FILE  the proved program (if not given, target/bin/vectors, which `bin/hosts fuzz scripts` builds)
--save FOLDER   where a case is saved in which the two differ (if not given, the folder for temporary files)

The work is done by a child process. If it crashes or panics, or a part of its work takes longer than {} s, the script or the calls
that it was at are saved, and that is the end of the run.

Exit status: 0 no difference; 1 a difference, a crash or a hang; 2 wrong usage, or something that is missing.

Examples:
  bin/hosts fuzz scripts --count 100000 --seed 7
  bin/hosts fuzz calls --count 5000000
  bin/hosts fuzz calls --count 100000 --plant denied
",
        watch::LIMIT.as_secs()
    )
}

struct Options {
    mode: Mode,
    count: Option<u64>,
    seed: u64,
    plant: Option<String>,
    /// another program than the one in target/
    program: Option<PathBuf>,
    save: PathBuf,
}

enum Mode {
    Scripts,
    Calls,
    Case(PathBuf),
}

fn number(name: &str, value: &str) -> Result<u64, String> {
    value.replace('_', "").parse().map_err(|_| format!("{name} {value}: not a number"))
}

fn options(mut args: impl Iterator<Item = String>) -> Result<Options, String> {
    let mode = match args.next().as_deref() {
        Some("scripts") => Mode::Scripts,
        Some("calls") => Mode::Calls,
        Some("case") => Mode::Case(PathBuf::from(args.next().ok_or("case: no file named")?)),
        Some(other) => return Err(format!("{other}: neither scripts, calls nor case")),
        None => return Err("nothing to do: scripts, calls or case".to_string()),
    };
    let mut o = Options { mode, count: None, seed: 1, plant: None, program: None, save: env::temp_dir() };
    while let Some(name) = args.next() {
        let mut value = || args.next().ok_or(format!("{name}: its value is missing"));
        match (name.as_str(), &o.mode) {
            ("--count", Mode::Scripts | Mode::Calls) => o.count = Some(number(&name, &value()?)?),
            ("--seed", Mode::Scripts | Mode::Calls) => o.seed = number(&name, &value()?)?,
            ("--plant", _) => o.plant = Some(value()?),
            ("--program", Mode::Scripts | Mode::Case(_)) => o.program = Some(PathBuf::from(value()?)),
            ("--save", Mode::Scripts | Mode::Calls) => o.save = PathBuf::from(value()?),
            _ => return Err(format!("{name}: no such option here")),
        }
    }
    checked(o)
}

fn checked(o: Options) -> Result<Options, String> {
    let Some(plant) = &o.plant else { return Ok(o) };
    if !planted::choose(plant) {
        let names: Vec<_> = PLANTS.iter().map(|p| p.0).collect();
        return Err(format!("--plant {plant}: not one of {}", names.join(", ")));
    }
    if matches!(o.mode, Mode::Scripts) && CALLS_ONLY.contains(&plant.as_str()) {
        return Err(format!("--plant {plant}: no script can show it; use fuzz calls"));
    }
    Ok(o)
}

impl Options {
    /// The command that repeats it.
    fn again(&self, words: &str) -> String {
        let plant = self.plant.as_ref().map_or(String::new(), |p| format!(" --plant {p}"));
        let program = self.program.as_ref().map_or(String::new(), |p| format!(" --program {}", p.display()));
        format!("Again: bin/hosts fuzz {words}{plant}{program}")
    }

    fn program(&self, work: &Work) -> Result<Program, String> {
        let built = Path::new(env!("CARGO_MANIFEST_DIR")).join("../target/bin/vectors");
        Program::new(self.program.as_ref().unwrap_or(&built), &work.folder)
    }

    fn calls_file(&self, n: u64) -> String {
        format!("fuzz-calls-{}-{n}.txt", self.seed)
    }

    fn script_file(&self, n: u64) -> String {
        format!("fuzz-script-{}-{n}.bin", self.seed)
    }

    /// Says where a case is.
    fn saved(&self, path: &Path) {
        say!("Saved as {}\n{}\n", path.display(), self.again(&format!("case {}", path.display())));
    }

    fn save(&self, name: &str, content: &[u8]) -> Result<PathBuf, String> {
        let path = self.save.join(name);
        fs::create_dir_all(&self.save).and_then(|()| fs::write(&path, content)).map_err(|e| format!("{}: {e}", path.display()))?;
        Ok(path)
    }
}

/// Takes the line of progress from a terminal.
fn clear_line() {
    if stderr().is_terminal() {
        let _ = write!(stderr(), "\r\x1b[K");
    }
}

/// The line on standard error that says how far a run is.
struct Progress {
    start: Instant,
    last: Instant,
    terminal: bool,
    what: &'static str,
}

impl Progress {
    fn new(what: &'static str) -> Progress {
        let now = Instant::now();
        Progress { start: now, last: now, terminal: stderr().is_terminal(), what }
    }

    fn show(&mut self, done: u64, differences: u64) {
        let pause = if self.terminal { Duration::from_millis(200) } else { Duration::from_secs(5) };
        if self.last.elapsed() < pause {
            return;
        }
        self.last = Instant::now();
        let line = format!("{done} {}, {:.0} a second, {differences} differences", self.what, self.rate(done));
        let _ = match self.terminal {
            true => write!(stderr(), "\r\x1b[K{line}"),
            false => writeln!(stderr(), "{line}"),
        };
    }

    fn rate(&self, done: u64) -> f64 {
        done as f64 / self.start.elapsed().as_secs_f64().max(1e-9)
    }
}

// ## Calls

/// The name of an answer or, counted on from `base`, of a refusal.
fn outcome_name(n: u32, base: usize) -> &'static str {
    OUTCOMES.get(base + n as usize).copied().unwrap_or("an unknown number")
}

fn answer_text(a: &Answer) -> String {
    match a {
        _ if a.is_refusal() => format!("REFUSED {}", outcome_name(a.code(), REFUSALS)),
        Answer::Reply(r) => format!("{} code {} value {} second {}", outcome_name(r.answer, 0), r.code, r.value, r.second),
        Answer::Event(r) => {
            let fields: Vec<_> = compare::event(&r.event).iter().map(|(name, n)| format!("{name} {n}")).collect();
            format!("{} {}", outcome_name(r.answer, 0), fields.join(" "))
        }
    }
}

fn cut(line: &str) -> String {
    if line.len() > 300 && line.is_char_boundary(300) {
        format!("{}.. ({} characters)", &line[..300], line.len())
    } else {
        line.to_string()
    }
}

/// Runs a case and prints each call with what both sides answered; whether they differ.
fn show_case<B: Calls>(work: &Work, case: &Case) -> bool {
    let mut pair = Pair::new(case);
    for (i, step) in case.steps.iter().enumerate() {
        for d in &step.damage {
            say!("      {}", damage_text(d));
        }
        say!("{i:>4}  {}", cut(&call_text(&step.call)));
        work.beat();
        let (a, b, found) = pair.step::<Proved, B>(step);
        let Some(found) = found else {
            say!("      both    {}", answer_text(&a));
            continue;
        };
        say!("      proved  {}\n      plain   {}\n      differ in  {found}", answer_text(&a), answer_text(&b));
        return true;
    }
    say!("      no difference");
    false
}

/// Drops calls, then damage, as long as there is a difference.
fn shrink_case<B: Calls>(work: &Work, case: &Case) -> Case {
    let mut small = case.clone();
    let mut tried = case.clone();
    small.steps = shrink(&case.steps, 2_000, |steps| {
        work.beat();
        tried.steps = steps.to_vec();
        compare::run::<Proved, B>(&tried).is_some()
    });
    for i in 0..small.steps.len() {
        work.beat();
        let damage = std::mem::take(&mut small.steps[i].damage);
        if compare::run::<Proved, B>(&small).is_none() {
            small.steps[i].damage = damage;
        }
    }
    small
}

/// The case is shown as it is first, as a smaller one may crash.
fn report_case<B: Calls>(o: &Options, work: &Work, n: u64, (case, found): &(Case, String)) -> Result<(), String> {
    let calls = case.steps.len();
    say!("Difference in sequence {n} of seed {}, in its call {}: {found}", o.seed, calls - 1);
    let small = shrink_case::<B>(work, case);
    say!("{}", if small.steps.len() < calls { "With fewer calls:" } else { "All its calls:" });
    show_case::<B>(work, &small);
    o.saved(&o.save(&o.calls_file(n), small.text().as_bytes())?);
    Ok(())
}

fn fuzz_calls<B: Calls>(o: &Options, work: &Work) -> Result<Tally, String> {
    let count = o.count.unwrap_or(CALLS);
    let mut tally = Tally::default();
    let mut progress = Progress::new("calls");
    while tally.calls < count {
        let n = tally.sequences;
        work.at(n);
        if let Some(case) = sequence::<B>(o.seed, n, count, &mut tally) {
            tally.differences += 1;
            if tally.differences <= SHOWN {
                clear_line();
                report_case::<B>(o, work, n, &case)?;
            }
        }
        tally.sequences += 1;
        progress.show(tally.calls, tally.differences);
    }
    clear_line();
    say!("{} calls in {} sequences, {:.0} a second", tally.calls, tally.sequences, progress.rate(tally.calls));
    say!("{}{}", tally.states(), tally.table(false).trim_end());
    Ok(tally)
}

/// Runs one sequence; if there is a difference, the case up to it, and the difference.
fn sequence<B: Calls>(seed: u64, n: u64, count: u64, tally: &mut Tally) -> Option<(Case, String)> {
    let (mut case, mut maker) = Sequence::new(seed, n);
    let mut pair = Pair::new(&case);
    while tally.calls < count {
        let step = maker.step(pair.plain.target())?;
        if !matches!(step.call, Call::New(_)) {
            tally.state(pair.plain.target());
        }
        let (_, b, found) = pair.step::<Proved, B>(&step);
        tally.call(step.call.number(), &b);
        tally.damaged += u64::from(!step.damage.is_empty());
        tally.unsound += u64::from(!step.damage.is_empty() && b.is_refusal() && b.code() == BAD_STATE);
        case.steps.push(step);
        if let Some(found) = found {
            return Some((case, found));
        }
    }
    None
}

/// Runs one sequence again that faulted, and saves each call before it is made, so that the last one saved is the one that faults.
fn trace<B: Calls>(o: &Options, n: u64) -> Result<bool, String> {
    let (case, mut maker) = Sequence::new(o.seed, n);
    let mut pair = Pair::new(&case);
    let path = o.save(&o.calls_file(n), case.text().as_bytes())?;
    let failed = |e: io::Error| format!("{}: {e}", path.display());
    let mut file = fs::File::options().append(true).open(&path).map_err(failed)?;
    while let Some(step) = maker.step(pair.plain.target()) {
        file.write_all(step.text().as_bytes()).map_err(failed)?;
        if pair.step::<Proved, B>(&step).2.is_some() {
            return Ok(true);
        }
    }
    Ok(false)
}

// ## Scripts

/// Where two printouts differ: the line's number, and both lines.
fn line_difference<'a>(a: &'a str, b: &'a str) -> Option<(usize, &'a str, &'a str)> {
    if a == b {
        return None;
    }
    let (mut x, mut y) = (a.split('\n'), b.split('\n'));
    let mut i = 0;
    loop {
        let (p, q) = (x.next(), y.next());
        if p != q {
            return Some((i, p.unwrap_or("(nothing)"), q.unwrap_or("(nothing)")));
        }
        p?;
        i += 1;
    }
}

/// What a script prints on each side: the proved program, the proved library, plain.
struct Printouts {
    program: String,
    library: String,
    plain: String,
}

impl Printouts {
    fn of<B: Calls>(file: &[u8], program: String) -> Printouts {
        Printouts { program, library: script::run::<Proved>(file), plain: script::run::<B>(file) }
    }

    fn differ(&self) -> bool {
        self.program != self.plain || self.library != self.plain
    }

    fn show(&self) {
        for (name, text) in [("program", &self.program), ("library", &self.library)] {
            if let Some((i, a, b)) = line_difference(text, &self.plain) {
                say!("  line {i} of the printout:\n    proved {name}  {}\n    plain           {}", cut(a), cut(b));
            }
        }
    }
}

fn one<B: Calls>(program: &Program, file: Vec<u8>) -> Result<Printouts, String> {
    let printout = program.printouts(std::slice::from_ref(&file), |_| {})?.concat();
    Ok(Printouts::of::<B>(&file, printout))
}

/// A smaller script with a difference, if there is one.
fn shrink_script<B: Calls>(work: &Work, program: &Program, file: &[u8]) -> Option<Vec<u8>> {
    let whole = Script::of(file)?;
    let with = |lines: &[scripts::Line]| Script { lines: lines.to_vec(), ..whole.clone() }.file();
    let until = Instant::now() + PATIENCE;
    let lines = shrink(&whole.lines, 400, |lines| {
        work.beat();
        Instant::now() < until && one::<B>(program, with(lines)).is_ok_and(|p| p.differ())
    });
    (lines.len() < whole.lines.len()).then(|| with(&lines))
}

/// The script is shown as it is first, as a smaller one may crash.
fn report_script<B: Calls>(o: &Options, work: &Work, program: &Program, n: u64, file: &[u8], p: &Printouts) -> Result<(), String> {
    say!("Difference in script {n} of seed {}, of {} bytes:", o.seed, file.len());
    p.show();
    let small = shrink_script::<B>(work, program, file);
    if let Some(small) = &small {
        say!("Made smaller, to {} bytes:", small.len());
        one::<B>(program, small.clone())?.show();
    }
    o.saved(&o.save(&o.script_file(n), small.as_deref().unwrap_or(file))?);
    Ok(())
}

fn fuzz_scripts<B: Calls>(o: &Options, work: &Work) -> Result<Tally, String> {
    let program = o.program(work)?;
    let count = o.count.unwrap_or(SCRIPTS);
    let mut tally = Tally::default();
    let mut progress = Progress::new("scripts");
    let mut done = 0;
    while done < count {
        work.at(done);
        let files: Vec<_> = (done..count.min(done + BATCH)).map(|n| scripts::script(o.seed, n)).collect();
        let printouts = program.printouts(&files, |i| work.at(done + i as u64))?;
        for (file, printout) in files.iter().zip(printouts) {
            work.at(done);
            let p = Printouts::of::<B>(file, printout);
            tally.script(file, &p.plain);
            if p.differ() {
                tally.differences += 1;
                if tally.differences <= SHOWN {
                    clear_line();
                    report_script::<B>(o, work, &program, done, file, &p)?;
                }
            }
            done += 1;
        }
        progress.show(done, tally.differences);
    }
    clear_line();
    say!("{done} scripts, {:.0} a second", progress.rate(done));
    say!("  {} good, {} bad by their head, {} by a call", tally.good_scripts, tally.bad_heads, tally.bad_calls);
    say!("  {} calls in the good ones:", tally.calls);
    say!("{}", tally.table(true).trim_end());
    Ok(tally)
}

// ## A saved case

fn show_script<B: Calls>(o: &Options, work: &Work, file: Vec<u8>) -> Result<bool, String> {
    let p = one::<B>(&o.program(work)?, file)?;
    let lines = p.plain.lines().zip(p.program.lines()).zip(p.library.lines());
    for ((line, _), _) in lines.take_while(|((a, b), c)| a == b && a == c) {
        say!("{}", cut(line));
    }
    p.show();
    say!("{}", if p.differ() { "  they differ" } else { "  no difference" });
    Ok(p.differ())
}

fn again<B: Calls>(o: &Options, work: &Work, path: &Path) -> Result<bool, String> {
    let file = fs::read(path).map_err(|e| format!("{}: {e}", path.display()))?;
    if !file.starts_with(TITLE.as_bytes()) {
        return show_script::<B>(o, work, file);
    }
    let text = String::from_utf8(file).map_err(|_| format!("{}: not a text", path.display()))?;
    let case = Case::parse(&text).map_err(|e| format!("{}: {e}", path.display()))?;
    Ok(show_case::<B>(work, &case))
}

// ## The child and its parent

fn summary(o: &Options, mode: &str, count: u64, tally: &Tally) -> bool {
    say!("  {} differences; seed {}", tally.differences, o.seed);
    say!("{}", o.again(&format!("{mode} --count {count} --seed {}", o.seed)));
    tally.differences != 0
}

/// The child's work: whether there was a difference.
fn run<B: Calls>(o: &Options, work: &Work) -> Result<bool, String> {
    match (&o.mode, work.part) {
        (Mode::Scripts, _) => Ok(summary(o, "scripts", o.count.unwrap_or(SCRIPTS), &fuzz_scripts::<B>(o, work)?)),
        (Mode::Calls, None) => Ok(summary(o, "calls", o.count.unwrap_or(CALLS), &fuzz_calls::<B>(o, work)?)),
        (Mode::Calls, Some(n)) => trace::<B>(o, n),
        (Mode::Case(path), _) => again::<B>(o, work, path),
    }
}

/// Says that the child faulted, and saves what it was at.
fn fault(o: &Options, folder: &Folder, at: u64, how: &str) -> Result<(), String> {
    clear_line();
    match &o.mode {
        Mode::Case(_) => say!("The case {how}"),
        Mode::Scripts => {
            say!("Script {at} of seed {} {how}", o.seed);
            o.saved(&o.save(&o.script_file(at), &scripts::script(o.seed, at))?);
        }
        Mode::Calls => {
            say!("Sequence {at} of seed {} {how}", o.seed);
            match watch::child(folder, Some(at)).map_err(|e| format!("no child process: {e}"))? {
                Ended::Fault { .. } => say!("Its last call is the one."),
                Ended::Status(0 | 1) => say!("A second time it did not."),
                Ended::Status(_) => return Err("its calls are not saved".to_string()),
            }
            o.saved(&o.save.join(o.calls_file(at)));
        }
    }
    Ok(())
}

fn parent(o: &Options) -> Result<u8, String> {
    let failed = |e: io::Error| format!("no child process: {e}");
    let folder = Folder::new().map_err(|e| format!("no temporary folder: {e}"))?;
    match watch::child(&folder, None).map_err(failed)? {
        Ended::Status(status) => Ok(status as u8),
        Ended::Fault { at, how } => fault(o, &folder, at, &how).map(|()| 1),
    }
}

fn child(o: &Options, work: &Work) -> Result<u8, String> {
    let found = if o.plant.is_some() { run::<Planted>(o, work) } else { run::<Plain>(o, work) };
    work.end();
    found.map(u8::from)
}

fn main() -> ExitCode {
    let args: Vec<String> = env::args().skip(1).collect();
    if args.iter().any(|a| a == "--help" || a == "-h") {
        say!("{}", help().trim_end());
        return ExitCode::SUCCESS;
    }
    let o = match options(args.into_iter()) {
        Ok(o) => o,
        Err(e) => {
            eprintln!("fuzz: {e}\nbin/hosts fuzz --help says how it is used");
            return ExitCode::from(2);
        }
    };
    let ended = match Work::given() {
        None => parent(&o),
        Some(work) => work.map_err(|e| format!("no note: {e}")).and_then(|work| child(&o, &work)),
    };
    match ended {
        Ok(status) => ExitCode::from(status),
        Err(e) => {
            eprintln!("fuzz: {e}");
            ExitCode::from(2)
        }
    }
}
