//! A safe face of libfanquber for Rust. Copy it into a project, and link with `-l fanquber`.
use std::fmt;

#[repr(C)]
struct CSettings {
    size: usize,
    limit: usize,
    mode: u8,
    letters: u8,
    named: bool,
    raw: bool,
    viable: bool,
    nul: bool,
    explain: bool,
    budget: usize,
    seed: u64,
}

#[repr(C)]
#[derive(Clone, Copy)]
struct CResult {
    out_len: usize,
    err_len: usize,
    status: u8,
}

#[repr(C)]
struct CWindow {
    at: usize,
    len: usize,
}

type Call = unsafe extern "C" fn(
    *const CSettings, *const u8, usize, *const u8, usize, *const u8, usize, *mut u8, usize, *mut u8, usize,
) -> CResult;

#[link(name = "fanquber")]
unsafe extern "C" {
    fn fanquber_peg(
        settings: *const CSettings, grammar: *const u8, grammar_len: usize, name: *const u8, name_len: usize,
        input: *const u8, input_len: usize, out: *mut u8, out_size: usize, err: *mut u8, err_size: usize,
    ) -> CResult;
    fn fanquber_abnf(
        settings: *const CSettings, grammar: *const u8, grammar_len: usize, name: *const u8, name_len: usize,
        input: *const u8, input_len: usize, out: *mut u8, out_size: usize, err: *mut u8, err_size: usize,
    ) -> CResult;
    fn fanquber_peg_windows(
        settings: *const CSettings, grammar: *const u8, grammar_len: usize, name: *const u8, name_len: usize,
        input: *const u8, input_len: usize, windows: *const CWindow, windows_len: usize, results: *mut CResult,
        results_len: usize, out: *mut u8, out_size: usize, err: *mut u8, err_size: usize,
    ) -> CResult;
}

#[repr(C)]
struct CJudge {
    at: *mut u8,
    is_open: bool,
}

#[repr(C)]
struct CAnswer {
    reached: usize,
    status: u8,
}

#[link(name = "fanquber")]
unsafe extern "C" {
    fn fanquber_abnf_open(
        settings: *const CSettings, grammar: *const u8, grammar_len: usize, name: *const u8, name_len: usize,
        judge: *mut CJudge, err: *mut u8, err_size: usize,
    ) -> CResult;
    fn fanquber_abnf_judge(judge: *mut CJudge, line: *const u8, line_len: usize) -> CAnswer;
    fn fanquber_abnf_close(judge: *mut CJudge);
}

#[repr(C)]
struct CRunner {
    at: *mut u8,
    is_open: bool,
}

#[link(name = "fanquber")]
unsafe extern "C" {
    fn fanquber_peg_open(
        settings: *const CSettings, grammar: *const u8, grammar_len: usize, name: *const u8, name_len: usize,
        runner: *mut CRunner, err: *mut u8, err_size: usize,
    ) -> CResult;
    fn fanquber_peg_run(
        runner: *mut CRunner, input: *const u8, input_len: usize, out: *mut u8, out_size: usize, err: *mut u8,
        err_size: usize,
    ) -> CResult;
    fn fanquber_peg_close(runner: *mut CRunner);
}

#[repr(C)]
struct CAlone {
    len: usize,
    known: u8,
}

#[repr(C)]
struct CComparison {
    old_alone: CAlone,
    new_alone: CAlone,
    err_len: usize,
    old_err_len: usize,
    status: u8,
}

#[link(name = "fanquber")]
unsafe extern "C" {
    fn fanquber_compare(
        settings: *const CSettings, budget: usize, old: *const u8, old_len: usize, old_name: *const u8,
        old_name_len: usize, new: *const u8, new_len: usize, new_name: *const u8, new_name_len: usize,
        old_line: *mut u8, old_line_size: usize, new_line: *mut u8, new_line_size: usize, err: *mut u8,
        err_size: usize,
    ) -> CComparison;
}

#[repr(C)]
struct CLines {
    at: *mut u8,
    is_open: bool,
}

#[repr(C)]
struct CLine {
    len: usize,
    status: u8,
}

#[link(name = "fanquber")]
unsafe extern "C" {
    fn fanquber_lines_open(
        settings: *const CSettings, which: u8, grammar: *const u8, grammar_len: usize, name: *const u8,
        name_len: usize, lines: *mut CLines, err: *mut u8, err_size: usize,
    ) -> CResult;
    fn fanquber_lines_next(lines: *mut CLines, line: *mut u8, line_size: usize) -> CLine;
    fn fanquber_lines_close(lines: *mut CLines);
}

/// The greatest limit.
pub const MAX_LIMIT: usize = 16_777_216;

#[derive(Clone, Copy, Debug, PartialEq, Eq)]
pub enum Tool {
    Peg,
    Abnf,
}

#[derive(Clone, Copy, Debug, PartialEq, Eq)]
pub enum Mode {
    Run,
    Check,
    Print,
}

#[derive(Clone, Copy, Debug, PartialEq, Eq)]
pub enum Letters {
    Bytes,
    Utf8,
}

/// The settings of a run, as fanquber(3) lists them.
#[derive(Clone, Copy, Debug)]
pub struct Settings<'a> {
    pub mode: Mode,
    pub limit: usize,
    pub start: Option<&'a str>,
    pub raw: bool,
    pub letters: Letters,
    pub viable: bool,
    pub nul: bool,
    pub explain: bool,
    /// How many items the sets of a line may have, or how many bytes a unit may print; any number if it is 0.
    pub budget: usize,
    /// The seed of lines by lot.
    pub seed: u64,
}

impl Default for Settings<'_> {
    fn default() -> Self {
        Settings {
            mode: Mode::Run,
            limit: 65_536,
            start: None,
            raw: false,
            letters: Letters::Bytes,
            viable: false,
            nul: false,
            explain: false,
            budget: 0,
            seed: 1,
        }
    }
}

#[derive(Clone, Copy, Debug, PartialEq, Eq)]
pub enum Status {
    Done,
    NoMatch,
    Refused,
    Overlong,
}

/// What a run wrote on both outputs, and its status.
#[derive(Debug)]
pub struct Reply {
    pub out: Vec<u8>,
    pub err: Vec<u8>,
    pub status: Status,
}

#[derive(Clone, Copy, Debug, PartialEq, Eq)]
pub enum Error {
    /// The limit is out of its range, or the library is older than this file.
    Settings,
    /// An allocation failed.
    Memory,
    /// The grammar has too many states.
    States,
}

impl fmt::Display for Error {
    fn fmt(&self, f: &mut fmt::Formatter<'_>) -> fmt::Result {
        f.write_str(match self {
            Error::Settings => "settings out of range",
            Error::Memory => "out of memory",
            Error::States => "too many states",
        })
    }
}

impl std::error::Error for Error {}

impl CResult {
    fn status(&self) -> Result<Status, Error> {
        match self.status {
            0 => Ok(Status::Done),
            1 => Ok(Status::NoMatch),
            2 => Ok(Status::Refused),
            3 => Ok(Status::Overlong),
            6 => Err(Error::Settings),
            _ => Err(Error::Memory),
        }
    }
}

impl Settings<'_> {
    fn for_c(&self) -> CSettings {
        CSettings {
            size: std::mem::size_of::<CSettings>(),
            limit: self.limit,
            mode: self.mode as u8,
            letters: self.letters as u8,
            named: self.start.is_some(),
            raw: self.raw,
            viable: self.viable,
            nul: self.nul,
            explain: self.explain,
            budget: self.budget,
            seed: self.seed,
        }
    }
}

/// Runs a grammar on an input.
pub fn run(tool: Tool, grammar: &[u8], settings: &Settings, input: &[u8]) -> Result<Reply, Error> {
    let asked = settings.for_c();
    let call: Call = match tool {
        Tool::Peg => fanquber_peg,
        Tool::Abnf => fanquber_abnf,
    };
    let name = settings.start.unwrap_or("").as_bytes();
    let (mut out, mut err) = (vec![0; 4096], vec![0; 1024]);
    loop {
        // SAFETY: the pointers of slices are not null and their bytes are initialized; no slice is longer than
        // `isize::MAX`; both buffers are borrowed alone.
        let got = unsafe {
            call(
                &asked,
                grammar.as_ptr(),
                grammar.len(),
                name.as_ptr(),
                name.len(),
                input.as_ptr(),
                input.len(),
                out.as_mut_ptr(),
                out.len(),
                err.as_mut_ptr(),
                err.len(),
            )
        };
        let status = got.status()?;
        if got.out_len <= out.len() && got.err_len <= err.len() {
            out.truncate(got.out_len);
            err.truncate(got.err_len);
            return Ok(Reply { out, err, status });
        }
        out.resize(got.out_len.max(out.len()), 0);
        err.resize(got.err_len.max(err.len()), 0);
    }
}

/// Runs a grammar of peg(1) on each of some inputs by itself: each reply is that of `run`. The grammar is read and checked
/// once.
pub fn run_each(grammar: &[u8], settings: &Settings, inputs: &[&[u8]]) -> Result<Vec<Reply>, Error> {
    let asked = settings.for_c();
    let name = settings.start.unwrap_or("").as_bytes();
    let input = inputs.concat();
    let mut at = 0;
    let mut windows = Vec::new();
    for part in inputs {
        windows.push(CWindow { at, len: part.len() });
        at += part.len();
    }
    let none = CResult {
        out_len: 0,
        err_len: 0,
        status: 0,
    };
    let mut results = vec![none; windows.len()];
    let (mut out, mut err) = (vec![0; 4096], vec![0; 1024]);
    loop {
        // SAFETY: as in `run`; there are as many results as windows.
        let got = unsafe {
            fanquber_peg_windows(
                &asked,
                grammar.as_ptr(),
                grammar.len(),
                name.as_ptr(),
                name.len(),
                input.as_ptr(),
                input.len(),
                windows.as_ptr(),
                windows.len(),
                results.as_mut_ptr(),
                results.len(),
                out.as_mut_ptr(),
                out.len(),
                err.as_mut_ptr(),
                err.len(),
            )
        };
        got.status()?;
        if got.out_len <= out.len() && got.err_len <= err.len() {
            return replies(&results, &out[..got.out_len], &err[..got.err_len]);
        }
        out.resize(got.out_len.max(out.len()), 0);
        err.resize(got.err_len.max(err.len()), 0);
    }
}

/// Cuts what runs wrote into their replies. The messages on the grammar stand once, before those of the runs.
fn replies(results: &[CResult], mut out: &[u8], err: &[u8]) -> Result<Vec<Reply>, Error> {
    let of_runs: usize = results.iter().map(|it| it.err_len).sum();
    let (of_grammar, mut err) = err.split_at(err.len() - of_runs);
    let mut replies = Vec::new();
    for it in results {
        let status = it.status()?;
        let (printed, out_after) = out.split_at(it.out_len);
        let (messages, err_after) = err.split_at(it.err_len);
        replies.push(Reply {
            out: printed.to_vec(),
            err: [of_grammar, messages].concat(),
            status,
        });
        (out, err) = (out_after, err_after);
    }
    Ok(replies)
}

/// What opening a grammar gives.
pub enum Opened {
    /// What judges lines by it.
    Judge(Judge),
    /// The lines that say why it is rejected.
    Refused(Vec<u8>),
}

/// The answer to a line.
#[derive(Clone, Copy, Debug, PartialEq, Eq)]
pub enum Answer {
    /// The rule derives it.
    Yes,
    /// The rule does not derive it. Its longest viable prefix has so many letters, if the settings ask for that, else 0.
    No(usize),
    /// It is longer than the limit.
    Overlong,
    /// It needs more items than the budget.
    Costly,
}

/// A grammar in ABNF that is read once, and judges line after line. It stays on its thread.
pub struct Judge {
    own: CJudge,
    /// The notes on the grammar.
    pub notes: Vec<u8>,
}

impl Judge {
    /// Opens a grammar. The mode of the settings is not looked at.
    pub fn open(grammar: &[u8], settings: &Settings) -> Result<Opened, Error> {
        let asked = settings.for_c();
        let name = settings.start.unwrap_or("").as_bytes();
        let mut judge = Judge {
            own: CJudge {
                at: std::ptr::null_mut(),
                is_open: false,
            },
            notes: vec![0; 1024],
        };
        loop {
            // SAFETY: as in `run`; the judge is closed.
            let got = unsafe {
                fanquber_abnf_open(
                    &asked,
                    grammar.as_ptr(),
                    grammar.len(),
                    name.as_ptr(),
                    name.len(),
                    &mut judge.own,
                    judge.notes.as_mut_ptr(),
                    judge.notes.len(),
                )
            };
            let is_whole = got.err_len <= judge.notes.len();
            judge.notes.resize(got.err_len, 0);
            match got.status {
                6 => return Err(Error::Settings),
                5 => return Err(Error::Memory),
                // SAFETY: the library left the judge so.
                _ if !is_whole => unsafe { fanquber_abnf_close(&mut judge.own) },
                0 => return Ok(Opened::Judge(judge)),
                _ => return Ok(Opened::Refused(std::mem::take(&mut judge.notes))),
            }
        }
    }

    /// Judges a line.
    pub fn judge(&mut self, line: &[u8]) -> Result<Answer, Error> {
        // SAFETY: as in `run`; the library left the judge so, and nothing else uses it.
        let got = unsafe { fanquber_abnf_judge(&mut self.own, line.as_ptr(), line.len()) };
        match got.status {
            0 => Ok(Answer::Yes),
            1 => Ok(Answer::No(got.reached)),
            3 => Ok(Answer::Overlong),
            7 => Ok(Answer::Costly),
            _ => Err(Error::Memory),
        }
    }
}

impl Drop for Judge {
    fn drop(&mut self) {
        // SAFETY: the library left the judge so, and nothing uses it from now on.
        unsafe { fanquber_abnf_close(&mut self.own) }
    }
}

/// What opening a grammar of peg(1) gives.
pub enum OpenedPeg {
    /// What runs it.
    Runner(Runner),
    /// The lines that say why it is rejected.
    Refused(Vec<u8>),
}

/// A grammar of peg(1) that is read once, and runs on input after input. It stays on its thread.
pub struct Runner {
    own: CRunner,
    /// The notes on the grammar.
    pub notes: Vec<u8>,
}

impl Runner {
    /// Opens a grammar. The mode of the settings is not looked at.
    pub fn open(grammar: &[u8], settings: &Settings) -> Result<OpenedPeg, Error> {
        let asked = settings.for_c();
        let name = settings.start.unwrap_or("").as_bytes();
        let mut runner = Runner {
            own: CRunner {
                at: std::ptr::null_mut(),
                is_open: false,
            },
            notes: vec![0; 1024],
        };
        loop {
            // SAFETY: as in `run`; the runner is closed.
            let got = unsafe {
                fanquber_peg_open(
                    &asked,
                    grammar.as_ptr(),
                    grammar.len(),
                    name.as_ptr(),
                    name.len(),
                    &mut runner.own,
                    runner.notes.as_mut_ptr(),
                    runner.notes.len(),
                )
            };
            let is_whole = got.err_len <= runner.notes.len();
            runner.notes.resize(got.err_len, 0);
            match got.status()? {
                // SAFETY: the library left the runner so.
                _ if !is_whole => unsafe { fanquber_peg_close(&mut runner.own) },
                Status::Done => return Ok(OpenedPeg::Runner(runner)),
                _ => return Ok(OpenedPeg::Refused(std::mem::take(&mut runner.notes))),
            }
        }
    }

    /// Runs the grammar on an input: the reply is that of `run` without the notes.
    pub fn run(&mut self, input: &[u8]) -> Result<Reply, Error> {
        let (mut out, mut err) = (vec![0; 4096], vec![0; 1024]);
        loop {
            // SAFETY: as in `run`; the library left the runner so, and nothing else uses it.
            let got = unsafe {
                fanquber_peg_run(
                    &mut self.own,
                    input.as_ptr(),
                    input.len(),
                    out.as_mut_ptr(),
                    out.len(),
                    err.as_mut_ptr(),
                    err.len(),
                )
            };
            let status = got.status()?;
            if got.out_len <= out.len() && got.err_len <= err.len() {
                out.truncate(got.out_len);
                err.truncate(got.err_len);
                return Ok(Reply { out, err, status });
            }
            out.resize(got.out_len.max(out.len()), 0);
            err.resize(got.err_len.max(err.len()), 0);
        }
    }
}

impl Drop for Runner {
    fn drop(&mut self) {
        // SAFETY: the library left the runner so, and nothing uses it from now on.
        unsafe { fanquber_peg_close(&mut self.own) }
    }
}

/// How many pairs of states abnfd(1) looks at without options.
pub const DEFAULT_BUDGET: usize = 1_000_000;

/// What is known of the lines that one of two rules derives and the other does not.
#[derive(Clone, Debug, PartialEq, Eq)]
pub enum Alone {
    /// Nothing.
    Unknown,
    /// There is no such line.
    Never,
    /// There is none of at most so many letters.
    NeverUpTo(usize),
    /// The first of them.
    First(Vec<u8>),
}

/// What is found of two grammars in ABNF.
#[derive(Debug)]
pub struct Comparison {
    /// What is known of the lines that the old rule alone derives.
    pub old_alone: Alone,
    /// What is known of the lines that the new rule alone derives.
    pub new_alone: Alone,
    /// The notes on the old grammar.
    pub old_notes: Vec<u8>,
    /// The notes on the new grammar.
    pub new_notes: Vec<u8>,
    /// `Done`: both rules derive the same lines; `NoMatch`: they do not; `Overlong`: that is not known; `Refused`: a
    /// grammar is rejected.
    pub status: Status,
}

/// Returns what is known, with the line in the buffer. `None` if that is too small, and makes room.
fn known_of(found: &CAlone, line: &mut Vec<u8>) -> Option<Alone> {
    match found.known {
        1 => Some(Alone::Never),
        2 => Some(Alone::NeverUpTo(found.len)),
        3 if found.len <= line.len() => Some(Alone::First(line[..found.len].to_vec())),
        3 => {
            line.resize(found.len, 0);
            None
        }
        _ => Some(Alone::Unknown),
    }
}

/// Compares the lines of any length that rules of two grammars derive. The old rule is that of the settings, the new one
/// has a name of its own; each is the first if it has none.
pub fn compare(
    old: &[u8], new: &[u8], settings: &Settings, new_start: Option<&str>, budget: usize,
) -> Result<Comparison, Error> {
    let mut asked = settings.for_c();
    asked.named = true; // an empty name is none
    let names = [settings.start, new_start].map(|name| name.unwrap_or("").as_bytes());
    let (mut old_line, mut new_line, mut err) = (vec![0; 256], vec![0; 256], vec![0; 1024]);
    loop {
        // SAFETY: as in `run`; the three buffers are borrowed alone.
        let got = unsafe {
            fanquber_compare(
                &asked,
                budget,
                old.as_ptr(),
                old.len(),
                names[0].as_ptr(),
                names[0].len(),
                new.as_ptr(),
                new.len(),
                names[1].as_ptr(),
                names[1].len(),
                old_line.as_mut_ptr(),
                old_line.len(),
                new_line.as_mut_ptr(),
                new_line.len(),
                err.as_mut_ptr(),
                err.len(),
            )
        };
        let status = CResult {
            out_len: 0,
            err_len: got.err_len,
            status: got.status,
        }
        .status()?;
        let known = (known_of(&got.old_alone, &mut old_line), known_of(&got.new_alone, &mut new_line));
        if let ((Some(old_alone), Some(new_alone)), true) = (known, got.err_len <= err.len()) {
            return Ok(Comparison {
                old_alone,
                new_alone,
                old_notes: err[..got.old_err_len].to_vec(),
                new_notes: err[got.old_err_len..got.err_len].to_vec(),
                status,
            });
        }
        err.resize(got.err_len.max(err.len()), 0);
    }
}

/// Which lines are listed.
#[derive(Clone, Copy, Debug, PartialEq, Eq)]
pub enum Listed {
    /// Those that the rule derives, shorter ones first.
    Derived,
    /// Near ones that it does not derive.
    Missed,
    /// Near ones, with wrong letters next to those that can follow.
    Edges,
    /// Some that it derives, by lot. They have no end if there is one.
    Random,
    /// Those that it derives and that have only the first of letters that no set distinguishes.
    Samples,
    /// Lines that it derives and that reach each alternative and each bound, longer ones first.
    Cover,
}

/// Lines of a grammar in ABNF, one after another. They stay on their thread.
pub struct Lines {
    own: CLines,
    line: Vec<u8>,
    /// The notes on the grammar.
    pub notes: Vec<u8>,
}

impl Lines {
    /// Opens a grammar; `Err` has the lines that say why it is rejected. A line has at most as many letters as the limit
    /// of the settings.
    pub fn open(grammar: &[u8], settings: &Settings, which: Listed) -> Result<Result<Lines, Vec<u8>>, Error> {
        let asked = settings.for_c();
        let name = settings.start.unwrap_or("").as_bytes();
        let most = if settings.letters == Letters::Utf8 { 4 } else { 1 };
        let mut lines = Lines {
            own: CLines {
                at: std::ptr::null_mut(),
                is_open: false,
            },
            line: vec![0; settings.limit.min(MAX_LIMIT) * most],
            notes: vec![0; 1024],
        };
        loop {
            // SAFETY: as in `run`; the lines are closed.
            let got = unsafe {
                fanquber_lines_open(
                    &asked,
                    which as u8,
                    grammar.as_ptr(),
                    grammar.len(),
                    name.as_ptr(),
                    name.len(),
                    &mut lines.own,
                    lines.notes.as_mut_ptr(),
                    lines.notes.len(),
                )
            };
            let is_whole = got.err_len <= lines.notes.len();
            lines.notes.resize(got.err_len, 0);
            match got.status()? {
                // SAFETY: the library left the lines so.
                _ if !is_whole => unsafe { fanquber_lines_close(&mut lines.own) },
                Status::Done => return Ok(Ok(lines)),
                _ => return Ok(Err(std::mem::take(&mut lines.notes))),
            }
        }
    }
}

impl Iterator for Lines {
    type Item = Result<Vec<u8>, Error>;

    fn next(&mut self) -> Option<Self::Item> {
        // SAFETY: as in `run`; the library left the lines so, and nothing else uses them.
        let got = unsafe { fanquber_lines_next(&mut self.own, self.line.as_mut_ptr(), self.line.len()) };
        match got.status {
            0 => Some(Ok(self.line[..got.len].to_vec())),
            1 => None,
            3 => Some(Err(Error::States)),
            _ => Some(Err(Error::Memory)),
        }
    }
}

impl Drop for Lines {
    fn drop(&mut self) {
        // SAFETY: the library left the lines so, and nothing uses them from now on.
        unsafe { fanquber_lines_close(&mut self.own) }
    }
}
