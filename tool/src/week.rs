//! Many logs at once: which files they are, what is written of each, in the order of their names, and what is said of all.

use std::collections::BTreeMap;
use std::ffi::OsString;
use std::fs::{self, File};
use std::io::{self, IsTerminal, Read, Write};
use std::path::{Path, PathBuf};
use std::sync::mpsc::{Receiver, sync_channel};
use std::thread::{self, Scope};
use std::time::{Duration, Instant};

use zohapy::LOG_BYTES;

use crate::answer::{Answer, Buffers};

/// How many logs a thread may be ahead of what has been written.
const AHEAD: usize = 16;

/// How often progress is shown.
const EVERY: Duration = Duration::from_millis(100);

/// How many of the largest widths are named at the end.
const LARGEST: usize = 3;

/// What a command writes of a log, from the bytes of its name, and its bytes with the answer to them, or why it cannot be read.
pub type Form = fn(&[u8], Result<(&[u8], &Answer), &str>) -> Vec<u8>;

/// A file that is named or found: its path, and why it is no log that can be read, where that is known already.
#[derive(Debug)]
pub struct Entry {
    path: PathBuf,
    trouble: Option<String>,
}

/// The files that the paths name, each once, in the order of the bytes of their names. A folder stands for all files in it and in
/// its folders whose names end in .log; links to folders are not followed there.
pub fn find(paths: &[OsString]) -> Vec<Entry> {
    let mut entries = Vec::new();
    for path in paths.iter().map(PathBuf::from) {
        if path.is_dir() { search(path, &mut entries) } else { entries.push(Entry { path, trouble: None }) }
    }
    entries.sort_by(|a, b| name(&a.path).cmp(name(&b.path)));
    entries.dedup_by(|a, b| name(&a.path) == name(&b.path));
    entries
}

/// The bytes of a path's name.
fn name(path: &Path) -> &[u8] {
    path.as_os_str().as_encoded_bytes()
}

/// Adds the logs of a folder and of the folders in it, and each folder that cannot be read.
fn search(folder: PathBuf, entries: &mut Vec<Entry>) {
    let mut folders = vec![folder];
    while let Some(folder) = folders.pop() {
        let unread = |error: io::Error| Entry { path: folder.clone(), trouble: Some(error.to_string()) };
        let listed = match fs::read_dir(&folder) {
            Ok(listed) => listed,
            Err(error) => {
                entries.push(unread(error));
                continue;
            }
        };
        for found in listed {
            match found.and_then(|found| Ok((found.path(), found.file_type()?.is_dir()))) {
                Ok((path, true)) => folders.push(path),
                Ok((path, false)) if name(&path).ends_with(b".log") => {
                    let trouble = trouble(&path);
                    entries.push(Entry { path, trouble });
                }
                Ok(_) => {}
                Err(error) => entries.push(unread(error)),
            }
        }
    }
}

/// Why what was found under this path cannot be read: only a file is opened, since others, such as pipes, could keep the run waiting.
fn trouble(path: &Path) -> Option<String> {
    match fs::metadata(path) {
        Ok(data) if data.is_file() => None,
        Ok(_) => Some("not a file".to_string()),
        Err(error) => Some(error.to_string()),
    }
}

/// What is counted of a log.
#[derive(Clone, Copy)]
enum Counted {
    Report(usize),
    Refused(u32),
    Unread,
}

/// What is written of a log, and what is counted of it.
struct Line {
    written: Vec<u8>,
    counted: Counted,
}

/// What has been counted of the logs so far.
#[derive(Default)]
pub struct Tally {
    logs: usize,
    reports: usize,
    unread: usize,
    /// How many each refusal has; that of 13 are the loops.
    refused: BTreeMap<u32, usize>,
    /// The largest widths, the first of equal ones in front.
    largest: Vec<(usize, String)>,
}

impl Tally {
    /// Whether there is a file that could not be read.
    pub fn has_unread(&self) -> bool {
        self.unread > 0
    }

    /// How many logs have been refused, those with a loop too.
    fn refusals(&self) -> usize {
        self.refused.values().sum()
    }

    fn count(&mut self, path: &Path, counted: Counted) {
        self.logs += 1;
        match counted {
            Counted::Unread => self.unread += 1,
            Counted::Refused(number) => *self.refused.entry(number).or_default() += 1,
            Counted::Report(width) => {
                self.reports += 1;
                let place = self.largest.partition_point(|other| other.0 >= width);
                if place < LARGEST {
                    self.largest.insert(place, (width, path.display().to_string()));
                    self.largest.truncate(LARGEST);
                }
            }
        }
    }

    /// The lines at the end.
    pub fn summary(&self) -> String {
        let loops = self.refused.get(&13).copied().unwrap_or(0);
        let mut lines = format!(
            "logs {}: reports {}, loops {loops}, refused otherwise {}, unreadable {}\n",
            self.logs,
            self.reports,
            self.refusals() - loops,
            self.unread
        );
        if !self.refused.is_empty() {
            let refused: Vec<_> = self.refused.iter().map(|(number, count)| format!("{number} ({count})")).collect();
            lines += &format!("refusals, and how many logs each: {}\n", refused.join(", "));
        }
        if !self.largest.is_empty() {
            let largest: Vec<_> = self.largest.iter().map(|(width, file)| format!("{width} ({file})")).collect();
            lines += &format!("largest widths: {}\n", largest.join(", "));
        }
        lines
    }
}

/// Writes to `out` what the form makes of each log, in order, and shows progress where standard error is a terminal.
pub fn write_all(entries: &[Entry], form: Form, out: &mut dyn Write) -> io::Result<Tally> {
    let threads = thread::available_parallelism().map_or(1, usize::from);
    let mut progress = Progress::new(entries.len());
    let mut tally = Tally::default();
    in_order(entries, threads, form, |entry, line| {
        progress.clear();
        out.write_all(&line.written)?;
        progress.written(out)?;
        tally.count(&entry.path, line.counted);
        progress.show(&tally);
        Ok(())
    })?;
    progress.clear();
    Ok(tally)
}

/// Hands the line of each log to `take`, in order. Each thread makes one line in `threads`, and none is far ahead, so that the memory
/// does not grow with the number of logs.
fn in_order(
    entries: &[Entry],
    threads: usize,
    form: Form,
    mut take: impl FnMut(&Entry, Line) -> io::Result<()>,
) -> io::Result<()> {
    thread::scope(|scope| {
        let makers: Vec<_> = (0..threads).map(|first| maker(scope, entries, first, threads, form)).collect();
        for (i, entry) in entries.iter().enumerate() {
            take(entry, makers[i % threads].recv().expect("each log has a line"))?;
        }
        Ok(())
    })
}

/// A thread that makes the lines of the logs `first`, `first + step` and so on, until nobody takes them.
fn maker<'a>(scope: &'a Scope<'a, '_>, entries: &'a [Entry], first: usize, step: usize, form: Form) -> Receiver<Line> {
    let (sender, receiver) = sync_channel(AHEAD);
    scope.spawn(move || {
        let (mut buffers, mut bytes) = (Buffers::new(), Vec::new());
        for entry in entries.iter().skip(first).step_by(step) {
            if sender.send(line(entry, form, &mut buffers, &mut bytes)).is_err() {
                return;
            }
        }
    });
    receiver
}

/// The line of a log.
fn line(entry: &Entry, form: Form, buffers: &mut Buffers, bytes: &mut Vec<u8>) -> Line {
    let name = name(&entry.path);
    match read(entry, bytes) {
        Err(message) => Line { written: form(name, Err(&message)), counted: Counted::Unread },
        Ok(()) => {
            let answer = buffers.answer(bytes);
            let counted = answer.width().map_or_else(|refusal| Counted::Refused(refusal.number), Counted::Report);
            Line { written: form(name, Ok((bytes, &answer))), counted }
        }
    }
}

/// Reads a log's bytes, no more than are needed to refuse them; or why that cannot be done.
fn read(entry: &Entry, bytes: &mut Vec<u8>) -> Result<(), String> {
    if let Some(trouble) = &entry.trouble {
        return Err(format!("cannot be read: {trouble}"));
    }
    bytes.clear();
    let read = File::open(&entry.path).and_then(|file| file.take(LOG_BYTES as u64 + 1).read_to_end(bytes));
    read.map(|_| ()).map_err(|error| format!("cannot be read: {error}"))
}

/// A line on standard error that says how far the run is, where that is a terminal.
struct Progress {
    all: usize,
    started: Instant,
    /// When it is shown again.
    due: Instant,
    shown: bool,
    terminal: bool,
}

impl Progress {
    fn new(all: usize) -> Progress {
        let now = Instant::now();
        Progress { all, started: now, due: now, shown: false, terminal: io::stderr().is_terminal() }
    }

    fn show(&mut self, tally: &Tally) {
        let now = Instant::now();
        if self.terminal && now >= self.due {
            self.due = now + EVERY;
            self.shown = true;
            eprint!("{}", progress(tally.logs, self.all, tally.refusals(), now - self.started));
        }
    }

    /// Takes the line away.
    fn clear(&mut self) {
        if self.shown {
            self.shown = false;
            eprint!("\r\x1B[K");
        }
    }

    /// Has what was written shown before the next progress, where both go to a terminal.
    fn written(&self, out: &mut dyn Write) -> io::Result<()> {
        if self.terminal && io::stdout().is_terminal() { out.flush() } else { Ok(()) }
    }
}

/// The line of progress: the time left is that which as many logs took so far.
fn progress(done: usize, all: usize, refused: usize, taken: Duration) -> String {
    let left = taken.as_secs_f64() / done as f64 * (all - done) as f64;
    format!("{done} of {all} logs, {refused} refused, {} s left", left.ceil())
}

#[cfg(test)]
mod tests {
    use super::*;

    /// Entries that cannot be read, so that no file is needed; each line is its name.
    fn entries(count: usize) -> Vec<Entry> {
        (0..count).map(|i| Entry { path: format!("{i}.log").into(), trouble: Some(String::new()) }).collect()
    }

    fn name_alone(file: &[u8], _: Result<(&[u8], &Answer), &str>) -> Vec<u8> {
        file.to_vec()
    }

    #[test]
    fn the_order_is_that_of_one_thread() {
        for (count, threads) in [(0, 1), (1, 1), (1, 4), (5, 4), (200, 1), (200, 2), (200, 3), (200, 64)] {
            let entries = entries(count);
            let mut written = Vec::new();
            let take = |entry: &Entry, line: Line| {
                assert_eq!(name(&entry.path), line.written);
                written.push(line.written);
                Ok(())
            };
            in_order(&entries, threads, name_alone, take).expect("nothing is written");
            assert!(written.iter().eq(entries.iter().map(|entry| name(&entry.path))), "{count} {threads}");
        }
    }

    #[test]
    fn threads_end_where_nothing_can_be_written() {
        let full = |_: &Entry, _: Line| Err(io::Error::from(io::ErrorKind::StorageFull));
        let failed = in_order(&entries(1000), 4, name_alone, full).expect_err("the first line is not taken");
        assert_eq!(failed.kind(), io::ErrorKind::StorageFull);
    }

    #[test]
    fn the_summary_has_the_largest_widths_the_first_of_equal_ones_in_front() {
        let mut tally = Tally::default();
        assert_eq!(tally.summary(), "logs 0: reports 0, loops 0, refused otherwise 0, unreadable 0\n");
        for (i, width) in [3, 5, 4, 5, 3, 4].into_iter().enumerate() {
            tally.count(Path::new(&format!("{i}.log")), Counted::Report(width));
        }
        for number in [13, 7, 13, 10, 7, 13] {
            tally.count(Path::new("r.log"), Counted::Refused(number));
        }
        assert!(!tally.has_unread());
        tally.count(Path::new("u.log"), Counted::Unread);
        assert!(tally.has_unread());
        let lines = [
            "logs 13: reports 6, loops 3, refused otherwise 3, unreadable 1",
            "refusals, and how many logs each: 7 (2), 10 (1), 13 (3)",
            "largest widths: 5 (1.log), 5 (3.log), 4 (2.log)",
        ];
        assert_eq!(tally.summary().lines().collect::<Vec<_>>(), lines);
    }

    #[test]
    fn the_time_left_is_that_of_as_many_logs_so_far() {
        let line = |done, refused, taken| progress(done, 3400, refused, Duration::from_millis(taken));
        assert_eq!(line(1, 0, 1), "1 of 3400 logs, 0 refused, 4 s left");
        assert_eq!(line(1700, 31, 2500), "1700 of 3400 logs, 31 refused, 3 s left");
        assert_eq!(line(3400, 60, 5000), "3400 of 3400 logs, 60 refused, 0 s left");
    }
}
