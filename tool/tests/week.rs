//! The commands that take many logs: what is found, in which order, and that every figure is the program's.

#[path = "../src/random.rs"]
#[allow(dead_code)]
mod random;

use std::collections::BTreeMap;
use std::ffi::OsStr;
use std::fs;
use std::io::Write;
use std::os::unix::ffi::OsStrExt;
use std::os::unix::fs::symlink;
use std::path::{Path, PathBuf};
use std::process::{Command, Output, Stdio};

use random::Random;

/// A folder of its own for a test, taken away at its end.
struct Folder(PathBuf);

impl Folder {
    fn new(name: &str) -> Folder {
        let folder = std::env::temp_dir().join(format!("zohapy-{name}-{}", std::process::id()));
        fs::create_dir(&folder).expect("a new folder");
        Folder(folder)
    }

    fn write(&self, name: impl AsRef<Path>, bytes: &[u8]) {
        let path = self.0.join(name);
        fs::create_dir_all(path.parent().expect("it stands in the folder")).expect("a folder");
        fs::write(path, bytes).expect("a file");
    }

    /// What a command of the tool gives in the folder.
    fn run(&self, arguments: &[&str]) -> Output {
        Command::new(env!("CARGO_BIN_EXE_zohapy-tool")).args(arguments).current_dir(&self.0).output().expect("the tool runs")
    }

    /// The rows of the folder's table, without its heading, and the exit status.
    fn table(&self, paths: &[&str]) -> (Vec<Vec<Vec<u8>>>, Option<i32>) {
        let Output { status, stdout, .. } = self.run(&[&["table"], paths].concat());
        let mut rows = rows(&stdout);
        let heading = rows.remove(0);
        let names = ["file", "version", "episodes", "links", "width", "apart", "refusal", "place", "loop"];
        assert_eq!(heading, names.map(|name| name.as_bytes().to_vec()));
        assert!(rows.iter().all(|row| row.len() == names.len()));
        (rows, status.code())
    }

    /// The names in the folder's table, and the exit status.
    fn names(&self, paths: &[&str]) -> (Vec<String>, Option<i32>) {
        let (rows, status) = self.table(paths);
        (rows.iter().map(|row| String::from_utf8_lossy(&row[0]).into_owned()).collect(), status)
    }
}

impl Drop for Folder {
    fn drop(&mut self) {
        fs::remove_dir_all(&self.0).expect("the folder can be taken away");
    }
}

/// The rows of a CSV file, read as RFC 4180 has it.
fn rows(csv: &[u8]) -> Vec<Vec<Vec<u8>>> {
    let (mut rows, mut row, mut rest) = (Vec::new(), Vec::new(), csv);
    while !rest.is_empty() {
        let mut field = Vec::new();
        if let [b'"', quoted @ ..] = rest {
            rest = quoted;
            loop {
                match rest {
                    [b'"', b'"', behind @ ..] => (field.push(b'"'), rest = behind).1,
                    [b'"', behind @ ..] => break rest = behind,
                    [byte, behind @ ..] => (field.push(*byte), rest = behind).1,
                    [] => panic!("a quote is not closed"),
                }
            }
        } else {
            let end = rest.iter().position(|byte| b",\r\n\"".contains(byte)).expect("a line ends");
            field.extend(&rest[..end]);
            rest = &rest[end..];
        }
        row.push(field);
        match rest {
            [b',', behind @ ..] => rest = behind,
            [b'\r', b'\n', behind @ ..] => (rows.push(std::mem::take(&mut row)), rest = behind).1,
            _ => panic!("behind a field stands a comma or the end of a line"),
        }
    }
    rows
}

const ONE: &[u8] = &[1, 0, 0, 0x10, 0, 0, 0, 0xF0];

#[test]
fn files_that_end_in_log_are_found_in_the_order_of_their_names() {
    let folder = Folder::new("found");
    for name in ["week/b.log", "week/a/c.log", "week/a.log", "week/d.txt", "week/e.log/f.log", "week/log", "week/.log", "g.log"] {
        folder.write(name, ONE);
    }
    let found = ["week/.log", "week/a.log", "week/a/c.log", "week/b.log", "week/e.log/f.log"];
    assert_eq!(folder.names(&["week"]), (found.map(String::from).to_vec(), Some(0)));
    // What is named is a log whatever its ending; what is named twice has one line.
    let named = ["g.log", "week/a.log", "week/a/c.log", "week/d.txt"];
    assert_eq!(
        folder.names(&["week/d.txt", "week/a", "week/a.log", "g.log", "g.log"]),
        (named.map(String::from).to_vec(), Some(0))
    );
}

#[test]
fn names_are_quoted() {
    let folder = Folder::new("quoted");
    let names: [&[u8]; 8] =
        [b" .log", b"\"b\".log", b"a b.log", b"a\nb.log", b"a\r\n.log", b"a,b.log", b"a'b;c\t.log", b"a\xFF.log"];
    names.iter().for_each(|name| folder.write(OsStr::from_bytes(name), ONE));
    let (rows, status) = folder.table(&["."]);
    let mut found: Vec<Vec<u8>> = names.iter().map(|name| [b"./", *name].concat()).collect();
    found.sort();
    assert_eq!((rows.iter().map(|row| row[0].clone()).collect::<Vec<_>>(), status), (found, Some(0)));
    let figures: Vec<&[u8]> = rows.iter().flat_map(|row| &row[1..]).map(Vec::as_slice).collect();
    assert_eq!(figures, [&b"0"[..], b"1", b"0", b"1", b"0", b"", b"", b""].repeat(names.len()));
}

#[test]
fn what_cannot_be_read_has_a_line_and_status_1() {
    let folder = Folder::new("unreadable");
    folder.write("week/a.log", ONE);
    folder.write("week/z.log", &ONE[..7]);
    symlink("nothing", folder.0.join("week/b.log")).expect("a link");
    symlink("c.log", folder.0.join("week/c.log")).expect("a link");
    symlink("..", folder.0.join("week/d.log")).expect("a link");
    assert!(Command::new("mkfifo").arg(folder.0.join("week/e.log")).status().expect("mkfifo runs").success());
    let (rows, status) = folder.table(&["week", "none"]);
    let row = |row: &Vec<Vec<u8>>| [0, 6, 7].map(|i| String::from_utf8_lossy(&row[i]).into_owned()).join("|");
    assert_eq!(
        rows.iter().map(row).collect::<Vec<_>>(),
        [
            "none|cannot be read: No such file or directory (os error 2)|",
            "week/a.log||",
            "week/b.log|cannot be read: No such file or directory (os error 2)|",
            "week/c.log|cannot be read: Too many levels of symbolic links (os error 40)|",
            "week/d.log|cannot be read: not a file|",
            "week/e.log|cannot be read: not a file|",
            "week/z.log|15|7",
        ]
    );
    assert_eq!(status, Some(1));
    let errors = String::from_utf8(folder.run(&["table", "week", "none"]).stderr).expect("text");
    let lines = [
        "logs 7: reports 1, loops 0, refused otherwise 1, unreadable 5",
        "refusals, and how many logs each: 15 (1)",
        "largest widths: 1 (week/a.log)",
    ];
    assert_eq!(errors.lines().collect::<Vec<_>>(), lines, "there is no progress where standard error is no terminal");
}

#[test]
fn an_empty_folder_has_the_heading_alone() {
    let folder = Folder::new("empty");
    folder.write("week/a.txt", ONE);
    fs::create_dir(folder.0.join("week/b.log")).expect("a folder");
    let Output { status, stdout, stderr } = folder.run(&["table", "week"]);
    assert_eq!(stdout, b"file,version,episodes,links,width,apart,refusal,place,loop\r\n");
    assert_eq!(stderr, b"logs 0: reports 0, loops 0, refused otherwise 0, unreadable 0\n");
    assert_eq!(status.code(), Some(0));
}

#[test]
fn a_bad_command_line_has_status_2() {
    let folder = Folder::new("command-line");
    for arguments in [&["table"][..], &["table", "-"], &["table", "--threads", "."], &["explain", "a", "b"]] {
        let Output { status, stdout, stderr } = folder.run(arguments);
        assert_eq!((status.code(), stdout.is_empty()), (Some(2), true));
        assert!(stderr.starts_with(b"usage: zohapy-tool "));
    }
}

#[test]
fn a_refusal_is_an_answer() {
    let folder = Folder::new("refused");
    folder.write("a.log", b"");
    folder.write("b.log", &[1, 0, 0, 0x10, 0, 0, 0, 0x20, 0, 0, 0, 0x30, 1, 0, 0, 0xF0]);
    let (rows, status) = folder.table(&["."]);
    assert_eq!(
        (rows[0].join(&b"|"[..]), rows[1].join(&b"|"[..])),
        (b"./a.log||||||1|0|".to_vec(), b"./b.log||||||13|1|0".to_vec())
    );
    assert_eq!(status, Some(0));
    for log in ["a.log", "b.log"] {
        assert_eq!(folder.run(&["explain", log]).status.code(), Some(1));
    }
}

#[test]
fn progress_is_shown_on_a_terminal() {
    let folder = Folder::new("terminal");
    for name in ["a.log", "b.log"] {
        folder.write(name, ONE);
    }
    let at_terminal = |command: &str| {
        let command = format!("'{}' {command}", env!("CARGO_BIN_EXE_zohapy-tool"));
        let run = Command::new("script").args(["-qec", &command, "/dev/null"]).current_dir(&folder.0).output();
        String::from_utf8(run.expect("script runs").stdout).expect("text")
    };
    let [first, last] = ["1 of 2 logs, 0 refused, 1 s left\r\x1B[K", "logs 2: reports 2, "];
    let text = at_terminal("table . >/dev/null");
    assert!(text.starts_with(first) && text.split_once("\x1B[K").is_some_and(|(_, rest)| rest.starts_with(last)), "{text:?}");
    // Where the table goes to the terminal too, each of its lines stands by itself.
    let text = at_terminal("table .");
    let places = ["file,", "./a.log,", first, "./b.log,", last].map(|part| text.find(part).expect("each part is there"));
    assert!(places.is_sorted(), "{text:?}");
    assert!(text.lines().any(|line| line.trim_end_matches('\r').ends_with("./b.log,0,1,0,1,0,,,")), "{text:?}");
}

/// The printing program, made anew where its crates have changed.
fn program() -> PathBuf {
    let root = Path::new(env!("CARGO_MANIFEST_DIR")).parent().expect("the package stands in the repository");
    let built = Command::new(root.join("report")).arg(root.join("samples/whole-example.log")).output().expect("./report runs");
    assert!(built.status.success(), "{}", String::from_utf8_lossy(&built.stderr));
    root.join("crates/print_report/out/print_report")
}

/// What the program prints for a log.
fn printed(program: &Path, log: &[u8]) -> String {
    let mut running = Command::new(program).stdin(Stdio::piped()).stdout(Stdio::piped()).spawn().expect("the program runs");
    // It reads no more than it needs.
    let _ = running.stdin.take().expect("its input").write_all(log);
    String::from_utf8(running.wait_with_output().expect("it ends").stdout).expect("text")
}

/// The row that a log's text asks for, without its name. The version is taken from the head.
fn row(text: &str, log: &[u8]) -> Vec<String> {
    let lines: BTreeMap<&str, &str> = text.lines().map(|line| line.split_once(' ').unwrap_or((line, ""))).collect();
    let figures = |name: &str| lines.get(name).copied().unwrap_or_default().to_string();
    let version = if lines.contains_key("width") { (log[3] % 16).to_string() } else { String::new() };
    let (refusal, place) = lines.get("refused").and_then(|refused| refused.split_once(" at ")).unwrap_or_default();
    let [episodes, links, width, apart, steps] = ["episodes", "links", "width", "apart", "loop"].map(figures);
    vec![version, episodes, links, width, apart, refusal.to_string(), place.to_string(), steps]
}

#[test]
fn every_figure_is_that_of_the_program() {
    let (folder, program, mut random) = (Folder::new("figures"), program(), Random::new());
    let mut logs = Vec::new();
    for i in 0..1000 {
        let log = random.log();
        folder.write(format!("{i:03}.log"), &log);
        logs.push(log);
    }
    let (rows, status) = folder.table(&["."]);
    assert_eq!((rows.len(), status), (logs.len(), Some(0)));
    let mut met: BTreeMap<String, usize> = BTreeMap::new();
    for (i, (found, log)) in rows.iter().zip(&logs).enumerate() {
        let due = row(&printed(&program, log), log);
        let found: Vec<String> = found.iter().map(|field| String::from_utf8(field.clone()).expect("text")).collect();
        assert_eq!(found[0], format!("./{i:03}.log"));
        assert_eq!(found[1..], due, "log {i}");
        *met.entry(format!("refusal {}", due[5])).or_default() += 1;
        *met.entry(format!("version {}", due[0])).or_default() += 1;
    }
    let refusals = ["", "1", "2", "3", "4", "5", "6", "7", "8", "9", "10", "13", "14", "15", "18", "19", "20", "21"];
    for answer in refusals.map(|number| format!("refusal {number}")).iter().chain(&["version 0", "version 1"].map(String::from)) {
        assert!(met.get(answer).is_some_and(|met| *met >= 5), "{answer} is met too seldom: {met:?}");
    }
}
