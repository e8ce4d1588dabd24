//! The programs as a user runs them, by the scripts `judge`, `list_bucket` and
//! `check_log` at the repository's root: what they print, and the status they
//! end with.

use std::env;
use std::ffi::OsStr;
use std::fs::{self, File, OpenOptions};
use std::io::{BufRead, BufReader, Write};
use std::os::fd::OwnedFd;
use std::os::unix::net::{UnixListener, UnixStream};
use std::path::{Path, PathBuf};
use std::process::{self, Command, Output, Stdio};
use std::sync::Once;

/// Those that read one file or standard input.
const PROGRAMS: [&str; 2] = ["judge", "list_bucket"];
/// The one that reads two files.
const CHECKER: &str = "check_log";

const GOOD: i32 = 0;
const USAGE: i32 = 1;
const REFUSED: i32 = 2;
const TORN: i32 = 3;
const TOO_LONG: i32 = 4;
const FAILED: i32 = 5;

/// The stored inputs by rising name, and the status of each.
const TRACES: [(&str, i32); 5] = [
    ("accepted", GOOD),
    ("empty", GOOD),
    ("longest", TORN),
    ("too_long", TOO_LONG),
    // It has a refused step too: torn goes first.
    ("torn", TORN),
];
const LISTINGS: [(&str, i32); 4] =
    [("bad", REFUSED), ("empty", GOOD), ("longest", GOOD), ("too_long", TOO_LONG)];

/// The stored traces with their logs. Of a file that is not there the script
/// says which it is.
const LOGS: [(&str, i32); 11] = [
    ("changed", REFUSED),
    ("empty", GOOD),
    ("longest", GOOD),
    ("missing", REFUSED),
    ("no_log", USAGE),
    ("no_trace", USAGE),
    ("one_too_many", REFUSED),
    ("too_long_log", TOO_LONG),
    ("too_long_trace", TOO_LONG),
    ("torn_log", REFUSED),
    ("torn_trace", REFUSED),
];

fn root() -> PathBuf {
    Path::new(env!("CARGO_MANIFEST_DIR")).join("..")
}

fn stored(program: &str) -> PathBuf {
    Path::new(env!("CARGO_MANIFEST_DIR")).join("programs").join(program)
}

fn bytes(path: &Path) -> Vec<u8> {
    fs::read(path).unwrap_or_else(|error| panic!("{}: {error}", path.display()))
}

fn opened(path: &Path) -> Stdio {
    File::open(path).unwrap_or_else(|error| panic!("{}: {error}", path.display())).into()
}

/// The script, whose program is built: two tests must not build it at once.
fn script(program: &str) -> Command {
    static BUILT: Once = Once::new();
    BUILT.call_once(|| {
        for program in PROGRAMS {
            let done = Command::new(root().join(program)).stdin(Stdio::null()).output();
            assert!(done.expect("the script is there").status.success(), "{program} is not built");
        }
        let done = Command::new(root().join(CHECKER)).args(["/dev/null", "/dev/null"]).output();
        assert!(done.expect("the script is there").status.success(), "{CHECKER} is not built");
    });
    Command::new(root().join(program))
}

fn ended(command: &mut Command) -> Output {
    command.output().unwrap_or_else(|error| panic!("{command:?}: {error}"))
}

/// Of wrong usage and of a failure standard error has a line that names the
/// program, of all else nothing.
fn hold(done: &Output, program: &str, status: i32, printed: &[u8]) {
    assert_eq!(done.status.code(), Some(status), "{done:?}");
    assert!(done.stdout == printed, "{done:?}");
    let said = String::from_utf8_lossy(&done.stderr);
    if [USAGE, FAILED].contains(&status) {
        assert!(said.starts_with(&format!("{program}: ")) && said.len() < 200, "{said}");
        assert!(said.lines().count() == 1 && said.ends_with('\n'), "{said}");
    } else {
        assert_eq!(said, "");
    }
}

/// Runs the program over an input in each way that it can be had.
fn hold_input(program: &str, input: &Path, status: i32, printed: &[u8]) {
    let by_name = ended(script(program).arg(input).stdin(Stdio::null()));
    hold(&by_name, program, status, printed);
    hold(&ended(script(program).stdin(opened(input))), program, status, printed);
    hold(&ended(script(program).arg("-").stdin(opened(input))), program, status, printed);
}

/// What is stored for the program, without an ending, and the status of each;
/// nothing else is stored.
fn all_stored(program: &str, statuses: &[(&str, i32)]) -> Vec<(PathBuf, i32)> {
    let folder = stored(program);
    let entries = fs::read_dir(&folder).expect("the inputs are stored");
    let paths = entries.map(|entry| entry.expect("it can be read").path());
    let mut inputs: Vec<PathBuf> = paths.map(|path| path.with_extension("")).collect();
    inputs.sort();
    inputs.dedup();
    let named: Vec<PathBuf> = statuses.iter().map(|(name, _)| folder.join(name)).collect();
    assert_eq!(inputs, named);
    inputs.into_iter().zip(statuses.iter().map(|(_, status)| *status)).collect()
}

fn hold_stored(program: &str, statuses: &[(&str, i32)]) {
    for (input, status) in all_stored(program, statuses) {
        let printed = bytes(&input.with_extension("out"));
        hold_input(program, &input.with_extension("in"), status, &printed);
    }
}

/// Runs the checker over a trace and a log, each by its name and, where it is
/// there, as standard input.
fn hold_files(trace: &Path, log: &Path, status: i32, printed: &[u8]) {
    let by_name = ended(script(CHECKER).args([trace, log]).stdin(Stdio::null()));
    hold(&by_name, CHECKER, status, printed);
    if trace.exists() {
        let done = ended(script(CHECKER).arg("-").arg(log).stdin(opened(trace)));
        hold(&done, CHECKER, status, printed);
    }
    if log.exists() {
        let done = ended(script(CHECKER).arg(trace).arg("-").stdin(opened(log)));
        hold(&done, CHECKER, status, printed);
    }
}

#[test]
fn every_stored_trace_is_judged() {
    hold_stored("judge", &TRACES);
}

#[test]
fn every_stored_listing_is_listed() {
    hold_stored("list_bucket", &LISTINGS);
}

#[test]
fn every_stored_log_is_checked() {
    for (files, status) in all_stored(CHECKER, &LOGS) {
        let [trace, log] = ["trace", "log"].map(|ending| files.with_extension(ending));
        hold_files(&trace, &log, status, &bytes(&files.with_extension("out")));
    }
    let week = root().join("examples/depot_week.trace");
    let printed = bytes(&root().join("crates").join(CHECKER).join("stdout"));
    hold_files(&week, &week.with_extension("log"), GOOD, &printed);
}

/// The program itself, which reads the files of its folder.
#[test]
fn the_checker_looks_for_both_files_before_it_reads_one() {
    script(CHECKER);
    let folder = Path::new(env!("CARGO_TARGET_TMPDIR")).join("files");
    drop(fs::remove_dir_all(&folder));
    fs::create_dir(&folder).expect("the folder is cargo's");
    let said = || {
        let program = root().join("target/bin").join(CHECKER);
        let done =
            ended(Command::new(program.canonicalize().expect("it is built")).current_dir(&folder));
        (done.stdout, done.stderr)
    };
    let printed = |text: &str| (text.as_bytes().to_vec(), Vec::new());
    assert_eq!(said(), printed("no file\n"));
    fs::write(folder.join("trace"), [0; 40_000]).expect("the folder is cargo's");
    assert_eq!(said(), printed("no file\n"));
    fs::write(folder.join("log"), []).expect("the folder is cargo's");
    assert_eq!(said(), printed("too long\n"));
    fs::write(folder.join("trace"), []).expect("the folder is cargo's");
    assert_eq!(said(), printed("agree\n"));
    // A folder can be opened, but not read.
    fs::remove_file(folder.join("log")).expect("it was written");
    fs::create_dir(folder.join("log")).expect("the folder is cargo's");
    assert_eq!(said(), (Vec::new(), b"check_log: cannot read the log\n".to_vec()));
}

#[test]
fn the_examples_print_what_the_crates_do() {
    for (program, example, status) in
        [("judge", "depot_week.trace", REFUSED), ("list_bucket", "bucket.listing", GOOD)]
    {
        let printed = bytes(&root().join("crates").join(program).join("stdout"));
        hold_input(program, &root().join("examples").join(example), status, &printed);
    }
}

/// A pipe hands an input on in parts, which the program puts together.
#[test]
fn an_input_in_parts_is_read_whole() {
    for (program, status) in [("judge", TORN), ("list_bucket", GOOD)] {
        let input = stored(program).join("longest.in");
        let mut child = script(program)
            .stdin(Stdio::piped())
            .stdout(Stdio::piped())
            .stderr(Stdio::piped())
            .spawn()
            .expect("the script is there");
        let mut pipe = child.stdin.take().expect("it is a pipe");
        for part in bytes(&input).chunks(999) {
            pipe.write_all(part).expect("the program reads it");
        }
        drop(pipe);
        let done = child.wait_with_output().expect("it ends");
        hold(&done, program, status, &bytes(&input.with_extension("out")));
    }
}

/// An input that has these bytes, and then a read that fails.
fn failing_behind(bytes: &[u8]) -> Stdio {
    let (mut near, mut far) = UnixStream::pair().expect("sockets can be had");
    // A socket closed with a byte unread resets its peer, once the peer has
    // read what it was sent. The read behind the one that fails says the end.
    near.write_all(&[0]).expect("it is open");
    far.write_all(bytes).expect("the socket has room for it");
    OwnedFd::from(near).into()
}

#[test]
fn a_read_that_fails_prints_nothing() {
    for arguments in [["-", "/dev/null"], ["/dev/null", "-"]] {
        let folder = ended(script(CHECKER).args(arguments).stdin(opened(&root())));
        hold(&folder, CHECKER, FAILED, b"");
        let part = ended(script(CHECKER).args(arguments).stdin(failing_behind(&[0; 99])));
        hold(&part, CHECKER, FAILED, b"");
    }
    for program in PROGRAMS {
        hold(&ended(script(program).stdin(opened(&root()))), program, FAILED, b"");
        hold(&ended(script(program).arg("-").stdin(opened(&root()))), program, FAILED, b"");
        // What is read before, and how much, makes no difference, up to the
        // byte that would show that the input is too long.
        let longest = bytes(&stored(program).join("longest.in"));
        for length in [0, 1, 29, 4_096, 65_535, 65_536] {
            let done = ended(script(program).stdin(failing_behind(&longest[..length])));
            hold(&done, program, FAILED, b"");
        }
        let too_long = bytes(&stored(program).join("too_long.in"));
        let done = ended(script(program).stdin(failing_behind(&too_long)));
        hold(&done, program, TOO_LONG, b"too long\n");
    }
}

#[test]
fn a_closed_input_is_one_that_fails() {
    for (program, arguments) in [("judge", ""), ("list_bucket", ""), (CHECKER, "- /dev/null")] {
        // It is built, and only the shell can close an input. A script that
        // would wait for ever is ended.
        script(program);
        let shell = format!("exec timeout 60 ./{program} {arguments} <&-");
        let done = ended(Command::new("sh").args(["-c", &shell]).current_dir(root()));
        hold(&done, program, FAILED, b"");
    }
    // Where it is not asked for it makes no difference.
    let shell = format!("exec timeout 60 ./{CHECKER} /dev/null /dev/null <&-");
    let done = ended(Command::new("sh").args(["-c", &shell]).current_dir(root()));
    hold(&done, CHECKER, GOOD, b"agree\n");
}

#[test]
fn wrong_usage_is_said() {
    // A socket is there and cannot be opened; its path has to be short.
    let socket = env::temp_dir().join(format!("cuudhaqil-{}", process::id()));
    let _listener = UnixListener::bind(&socket).expect("the folder is for all");
    let socket_name = socket.to_str().expect("it is text");
    for unreadable in ["no such file", "", env!("CARGO_MANIFEST_DIR"), socket_name] {
        let done = ended(script(CHECKER).args(["/dev/null", unreadable]).stdin(Stdio::null()));
        hold(&done, CHECKER, USAGE, b"no file\n");
    }
    let wrong: [&[&str]; 9] = [
        &[],
        &["-"],
        &["/dev/null"],
        &["-x"],
        &["--"],
        &["-", "-"],
        &["-x", "/dev/null"],
        &["--help", "--version"],
        &["/dev/null", "/dev/null", "/dev/null"],
    ];
    for arguments in wrong {
        let done = ended(script(CHECKER).args(arguments).stdin(Stdio::null()));
        hold(&done, CHECKER, USAGE, b"");
    }
    for program in PROGRAMS {
        let wrong: [&[&str]; 9] = [
            &["no such file"],
            &[""],
            &[env!("CARGO_MANIFEST_DIR")],
            &[socket_name],
            &["-x"],
            &["--helpful"],
            &["--"],
            &["-", "-"],
            &["--help", "--version"],
        ];
        for arguments in wrong {
            let done = ended(script(program).args(arguments).stdin(Stdio::null()));
            hold(&done, program, USAGE, b"");
        }
    }
    fs::remove_file(&socket).expect("it is ours");
}

#[test]
fn help_has_the_statuses_and_the_version_is_that_of_the_file() {
    let version = fs::read_to_string(root().join("VERSION")).expect("it is there");
    for (program, arguments, statuses) in [
        ("judge", "[FILE]", "012345"),
        ("list_bucket", "[FILE]", "01245"),
        (CHECKER, "TRACE LOG", "01245"),
    ] {
        let help = ended(script(program).arg("--help"));
        hold(&help, program, GOOD, &help.stdout);
        hold(&ended(script(program).arg("-h")), program, GOOD, &help.stdout);
        let help = String::from_utf8(help.stdout).expect("it is text");
        assert!(help.starts_with(&format!("usage: {program} {arguments}\n")), "{help}");
        let (_, table) = help.split_once("\nExit status:\n").expect("it has the table");
        let rows: String = table
            .lines()
            .map(|row| row.strip_prefix("  ").and_then(|row| row.split_once("  ")))
            .map(|row| row.expect("a number and a text").0)
            .collect();
        assert_eq!(rows, statuses);

        let printed = format!("{program} {version}");
        hold(&ended(script(program).arg("--version")), program, GOOD, printed.as_bytes());
    }
}

#[test]
fn a_full_disk_is_told() {
    let full = || OpenOptions::new().write(true).open("/dev/full").expect("it is there");
    let files = ["/dev/null", "/dev/null"];
    hold(&ended(script(CHECKER).args(files).stdout(full())), CHECKER, FAILED, b"");
    let example = root().join("examples/bucket.listing");
    for program in PROGRAMS {
        for argument in [example.to_str().expect("it is text"), "--help", "--version"] {
            hold(&ended(script(program).arg(argument).stdout(full())), program, FAILED, b"");
        }
    }
}

#[test]
fn a_closed_pipe_is_told() {
    for program in PROGRAMS {
        let mut child = script(program)
            .stdin(Stdio::piped())
            .stdout(Stdio::piped())
            .stderr(Stdio::piped())
            .spawn()
            .expect("the script is there");
        // Closed before the input ends, and so before anything is printed.
        drop(child.stdout.take());
        hold(&child.wait_with_output().expect("it ends"), program, FAILED, b"");
    }
}

/// Writes by another process: a file that is run must not be open for writing
/// in this one, where a test beside may start a process that has it too.
fn by_shell(command: &str, one: &OsStr, other: &Path) {
    let done = Command::new("sh").args(["-c", command, "sh"]).arg(one).arg(other).status();
    assert!(done.expect("there is a shell").success(), "{command}");
}

/// A repository of its own with the scripts, three crates and a stand-in for
/// `rt`, which is run in it.
fn repository(name: &str, rt: &str) -> PathBuf {
    let folder = Path::new(env!("CARGO_TARGET_TMPDIR")).join(name);
    drop(fs::remove_dir_all(&folder));
    for made in ["crates/rules/src", "crates/console/src", "crates/judge/src", "bin"] {
        fs::create_dir_all(folder.join(made)).expect("the folder is cargo's");
    }
    for script in ["judge", "program.sh"] {
        by_shell("cp -p \"$1\" \"$2\"", root().join(script).as_os_str(), &folder.join(script));
    }
    fs::write(folder.join("crates.txt"), "rules:\nconsole: rules io libc\njudge: console\n")
        .expect("the folder is cargo's");
    let stand_in = format!("#!/bin/sh\n{rt}");
    let made = "printf %s \"$1\" > \"$2\" && chmod 755 \"$2\"";
    by_shell(made, OsStr::new(&stand_in), &folder.join("bin/rt"));
    folder
}

fn judge_of(repository: &Path) -> Command {
    let path = env::var("PATH").expect("it is set");
    let mut script = Command::new(repository.join("judge"));
    script.env("PATH", format!("{}:{path}", repository.join("bin").display()));
    script
}

/// The part of a stand-in that makes the program: a shell script. Like `rt`
/// it is run in the program's crate.
fn making(program: &str) -> String {
    format!(
        "mkdir -p out && cat > out/judge << 'END' && chmod +x out/judge\n\
         #!/bin/sh\n{program}\nEND\n"
    )
}

/// What `rt` says of a crate that it proves.
fn proving(name: &str) -> String {
    format!("crate {name}: modules loaded=0 checked=27\nlogic=proved functions=6\n")
}

/// Puts a stand-in for `date` beside that for `rt`: it says the seconds that
/// the file `now` has, at first none.
fn stop_clock(repository: &Path) {
    fs::write(repository.join("now"), "0\n").expect("the folder is cargo's");
    let clock = format!("#!/bin/sh\nexec cat '{}'\n", repository.join("now").display());
    let made = "printf %s \"$1\" > \"$2\" && chmod 755 \"$2\"";
    by_shell(made, OsStr::new(&clock), &repository.join("bin/date"));
}

#[test]
fn a_build_shows_how_far_it_is() {
    // It goes on only once its first crate has been shown, and would take the
    // program's input if it were given that. Of the second it says nothing.
    let rt = format!(
        "echo 12 > ../../now\n\
         printf '{}'\n\
         turns=0\n\
         while [ ! -e ../../shown ] && [ $turns -lt 300 ]; do sleep 0.1; turns=$((turns + 1)); done\n\
         [ -e ../../shown ] || exit 1\n\
         cat\n\
         echo 15 > ../../now\n\
         printf '{}'\n\
         echo 'rt: running out/judge; to give it other input, run that file yourself'\n",
        proving("rules"),
        proving("judge")
    );
    let folder = repository("progress", &(rt + &making("cat")));
    stop_clock(&folder);
    let mut child = judge_of(&folder)
        .stdin(Stdio::piped())
        .stdout(Stdio::piped())
        .stderr(Stdio::piped())
        .spawn()
        .expect("the script is there");
    let mut pipe = child.stdin.take().expect("it is a pipe");
    pipe.write_all(b"0\nrest 0\n").expect("it has room");
    drop(pipe);
    let mut said = BufReader::new(child.stderr.take().expect("it is a pipe")).lines();
    let mut line = || said.next().map(|line| line.expect("it is text"));
    let first = "judge: proving and building the program; the first time takes some minutes";
    assert_eq!(line().as_deref(), Some(first));
    assert_eq!(line().as_deref(), Some("judge: 1 of 3: rules proved (12 s)"));
    fs::write(folder.join("shown"), "").expect("the folder is cargo's");
    let unchanged = "judge: 2 of 3: console proved (unchanged since it was last proved)";
    assert_eq!(line().as_deref(), Some(unchanged));
    assert_eq!(line().as_deref(), Some("judge: 3 of 3: judge proved (3 s)"));
    assert_eq!(line(), None);
    let done = child.wait_with_output().expect("it ends");
    assert_eq!((done.status.code(), &done.stdout[..]), (Some(GOOD), &b"0\nrest 0\n"[..]));
    let log = fs::read_to_string(folder.join("target/judge.log")).expect("it is kept");
    assert_eq!(log.lines().count(), 5, "{log}");

    // It is not built again.
    let input = stored("judge").join("accepted.out");
    hold(&ended(judge_of(&folder).arg(&input)), "judge", GOOD, &bytes(&input));
}

#[test]
fn a_build_that_fails_shows_its_log() {
    let said = format!(
        "rt: rules: begins with what a check kept\n{}fn console::judge: not proved\nlogic=not-proved\n",
        proving("rules")
    );
    let folder = repository("not_built", &format!("echo 1 > ../../now\nprintf '{said}'\nexit 1\n"));
    stop_clock(&folder);
    let done = ended(judge_of(&folder).stdin(Stdio::null()));
    assert_eq!((done.status.code(), &done.stdout[..]), (Some(FAILED), &b""[..]));
    let errors = String::from_utf8(done.stderr).expect("it is text");
    assert!(errors.contains("\njudge: 1 of 3: rules proved (1 s)\nrt: rules"), "{errors}");
    assert!(errors.contains(&format!("{said}judge: not built; this log is ")), "{errors}");
}

/// A program that is broken off, or prints what it never should.
#[test]
fn what_the_program_printed_comes_out_as_it_is() {
    for (name, program, printed) in [
        ("killed", "echo 0; kill -9 $$", "0\n"),
        ("ended_with_1", "printf 'rest 0\\n'; exit 1", "rest 0\n"),
        ("no_last_line", "printf '0\\n0'", "0\n0"),
        ("lines_too_many", "printf 'rest 0\\n\\n\\n'", "rest 0\n\n\n"),
        ("no_newline", "printf 'too long'", "too long"),
    ] {
        let folder = repository(name, &making(program));
        let built = ended(judge_of(&folder).stdin(Stdio::null()));
        assert_eq!(built.status.code(), Some(FAILED), "{built:?}");
        hold(&ended(judge_of(&folder).stdin(Stdio::null())), "judge", FAILED, printed.as_bytes());
    }
}
