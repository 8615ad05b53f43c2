//! Failed reads and writes, of a program that is given some input: what it prints, what it tells on standard error, and the status with
//! which it and tools/NAME, the script that runs it, end.

use std::io::Write;
use std::os::fd::OwnedFd;
use std::os::unix::net::UnixStream;
use std::path::Path;
use std::process::{Command, ExitStatus, Stdio};

/// How standard input comes, where a trial's shell line says nothing else.
#[derive(Clone, Copy, PartialEq)]
enum Comes {
    Whole,
    InPieces,
    /// All of it, and then neither more nor its end: the next read fails.
    Waits,
    /// All of it over a connection that the other side then breaks: the next read fails.
    Breaks,
}

/// What is printed.
#[derive(Clone, Copy, PartialEq)]
enum Prints {
    Nothing,
    All,
    /// Only the start: a write was cut short.
    Part,
    /// Nobody reads it.
    Unread,
    /// That the book is too long.
    TooLong,
}

struct Trial {
    title: &'static str,
    /// Runs the program, which is `$0`.
    line: &'static str,
    comes: Comes,
    prints: Prints,
    /// What failed and why, if something did.
    told: &'static str,
}

const fn trial(title: &'static str, line: &'static str, comes: Comes, prints: Prints, told: &'static str) -> Trial {
    Trial { title, line, comes, prints, told }
}

const TRIALS: [Trial; 14] = [
    trial("no failure", r#"exec "$0""#, Comes::Whole, Prints::All, ""),
    trial("input in pieces", r#"exec "$0""#, Comes::InPieces, Prints::All, ""),
    trial("standard input closed", r#"exec "$0" <&-"#, Comes::Whole, Prints::Nothing, "read: Bad file descriptor (os error 9)"),
    trial("a directory as input", r#"exec "$0" </"#, Comes::Whole, Prints::Nothing, "read: Is a directory (os error 21)"),
    trial("input that may not be read", r#"exec "$0" 0>/dev/null"#, Comes::Whole, Prints::Nothing, "read: Bad file descriptor (os error 9)"),
    trial("a read that fails after others", r#"exec "$0""#, Comes::Waits, Prints::Nothing, "read: Resource temporarily unavailable (os error 11)"),
    trial("a broken connection as input", r#"exec "$0""#, Comes::Breaks, Prints::Nothing, "read: Connection reset by peer (os error 104)"),
    trial("a full device as output", r#"exec "$0" >/dev/full"#, Comes::Whole, Prints::Nothing, "write: No space left on device (os error 28)"),
    trial("output that may not be written", r#"exec "$0" 1</dev/null"#, Comes::Whole, Prints::Nothing, "write: Bad file descriptor (os error 9)"),
    trial(
        "a write cut short",
        r#"f=$(mktemp); (trap "" XFSZ; ulimit -f 1; exec "$0" >"$f"); s=$?; cat "$f"; rm "$f"; exit $s"#,
        Comes::Whole,
        Prints::Part,
        "write: File too large (os error 27)",
    ),
    trial("a pipe that nobody reads", r#"exec "$0""#, Comes::Whole, Prints::Unread, "write: Broken pipe (os error 32)"),
    trial("such a pipe, the signal ignored", r#"trap "" PIPE; exec "$0""#, Comes::Whole, Prints::Unread, "write: Broken pipe (os error 32)"),
    trial("an endless file", r#"exec timeout 60 "$0" </dev/zero"#, Comes::Whole, Prints::TooLong, ""),
    trial("an endless pipe", r#"yes | timeout 60 "$0""#, Comes::Whole, Prints::TooLong, ""),
];

struct Ran {
    status: ExitStatus,
    text: String,
    told: String,
}

fn run(trial: &Trial, command: &str, program: &str, input: &[u8]) -> std::io::Result<Ran> {
    let mut sh = Command::new("sh");
    sh.args(["-c", trial.line, command]).env("PROGRAM", program).stdout(Stdio::piped()).stderr(Stdio::piped());
    let (ours, theirs) = UnixStream::pair()?;
    match trial.comes {
        Comes::Waits => {
            theirs.set_nonblocking(true)?;
            (&ours).write_all(input)?;
            sh.stdin(OwnedFd::from(theirs));
        }
        Comes::Breaks => {
            // A side that ends with something unread breaks the connection.
            (&theirs).write_all(b"?")?;
            (&ours).write_all(input)?;
            drop(ours);
            sh.stdin(OwnedFd::from(theirs));
        }
        Comes::Whole | Comes::InPieces => {
            sh.stdin(Stdio::piped());
        }
    }
    let mut child = sh.spawn()?;
    if trial.prints == Prints::Unread {
        drop(child.stdout.take());
    }
    if let Some(mut pipe) = child.stdin.take() {
        // A program that has stopped reading is no failure here.
        for piece in input.chunks(if trial.comes == Comes::InPieces { 1 } else { input.len().max(1) }) {
            let _ = pipe.write_all(piece);
        }
    }
    let ended = child.wait_with_output()?;
    let text = |bytes: &[u8]| String::from_utf8_lossy(bytes).into_owned();
    Ok(Ran { status: ended.status, text: text(&ended.stdout), told: text(&ended.stderr) })
}

/// Runs every trial of the program called `name`, by itself and by its script. `text` is what it prints of `input` (no write of a
/// short one is cut); `endless`: whether an endless input is refused. How many runs there were; if one is wrong, what it did.
pub fn trials(name: &str, program: &str, input: &[u8], text: &str, endless: bool) -> Result<u64, String> {
    let script = Path::new(file!()).parent().unwrap().join("../tools").join(name);
    let script = script.to_str().unwrap();
    let mut runs = 0;
    let applies = |trial: &&Trial| (endless || trial.prints != Prints::TooLong) && (text.len() > 1024 || trial.prints != Prints::Part);
    for trial in TRIALS.iter().filter(applies) {
        let told = if trial.told.is_empty() { String::new() } else { format!("{name}: {}\n", trial.told) };
        for command in [program, script] {
            let ran = run(trial, command, program, input).map_err(|e| format!("{}: {e}", trial.title))?;
            let printed = match trial.prints {
                Prints::Nothing | Prints::Unread => ran.text.is_empty(),
                Prints::All => ran.text == text,
                Prints::Part => !ran.text.is_empty() && ran.text.len() < text.len() && text.starts_with(&ran.text),
                Prints::TooLong => ran.text == "refused 15\n",
            };
            let status = ran.status.code() == Some(!told.is_empty() as i32);
            if !printed || !status || ran.told != told {
                return Err(format!("{command}, {}: {}\n-- printed:\n{}-- told, not {told:?}:\n{}", trial.title, ran.status, ran.text, ran.told));
            }
            runs += 1;
        }
    }
    Ok(runs)
}
