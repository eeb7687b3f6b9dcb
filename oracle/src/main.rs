// Answers every case of the container on standard input with pp-rs's own preprocessor.
//
//   oracle [SECONDS]    the time that a case has, 1 second if not given
//
// The cases are answered by a child process, this program again. It is stopped and another one started where a case
// takes too long, or ends the process by using up the stack or the memory.
#![allow(dead_code)]
mod answers;
mod container;
mod lexer;
mod memory;
mod pp;
mod token;
mod token_file;

use container::Case;
use std::io::{self, BufRead, BufReader, BufWriter, Read, Write};
use std::process::{Child, ChildStdin, Command, Stdio};
use std::sync::atomic::{AtomicU64, Ordering};
use std::sync::mpsc::{channel, Receiver};
use std::time::{Duration, Instant};

const ANSWER: &str = "--answer";
// What closes the answers to a case; no answer looks like it.
const DONE: &str = ".";
const STACK: usize = 256 << 20;

#[global_allocator]
static MEMORY: memory::Limited = memory::Limited;

struct Answerer {
    child: Child,
    cases: ChildStdin,
    lines: Receiver<String>,
}

impl Answerer {
    fn start(time: Duration) -> io::Result<Answerer> {
        let mut child = Command::new(std::env::current_exe()?)
            .arg(time.as_secs_f64().to_string())
            .arg(ANSWER)
            .stdin(Stdio::piped())
            .stdout(Stdio::piped())
            .stderr(Stdio::null())
            .spawn()?;
        let cases = child.stdin.take().expect("piped");
        let answers = BufReader::new(child.stdout.take().expect("piped"));
        let (sender, lines) = channel();
        std::thread::spawn(move || {
            for line in answers.lines() {
                let sent = line.map(|line| sender.send(line).is_ok());
                if !sent.unwrap_or(false) {
                    break;
                }
            }
        });
        Ok(Answerer { child, cases, lines })
    }

    // Writes the answers as far as they come; false where the case was not answered to its end.
    fn answer(&mut self, case: &Case, time: Duration, out: &mut dyn Write) -> io::Result<bool> {
        let until = Instant::now() + time;
        if self.cases.write_all(case.bytes).and_then(|_| self.cases.flush()).is_err() {
            return Ok(false);
        }
        loop {
            let left = until.saturating_duration_since(Instant::now());
            match self.lines.recv_timeout(left) {
                Ok(line) if line == DONE => return Ok(true),
                Ok(line) => writeln!(out, "{}", line)?,
                Err(_) => return Ok(false),
            }
        }
    }

    fn stop(mut self) -> io::Result<()> {
        // It may have ended by itself.
        let _ = self.child.kill();
        self.child.wait().map(|_| ())
    }
}

fn supervise(time: Duration) -> io::Result<()> {
    let mut bytes = Vec::new();
    io::stdin().read_to_end(&mut bytes)?;
    let mut out = BufWriter::new(io::stdout());
    let mut answerer = Answerer::start(time)?;
    let mut rest = &bytes[..];
    while !rest.is_empty() {
        let case = match Case::first(rest) {
            Some(case) => case,
            None => {
                writeln!(out, "bad container")?;
                break;
            }
        };
        rest = &rest[case.bytes.len()..];
        out.write_all(b"== ")?;
        out.write_all(case.name)?;
        out.write_all(b"\n")?;
        if !answerer.answer(&case, time, &mut out)? {
            writeln!(out, "no answer")?;
            answerer.stop()?;
            answerer = Answerer::start(time)?;
        }
    }
    answerer.stop()?;
    out.flush()
}

// The cases begun and those ended, together: odd while one is being answered.
static TURN: AtomicU64 = AtomicU64::new(0);

// Ends the child by itself if a case takes too long and nobody is left to stop it.
fn watch(time: Duration) {
    let mut last = 0;
    loop {
        std::thread::sleep(time + Duration::from_secs(1));
        let turn = TURN.load(Ordering::Relaxed);
        if turn == last && turn % 2 == 1 {
            std::process::exit(1);
        }
        last = turn;
    }
}

// The child: answers cases one by one as they come.
fn answer_all() -> io::Result<()> {
    let mut input = io::stdin();
    // Every line goes out at once, so that those before a call that does not return are seen.
    let mut out = io::stdout();
    while let Some(bytes) = container::read_case(&mut input)? {
        let case = Case::first(&bytes).expect("a whole case");
        TURN.fetch_add(1, Ordering::Relaxed);
        answers::answer(&case, &mut out)?;
        TURN.fetch_add(1, Ordering::Relaxed);
        writeln!(out, "{}", DONE)?;
    }
    Ok(())
}

fn main() -> io::Result<()> {
    let mut arguments = std::env::args().skip(1);
    let seconds = arguments.next().map_or(Ok(1.0), |a| a.parse::<f64>());
    let time = match seconds {
        Ok(seconds) if seconds > 0.0 && seconds < 1e6 => Duration::from_secs_f64(seconds),
        _ => {
            eprintln!("usage: oracle [SECONDS]");
            std::process::exit(2);
        }
    };
    if arguments.next().as_deref() != Some(ANSWER) {
        return supervise(time);
    }
    answers::keep_panics_quiet();
    std::thread::spawn(move || watch(time));
    let worker = std::thread::Builder::new().stack_size(STACK).spawn(answer_all)?;
    worker.join().expect("panics are caught case by case")
}
