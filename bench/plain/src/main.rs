//! A program and a script from the standard input, and the text of their frames to the standard output: a full walk a
//! frame, in plain Rust.

mod delegates;
mod geometry;
mod gestures;
mod hits;
mod intrinsic;
mod layout;
mod output;
mod paint;
mod print;
mod program;
mod read;
mod render;
mod script;
mod semantics;
mod session;
mod sliver;
mod text;
mod tree;
mod value;
mod widget;

use print::put;
use session::{End, Session};
use std::io::{self, Read, Write};
use std::process::ExitCode;

const CHUNK: usize = 1 << 16;

/// What is being read: the program, or lines that a session runs.
enum Part {
    Program(Vec<u8>),
    Script(Box<Session>),
}

struct Run {
    part: Part,
    line: u64,
    refused: bool,
    out: Vec<u8>,
}

/// The status of a run that ends before its input does.
type Ended = u8;

/// The status where the input has what this program leaves out.
const LEFT_OUT: Ended = 70;

impl Run {
    fn take(&mut self, line: &[u8]) -> Result<(), Ended> {
        let kept = script::trimmed(line);
        match &mut self.part {
            Part::Program(bytes) if kept != b"%%" => {
                bytes.extend_from_slice(line);
                bytes.push(b'\n');
            }
            Part::Program(_) => self.part = Part::Script(Box::new(self.read_program()?)),
            Part::Script(session) => {
                self.line += 1;
                if !kept.is_empty() {
                    let end = script::command(kept).map_or_else(End::Refused, |c| session.line(c, &mut self.out));
                    match end {
                        End::Done => (),
                        End::Refused(r) => {
                            self.refused = true;
                            put!(self.out, "refused {} {} {}\n", self.line, r as u8, r.name());
                        }
                        End::Fault => return Err(4),
                        End::LeftOut => return Err(LEFT_OUT),
                    }
                }
            }
        }
        Ok(())
    }

    fn read_program(&mut self) -> Result<Session, Ended> {
        let Part::Program(bytes) = &self.part else { return Err(3) };
        match read::program(bytes) {
            Ok((program, root)) => Ok(Session::new(program, root)),
            Err(read::Fault::Json) => {
                self.out.extend_from_slice(b"program json\n");
                Err(3)
            }
            Err(read::Fault::LeftOut(what)) => {
                eprintln!("left out: {what}");
                Err(LEFT_OUT)
            }
        }
    }

    fn flush(&mut self) -> io::Result<()> {
        io::stdout().lock().write_all(&self.out)?;
        self.out.clear();
        Ok(())
    }
}

/// Runs the lines as they come in: their text is written before the next bytes are read.
fn run(run: &mut Run) -> io::Result<Ended> {
    let mut input = io::stdin().lock();
    let mut held = Vec::new();
    let mut chunk = vec![0; CHUNK];
    loop {
        let n = input.read(&mut chunk)?;
        if n == 0 {
            break;
        }
        let mut rest = &chunk[..n];
        while let Some(end) = rest.iter().position(|b| *b == b'\n') {
            let ended = if held.is_empty() {
                run.take(&rest[..end])
            } else {
                held.extend_from_slice(&rest[..end]);
                let ended = run.take(&held);
                held.clear();
                ended
            };
            if let Err(status) = ended {
                return Ok(status);
            }
            rest = &rest[end + 1..];
        }
        held.extend_from_slice(rest);
        run.flush()?;
    }
    if let Err(status) = if held.is_empty() { Ok(()) } else { run.take(&held) } {
        return Ok(status);
    }
    if let Part::Program(_) = run.part {
        return Ok(run.read_program().map_or_else(|status| status, |_| 0));
    }
    Ok(run.refused as u8)
}

fn main() -> io::Result<ExitCode> {
    let mut whole = Run { part: Part::Program(Vec::new()), line: 0, refused: false, out: Vec::new() };
    let status = run(&mut whole)?;
    whole.flush()?;
    Ok(ExitCode::from(status))
}
