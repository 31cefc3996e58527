//! The product: the static library through its C interface, and the program through pipes.

use crate::rules::*;
use std::fs::File;
use std::io::{Read, Write};
use std::os::unix::process::ExitStatusExt;
use std::path::PathBuf;
use std::process::{Child, Command, ExitStatus, Stdio};
use std::thread;
use std::time::{Duration, Instant};

pub struct Product {
    pub program: PathBuf,
}

impl Entries for Product {
    fn plan(&self, table: &Table, out: PlanBuffers) -> Planned {
        plan_routes(table.n, table.origin, table.columns(), &table.wanted, out)
    }

    fn plan_to_collector(&self, table: &Table, out: PlanBuffers) -> Planned {
        plan_to_collector(table.n, table.origin, table.columns(), &table.wanted, out)
    }

    fn within(&self, table: &Table, node: u16, limit: u64) -> Within {
        within_limit(table.n, table.origin, node, limit, table.columns())
    }

    fn list(&self, listing: &Listing, output: &mut [u16]) -> Listed {
        list_path(listing.origin, listing.node, &listing.tails, &listing.heads, &listing.tree, output)
    }

    fn list_to_collector(&self, listing: &Listing, output: &mut [u16]) -> Listed {
        list_to_collector(listing.origin, listing.node, &listing.tails, &listing.heads, &listing.tree, output)
    }

    fn keep(&self, n: u32, columns: Columns, standing: &[u16], fresh: &[u16]) -> Kept {
        keep_path(n, columns, standing, fresh)
    }

    fn read(&self, file: &[u8], out: ReadBuffers) -> TableRead {
        read_link_file(file, out)
    }

    fn write(&self, table: &Table, output: &mut [u8]) -> Written {
        write_link_file(table.n, table.origin, table.columns(), &table.wanted, output)
    }

    fn make(&self, load: &Load, out: LoadBuffers) -> Made {
        make_load(load.n, load.seed, load.chance, load.largest, out)
    }

    fn print(&self, file: &[u8]) -> Result<String, String> {
        self.print_in_pieces(file, file.len().max(1))
    }
}

/// Standard outputs that cannot be written.
#[derive(Clone, Copy, Debug, PartialEq)]
pub enum Unread {
    Closed,
    Abandoned,
    Full,
}

/// The signal of a write to a pipe that nobody reads.
const SIGPIPE: i32 = 13;

/// A program that runs longer than this hangs.
const PATIENCE: Duration = Duration::from_secs(60);

impl Product {
    /// Feeds the input by a pipe in pieces of that many bytes and gives what is printed.
    pub fn print_in_pieces(&self, input: &[u8], piece: usize) -> Result<String, String> {
        let mut child = self.start(Stdio::piped())?;
        let mut pipe = child.stdin.take().expect("the pipe was asked for");
        thread::scope(|scope| {
            // The program need not read everything, so a broken pipe is no fault.
            scope.spawn(move || input.chunks(piece).try_for_each(|part| pipe.write_all(part)));
            finish(child)
        })
    }

    /// Runs the program with a file or folder as its standard input.
    pub fn print_of(&self, path: &str) -> Result<String, String> {
        let input = File::open(path).map_err(|error| format!("{path}: {error}"))?;
        finish(self.start(Stdio::from(input))?)
    }

    /// Runs the program with an output that takes nothing, or without one; it must end, and by no signal but SIGPIPE.
    pub fn end_unread(&self, input: &[u8], output: Unread) -> Result<(), String> {
        let mut command = Command::new("sh");
        command.args(["-c", if output == Unread::Closed { "exec \"$0\" >&-" } else { "exec \"$0\"" }]);
        command.arg(&self.program).stdin(Stdio::piped()).stderr(Stdio::null());
        match output {
            Unread::Full => command.stdout(File::create("/dev/full").map_err(|error| error.to_string())?),
            Unread::Closed | Unread::Abandoned => command.stdout(Stdio::piped()),
        };
        let mut child = command.spawn().map_err(|error| error.to_string())?;
        drop(child.stdout.take());
        let mut pipe = child.stdin.take().expect("the pipe was asked for");
        // The program may end before it has read everything.
        let _ = pipe.write_all(input);
        drop(pipe);
        match wait(&mut child)?.signal() {
            None | Some(SIGPIPE) => Ok(()),
            Some(signal) => Err(format!("the program was ended by signal {signal}")),
        }
    }

    fn start(&self, input: Stdio) -> Result<Child, String> {
        let mut command = Command::new(&self.program);
        command.stdin(input).stdout(Stdio::piped()).spawn().map_err(|error| format!("{}: {error}", self.program.display()))
    }
}

/// What the program prints until it ends by itself.
fn finish(mut child: Child) -> Result<String, String> {
    let mut output = child.stdout.take().expect("the pipe was asked for");
    let reader = thread::spawn(move || {
        let mut text = String::new();
        output.read_to_string(&mut text).map(|_| text)
    });
    let status = wait(&mut child)?;
    let text = reader.join().map_err(|_| "the reader failed")?.map_err(|error| error.to_string())?;
    match status.code() {
        Some(_) => Ok(text),
        None => Err(format!("the program was ended by a signal: {status}")),
    }
}

fn wait(child: &mut Child) -> Result<ExitStatus, String> {
    let start = Instant::now();
    let mut pause = Duration::from_micros(100);
    loop {
        if let Some(status) = child.try_wait().map_err(|error| error.to_string())? {
            return Ok(status);
        }
        if start.elapsed() > PATIENCE {
            child.kill().and_then(|()| child.wait()).map_err(|error| error.to_string())?;
            return Err("the program does not end".to_string());
        }
        thread::sleep(pause);
        pause = (pause * 2).min(Duration::from_millis(20));
    }
}
