//! `run`, `pair` and `board` as ctl_tool has them, and `asks` as device_loads makes them.

mod asks;
mod board;
mod device;
mod events;
mod history;
mod plan;
mod requests;
mod sample;
mod script;
mod settle;
mod types;

use std::fs::File;
use std::io::{self, ErrorKind, Read, Write};
use std::os::unix::io::AsFd;
use std::process::ExitCode;
use std::sync::{Arc, Mutex};

use asks::Asks;
use device::Device;
use script::{put, put_audit, put_field, put_row, Command, Runner, Script};
use types::{ExtControl, MAX_SCRIPT};

/// Why a program ends with status 1.
enum Stop {
    BadLine(u32),
    TooLong,
    ReadFault,
    NoSecond,
    WriteFault,
}

/// Standard output, without a buffer: each reply is written before the next command runs.
struct Output(File);

impl Output {
    fn new() -> io::Result<Output> {
        Ok(Output(File::from(io::stdout().as_fd().try_clone_to_owned()?)))
    }

    /// Unlike `write_all` this doesn't write again after Interrupted.
    fn write(&mut self, mut rest: &[u8]) -> Result<(), Stop> {
        while !rest.is_empty() {
            match self.0.write(rest) {
                Ok(taken) if taken > 0 => rest = &rest[taken..],
                _ => return Err(Stop::WriteFault),
            }
        }
        Ok(())
    }
}

/// Whether the device has an array, too.
fn has_array() -> bool {
    std::env::var_os("CTL_ARRAY").map_or(false, |value| value == "1")
}

/// The whole input, read before anything runs.
fn read_input() -> Result<Vec<u8>, Stop> {
    const MAX_READS: usize = 2_097_152;
    let mut reader = io::stdin().lock();
    let mut data = vec![0; MAX_SCRIPT + 1];
    let mut len = 0;
    for _ in 0..MAX_READS {
        match reader.read(&mut data[len..]) {
            Ok(0) => {
                data.truncate(len);
                return Ok(data);
            }
            Ok(taken) => len += taken,
            Err(fault) if fault.kind() == ErrorKind::Interrupted => {}
            Err(_) => return Err(Stop::ReadFault),
        }
        if len > MAX_SCRIPT {
            return Err(Stop::TooLong);
        }
    }
    Err(Stop::ReadFault)
}

/// Runs a whole script; `reply` gets each reply line before the next command runs.
fn run_lines(device: &mut Device, data: &[u8], mut reply: impl FnMut(&[u8]) -> Result<(), Stop>) -> Result<(), Stop> {
    let mut script = Script::new(data, has_array());
    let mut runner = Runner::new(0);
    let (mut entries, mut line) = (Vec::new(), Vec::new());
    while let Some(command) = script.next(&mut entries) {
        match command {
            Ok(command) if !matches!(command, Command::Divide) => {
                runner.run(device, &command, &entries, &mut line);
                reply(&line)?;
            }
            _ => return Err(Stop::BadLine(script.line())),
        }
        entries.clear();
        line.clear();
    }
    Ok(())
}

fn run(mut device: Device, out: &mut Output) -> Result<(), Stop> {
    run_lines(&mut device, &read_input()?, |line| out.write(line))
}

fn board(mut device: Device, out: &mut Output) -> Result<(), Stop> {
    run_lines(&mut device, &read_input()?, |_| Ok(()))?;
    let mut line = Vec::new();
    for place in 0..device.queued() as u32 {
        line.clear();
        if put_row(&mut line, &device, place).is_ok() {
            line.push(b'\n');
            out.write(&line)?;
        }
    }
    if device.queued() == 0 {
        out.write(b"no frames\n")?;
    }
    Ok(())
}

/// The commands of one of the two scripts with the entries of their lists.
#[derive(Default)]
struct Half {
    commands: Vec<Command>,
    entries: Vec<ExtControl>,
}

fn divide(data: &[u8]) -> Result<[Half; 2], Stop> {
    let mut script = Script::new(data, has_array());
    let mut halves = [Half::default(), Half::default()];
    let mut current = 0;
    while let Some(command) = script.next(&mut halves[current].entries) {
        match command {
            Ok(Command::Divide) if current == 0 => current = 1,
            Err(_) | Ok(Command::Divide | Command::Audit) => return Err(Stop::BadLine(script.line())),
            Ok(command) => halves[current].commands.push(command),
        }
    }
    if current == 0 {
        return Err(Stop::NoSecond);
    }
    Ok(halves)
}

/// Runs one of the two scripts and answers its reply lines, each behind the seat's number.
fn run_half(device: &Mutex<Device>, seat: u32, half: &Half) -> Vec<u8> {
    let mut runner = Runner::new(seat);
    let mut out = Vec::new();
    for command in &half.commands {
        put_field(&mut out, b"", seat);
        out.push(b' ');
        let mut device = device.lock().unwrap_or_else(|poisoned| poisoned.into_inner());
        runner.run(&mut device, command, &half.entries, &mut out);
    }
    out
}

fn pair(device: Device, out: &mut Output) -> Result<(), Stop> {
    let data = read_input()?;
    let halves = divide(&data)?;
    let device = Mutex::new(device);
    let replies = std::thread::scope(|scope| {
        let second = scope.spawn(|| run_half(&device, 1, &halves[1]));
        let first = run_half(&device, 0, &halves[0]);
        [first, second.join().expect("the second script ends")]
    });
    let device = device.into_inner().unwrap_or_else(|poisoned| poisoned.into_inner());
    for line in replies.iter().flat_map(|lines| lines.split_inclusive(|&b| b == b'\n')) {
        out.write(line)?;
    }
    let accepted = |seat| device.steps().iter().filter(|entry| entry.seat == seat).count() as u32;
    let mut line = Vec::new();
    put_field(&mut line, b"accepted ", accepted(0));
    put_field(&mut line, b" ", accepted(1));
    line.push(b'\n');
    out.write(&line)?;
    line.clear();
    put_audit(&mut line, &device);
    line.push(b'\n');
    out.write(&line)
}

const USAGE: &str = "usage: peer run | pair | board
       peer asks MODE CONTROLS HANDLERS FILE_HANDLES SUBSCRIPTIONS QUEUED ROUNDS";

fn main() -> ExitCode {
    let words: Vec<String> = std::env::args().skip(1).collect();
    let (first, rest) = words.split_first().map_or(("", &words[..]), |(first, rest)| (first.as_str(), rest));
    match (first, rest) {
        ("run", []) => answer(run),
        ("board", []) => answer(board),
        ("pair", []) => answer(pair),
        ("asks", numbers) => match Asks::read(numbers).map(|asks| asks.run()) {
            Some(Ok(())) => ExitCode::SUCCESS,
            Some(Err(_)) => ExitCode::FAILURE,
            None => usage(),
        },
        _ => usage(),
    }
}

fn usage() -> ExitCode {
    eprintln!("{USAGE}");
    ExitCode::from(2)
}

/// Answers a script, and writes the fault line where there is a fault.
fn answer(program: fn(Device, &mut Output) -> Result<(), Stop>) -> ExitCode {
    let plan = sample::sample_plan(has_array()).expect("the sample's tables are sound");
    let mut out = match Output::new() {
        Ok(out) => out,
        Err(_) => return ExitCode::FAILURE,
    };
    let mut fault = Vec::new();
    match program(Device::new(Arc::new(plan)), &mut out) {
        Ok(()) => return ExitCode::SUCCESS,
        Err(Stop::WriteFault) => return ExitCode::FAILURE,
        Err(Stop::BadLine(line)) => {
            put_field(&mut fault, b"line ", line);
            put(&mut fault, b": not a command\n");
        }
        Err(Stop::TooLong) => put(&mut fault, b"input too long\n"),
        Err(Stop::ReadFault) => put(&mut fault, b"read fault\n"),
        Err(Stop::NoSecond) => put(&mut fault, b"no second script\n"),
    }
    // the status says it, too, where this can't be written
    out.write(&fault).ok();
    ExitCode::FAILURE
}
