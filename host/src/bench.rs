// Timings of both sides in one run, for docs/BENCHMARKS.md: whole files command by command, the sound check alone, single calls less their check.

use crate::commands::{file_of, Command};
use crate::layout::{encode, Tables};
use crate::maker::{drawn, numbered};
use crate::pump;
use crate::records::*;
use crate::replay::{page_rows, replay, Desk};
use crate::sound;
use crate::subject::Subject;
use std::time::{Duration, Instant};

const ROUNDS: usize = 101;
const CHUNK: usize = 10;

fn timed<T>(work: impl FnOnce() -> T) -> (Duration, T) {
    let start = Instant::now();
    let result = work();
    (start.elapsed(), result)
}

// The times of one piece of work on both sides, a pair a round.
#[derive(Clone, Default)]
struct Times {
    ours: Vec<Duration>,
    theirs: Vec<Duration>,
}

// A time in microseconds for each side: the median, and the best.
#[derive(Clone, Copy, Default)]
struct Told {
    median: (f64, f64),
    best: (f64, f64),
}

fn micros(time: Duration) -> f64 {
    time.as_secs_f64() * 1e6
}

impl Times {
    fn told(mut self) -> Told {
        self.ours.sort();
        self.theirs.sort();
        let at = |i: usize| (micros(self.ours[i]), micros(self.theirs[i]));
        Told {
            median: at(ROUNDS / 2),
            best: at(0),
        }
    }
}

impl Told {
    fn and(self, other: Told) -> Told {
        let sum = |a: (f64, f64), b: (f64, f64)| (a.0 + b.0, a.1 + b.1);
        Told {
            median: sum(self.median, other.median),
            best: sum(self.best, other.best),
        }
    }

    fn line(self, name: &str) -> String {
        let (ours, theirs) = self.median;
        let ratio = ours / theirs;
        format!("{name:38} {ours:10.2} {theirs:10.2} {ratio:8.2}")
    }

    fn print(self, name: &str) {
        println!("{} {:8.2}", self.line(name), self.best.0 / self.best.1);
    }

    // The least of differences says nothing.
    fn print_median(self, name: &str) {
        println!("{}", self.line(name));
    }
}

pub fn run<S: Subject>(mut ours: S) {
    println!("ours: {}", ours.name());
    println!("medians of {ROUNDS} rounds in microseconds, both sides in turn within each round;");
    println!("one by one: the sum of the medians of each {CHUNK} commands");
    println!(
        "tables are allocated once and opened by each file's first command, the output buffer is"
    );
    println!("allocated once and never cleared; the rebuild starts empty and allocates as it goes");
    let heads = ["ours", "Rust", "ratio", "of best"];
    let [a, b, c, d] = heads;
    println!("{:38} {a:>10} {b:>10} {c:>8} {d:>8}", "");
    for length in [50, 500] {
        let commands = steady(length);
        by_command(&mut ours, &commands);
        whole_file(&mut ours, &commands);
    }
    for (name, desk) in [
        ("empty ledger", filled(0, drawn)),
        ("half full ledger", filled(1, drawn)),
        ("full ledger", filled(2, drawn)),
        ("full, keys alike", filled(2, numbered)),
    ] {
        let tables = encode(desk.store.as_ref().expect("an opened ledger"));
        check(&mut ours, &tables).print(&format!("sound check, {name}"));
    }
    for command in pending_calls() {
        single(&mut ours, &command);
    }
}

// ---- whole files

// Commands are timed ten at a time, so that a busy machine seldom breaks into one piece.
fn by_command<S: Subject>(ours: &mut S, commands: &[Command]) {
    let mut rows = page_rows();
    let chunks: Vec<&[Command]> = commands.chunks(CHUNK).collect();
    let mut times = vec![Times::default(); chunks.len()];
    for _ in 0..ROUNDS {
        let mut desk = Desk::unopened();
        for (chunk, times) in chunks.iter().zip(&mut times) {
            let (time, a) = timed(|| refusals(chunk, |c| ours.call(c, &mut rows)));
            times.ours.push(time);
            let (time, b) = timed(|| refusals(chunk, |c| desk.act(c, &mut rows)));
            times.theirs.push(time);
            assert_eq!(a, b, "both sides refuse alike");
        }
    }
    let told = times.into_iter().map(Times::told);
    let whole = told.fold(Told::default(), Told::and);
    whole.print(&format!("{} commands, one by one", commands.len()));
}

fn refusals(commands: &[Command], mut act: impl FnMut(&Command) -> Outcome) -> u64 {
    commands.iter().map(|c| act(c).refusal).sum()
}

fn whole_file<S: Subject>(ours: &mut S, commands: &[Command]) {
    let input = file_of(commands);
    let mut out = vec![0; 1 << 21];
    let mut times = Times::default();
    for _ in 0..ROUNDS {
        let (time, a) = timed(|| ours.replay(&input, &mut out).number);
        times.ours.push(time);
        let (time, b) = timed(|| replay(&input, &mut Desk::unopened()).len());
        times.theirs.push(time);
        assert_eq!(a, b as u64, "both sides write alike");
    }
    let (count, bytes) = (commands.len(), input.len());
    times
        .told()
        .print(&format!("{count} commands, a file of {bytes} bytes"));
}

// A steady mix: of eight commands two requests, an approval, a rejection, a status, a page, a key that comes and goes.
fn steady(length: usize) -> Vec<Command> {
    let mut out = pump::cast();
    let mut asked = 0;
    while out.len() < length {
        let passing = drawn(out.len() / 8);
        let command = match out.len() % 8 {
            0 | 2 => {
                asked += 1;
                ask([b'A'; 32], 1, &[b'x'; 20])
            }
            1 => approve(asked - 1, &[b'x'; 20]),
            3 => reject(asked - 1),
            4 => Command::Status { request: asked / 2 },
            5 => Command::Page {
                from: asked / 8,
                limit: Some(10),
            },
            6 => add(passing, 3, Role::Agent),
            _ => revoke(passing),
        };
        out.push(command);
    }
    out
}

const NOON: BlockTime = BlockTime {
    height: 12,
    timestamp_ns: 34,
};

fn ask(key: Key, account: Account, text: &[u8]) -> Command {
    Command::Request {
        caller: pump::signed(account, key),
        text: text.to_vec(),
        now: NOON,
    }
}

fn approve(request: RequestId, text: &[u8]) -> Command {
    Command::Approve {
        caller: pump::signed(2, [b'B'; 32]),
        request,
        text: text.to_vec(),
        now: NOON,
    }
}

fn reject(request: RequestId) -> Command {
    Command::Reject {
        caller: pump::signed(2, [b'B'; 32]),
        request,
        now: NOON,
    }
}

fn add(key: Key, account: Account, role: Role) -> Command {
    Command::Add {
        caller: 7,
        key,
        account,
        role,
    }
}

fn revoke(key: Key) -> Command {
    Command::Revoke {
        caller: 7,
        key,
        now: NOON,
    }
}

// ---- the sound check

// An empty ledger, one with half of each room used, and one with all of it: keys, registrations, requests, texts, log. Its keys are as
// drawn at random, or alike but for their last bytes, which makes them slow to tell apart.
pub fn filled(halves: usize, key_of: fn(usize) -> Key) -> Desk {
    let mut desk = Desk::unopened();
    let mut rows = page_rows();
    let mut act = |command: Command| assert!(desk.act(&command, &mut rows).accepted());
    let (passing, staying, requests) = (96 * halves, 32 * halves, 128 * halves);
    act(pump::open());
    for number in 0..passing {
        act(add(key_of(number), 3, Role::Agent));
        act(revoke(key_of(number)));
    }
    for number in 1..staying {
        act(add(key_of(1000 + number), 3, Role::Agent));
    }
    if staying > 0 {
        act(add([b'B'; 32], 2, Role::Approver));
    }
    for n in 0..requests {
        let key = key_of(1000 + 1 + n % (staying - 1));
        act(ask(key, 3, &[n as u8; 128]));
        act(approve(n as u64, &[n as u8; 128]));
    }
    desk
}

fn check<S: Subject>(ours: &mut S, tables: &Tables) -> Told {
    ours.load(tables);
    let mut times = Times::default();
    for _ in 0..ROUNDS {
        let (time, a) = timed(|| ours.is_sound());
        times.ours.push(time);
        let (time, b) = timed(|| sound::is_sound(tables));
        times.theirs.push(time);
        assert!(a && b, "both sides find the tables sound");
    }
    times.told()
}

// ---- single calls

// One accepted command of each kind, for a half full ledger with a request that waits.
fn pending_calls() -> Vec<Command> {
    vec![
        add([9; 32], 3, Role::Agent),
        revoke(drawn(1000 + 20)),
        ask(drawn(1000 + 20), 3, &[5; 128]),
        approve(128, &[7; 128]),
        reject(128),
        Command::Status { request: 128 },
        Command::Page {
            from: 0,
            limit: Some(100),
        },
    ]
}

// What our call takes less what its check takes, beside the rebuild's call, which checks nothing. The check is timed just before the
// call, on the same tables, after one that warms the caches; so each round has a difference of its own.
fn single<S: Subject>(ours: &mut S, command: &Command) {
    let mut rows = page_rows();
    let mut desk = filled(1, drawn);
    desk.act(&ask(drawn(1000 + 20), 3, &[7; 128]), &mut rows);
    let tables = encode(desk.store.as_ref().expect("an opened ledger"));
    let mut times = Times::default();
    for _ in 0..ROUNDS {
        ours.load(&tables);
        let mut desk = desk.clone();
        assert!(ours.is_sound(), "the tables are sound");
        let (check, _) = timed(|| ours.is_sound());
        let (call, a) = timed(|| ours.call(command, &mut rows));
        times.ours.push(call.saturating_sub(check));
        let (time, b) = timed(|| desk.act(command, &mut rows));
        times.theirs.push(time);
        assert_eq!(a, b, "both sides answer alike");
        assert!(a.accepted(), "the call is accepted");
    }
    let name = format!("call of kind {:02x}, less its check", command.kind());
    times.told().print_median(&name);
}
