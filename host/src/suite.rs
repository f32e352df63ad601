// The whole comparison: every group of cases, how many passed and failed, what was reached, and where failing cases are.

use crate::cases::{save, Case};
use crate::commands::file_of;
use crate::compare::{Comparer, Verdict};
use crate::damage::{call, Call};
use crate::generate::file;
use crate::inputs;
use crate::layout::Tables;
use crate::pump;
use crate::reader::Fault;
use crate::records::Refusal;
use crate::replay::{replay, Desk};
use crate::subject::Subject;
use std::path::PathBuf;
use std::time::Instant;

// Failing cases past this number are counted and not written out.
const WRITTEN_AT_MOST: u64 = 20;

// One of `of` shares of every group's cases: those whose number leaves `first` over. Shares run side by side as processes.
#[derive(Clone, Copy)]
pub struct Share {
    pub first: usize,
    pub of: usize,
}

// How a command file is compared: in one call, which is enough to try the reader, or command by command too.
#[derive(Clone, Copy)]
enum Way {
    Whole,
    Both,
}

pub struct Suite<S: Subject> {
    comparer: Comparer<S>,
    share: Share,
    failing: PathBuf,
    passed: u64,
    failed: u64,
}

impl<S: Subject> Suite<S> {
    pub fn new(ours: S, share: Share, failing: PathBuf) -> Suite<S> {
        Suite {
            comparer: Comparer::new(ours),
            share,
            failing,
            passed: 0,
            failed: 0,
        }
    }

    // All groups. The last line has the counts, and the answer is whether nothing failed.
    pub fn run(&mut self, files: u64, seed: u64) -> bool {
        println!("ours: {}", self.comparer.ours.name());
        let Share { first, of } = self.share;
        println!("seed {seed}, {files} random files, share {first} of {of}");
        self.group("document 01's examples", |s| s.examples());
        self.group("random files", |s| s.random_files(files, seed));
        self.group("single calls on damaged tables", |s| {
            s.calls(2 * files, seed)
        });
        self.group("short inputs", |s| s.short_inputs());
        self.group("tags, lengths, cuts, limits", |s| s.made_inputs());
        self.group("tables of wrong lengths", |s| s.wrong_lengths(seed));
        self.reached(files);
        println!("{} passed, {} failed", self.passed, self.failed);
        self.failed == 0
    }

    fn group(&mut self, name: &str, cases: impl Fn(&mut Self)) {
        let (start, passed, failed) = (Instant::now(), self.passed, self.failed);
        cases(self);
        let seconds = start.elapsed().as_secs_f64();
        let count = self.passed + self.failed - passed - failed;
        let rate = count as f64 / seconds;
        println!("{name}: {count} cases in {seconds:.1} s, {rate:.0} a second");
    }

    // Makes and tries this share of `count` cases.
    fn deal(&mut self, count: usize, way: Way, make: impl Fn(usize) -> (String, Case)) {
        for at in (self.share.first..count).step_by(self.share.of) {
            let (name, case) = make(at);
            match judged(&mut self.comparer, way, &case) {
                Ok(()) => self.passed += 1,
                Err(difference) => self.fail(&name, &case, &difference),
            }
        }
    }

    fn fail(&mut self, name: &str, case: &Case, difference: &str) {
        self.failed += 1;
        if self.failed > WRITTEN_AT_MOST {
            return;
        }
        println!("FAILED {name}: {difference}");
        match save(&self.failing, name, case) {
            Ok(path) => println!("written to {}", path.display()),
            Err(error) => println!("not written: {error}"),
        }
    }

    // The rebuild itself must say what document 01 says, and ours the same.
    fn examples(&mut self) {
        let mut inputs = Vec::new();
        for example in pump::examples() {
            let name = example.name.replace(' ', "-").replace(',', "");
            let input = file_of(&example.commands);
            let said = last_answer(&input);
            if said != example.says {
                let difference = format!("document 01: {}, the rebuild: {said}", example.says);
                self.fail(&name, &Case::File(input.clone()), &difference);
            }
            inputs.push((name, input));
        }
        self.deal(inputs.len(), Way::Both, |i| {
            let (name, input) = inputs[i].clone();
            (name, Case::File(input))
        });
    }

    fn random_files(&mut self, files: u64, seed: u64) {
        self.deal(files as usize, Way::Both, |case| {
            let input = file(seed, case as u64);
            (format!("file-{seed}-{case}"), Case::File(input))
        });
    }

    fn calls(&mut self, calls: u64, seed: u64) {
        self.deal(calls as usize, Way::Whole, |case| {
            let call = call(seed, case as u64);
            (format!("call-{seed}-{case}"), Case::Call(call))
        });
    }

    fn files(&mut self, way: Way, name: &str, inputs: Vec<Vec<u8>>) {
        self.deal(inputs.len(), way, |i| {
            (format!("{name}-{i}"), Case::File(inputs[i].clone()))
        });
    }

    fn short_inputs(&mut self) {
        self.files(Way::Whole, "short", inputs::up_to_two_bytes().collect());
        self.files(Way::Whole, "tail", inputs::open_and_tail().collect());
    }

    fn made_inputs(&mut self) {
        self.files(Way::Whole, "tag", inputs::every_tag());
        self.files(Way::Whole, "length", inputs::every_length());
        self.files(Way::Whole, "cut", inputs::every_cut_and_change());
        self.limits();
    }

    // Few cases, and what each share has reached is judged: so every share tries them all.
    fn limits(&mut self) {
        let share = self.share;
        self.share = Share { first: 0, of: 1 };
        self.files(Way::Both, "limit", inputs::at_the_limit());
        self.share = share;
    }

    // Each table one row short, one too long, or empty: all is refused with 20, in single calls and in whole files.
    fn wrong_lengths(&mut self, seed: u64) {
        let (all, commands) = (wrong_tables(), inputs::one_of_each());
        self.deal(all.len() * commands.len(), Way::Whole, |n| {
            let (i, command) = (n / commands.len(), &commands[n % commands.len()]);
            let name = format!("lengths-{i}-{n}");
            let case = Case::Call(Call {
                tables: all[i].clone(),
                command: command.clone(),
                room: 100,
            });
            (name, case)
        });
        self.deal(all.len(), Way::Whole, |i| {
            let case = Case::FileOn(all[i].clone(), file(seed, i as u64));
            (format!("lengths-{i}"), case)
        });
    }

    // Where many files were made, each refusal, fault and kind must have been met.
    fn reached(&mut self, files: u64) {
        let seen = &self.comparer.seen;
        println!("{} commands compared one by one", seen.commands);
        let told = |r: &Refusal| format!("{}:{}", r.number(), seen.refusals[*r as usize]);
        let list: Vec<String> = Refusal::ALL.iter().map(told).collect();
        println!("refusals: {}", list.join(" "));
        let told = |f: &Fault| format!("{}:{}", f.name(), seen.faults[*f as usize]);
        let list: Vec<String> = Fault::ALL.iter().map(told).collect();
        println!("faults: {}", list.join(" "));
        println!("unsound tables: {}", seen.unsound);
        let all = seen.refusals.iter().all(|n| *n > 0)
            && seen.faults.iter().all(|n| *n > 0)
            && seen.accepted[1..].iter().all(|n| *n > 0);
        match all || files < 1000 * self.share.of as u64 {
            true => self.passed += 1,
            false => {
                self.failed += 1;
                println!("FAILED: a refusal, a fault or a kind was not reached");
            }
        }
    }
}

fn judged<S: Subject>(comparer: &mut Comparer<S>, way: Way, case: &Case) -> Verdict {
    match case {
        Case::Call(call) => comparer.single_call(call),
        Case::FileOn(tables, input) => comparer.file_on(tables, input),
        Case::File(input) => {
            comparer.whole_file(input)?;
            match way {
                Way::Whole => Ok(()),
                Way::Both => comparer.by_command(input),
            }
        }
    }
}

// The last command's line without its number, as the rebuild writes it.
pub fn last_answer(input: &[u8]) -> String {
    let lines = replay(input, &mut Desk::unopened());
    let text = String::from_utf8(lines).expect("lines of text");
    let last = text.lines().rev().nth(1).unwrap_or("");
    last.split_once(' ')
        .map_or("", |(_, rest)| rest)
        .to_string()
}

fn wrong_tables() -> Vec<Tables> {
    let mut out = vec![Tables::zero(); 9];
    out[0].book.truncate(1088);
    out[1].book.push([0; 6]);
    out[2].book.clear();
    out[3].keys.truncate(575);
    out[4].keys.push([0; 32]);
    out[5].keys.clear();
    out[6].texts.truncate(32767);
    out[7].texts.push(0);
    out[8].texts.clear();
    out
}

// One case again, from its file.
pub fn again<S: Subject>(ours: S, case: Case) -> Verdict {
    judged(&mut Comparer::new(ours), Way::Both, &case)
}
