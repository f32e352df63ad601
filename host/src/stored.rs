// The fixed list as crate samples has it stored, for the gate: the files in `data/list`, their lines in `stdout`; and what these lines reach.

use crate::reader::Fault;
use crate::sample::samples;
use std::path::Path;

// Those that a command file can meet: 20 and 21 are for tables and rows of a caller's own.
const LAST_REFUSAL: usize = 19;

// Each file as its length in four bytes, the highest first, and its bytes; all lines one after the other. Gives what is reached.
pub fn write(directory: &Path) -> std::io::Result<Reached> {
    let (mut list, mut stdout) = (Vec::new(), Vec::new());
    let samples = samples();
    for sample in &samples {
        let length = u32::try_from(sample.input.len()).expect("a length of four bytes");
        list.extend(length.to_be_bytes());
        list.extend(&sample.input);
        stdout.extend(sample.lines());
    }
    std::fs::create_dir_all(directory.join("data"))?;
    std::fs::write(directory.join("data/list"), &list)?;
    std::fs::write(directory.join("stdout"), &stdout)?;
    let lines = String::from_utf8(stdout).expect("lines of text");
    Ok(Reached::of(samples.len(), &lines))
}

// How many lines tell each refusal and each fault.
pub struct Reached {
    files: usize,
    lines: usize,
    refusals: Vec<(String, usize)>,
    faults: Vec<(String, usize)>,
}

impl Reached {
    fn of(files: usize, lines: &str) -> Reached {
        let count = |words: String, end: &str| {
            let told = lines
                .lines()
                .filter(|line| format!("{line} ").contains(&words));
            (end.to_string(), told.count())
        };
        let refusal = |n: usize| count(format!(" refused {n} "), &n.to_string());
        let fault = |f: &Fault| count(format!(": {} ", f.name()), f.name());
        Reached {
            files,
            lines: lines.lines().count(),
            refusals: (1..=LAST_REFUSAL).map(refusal).collect(),
            faults: Fault::ALL.iter().map(fault).collect(),
        }
    }

    // Whether every refusal and every fault is told.
    pub fn all(&self) -> bool {
        self.refusals
            .iter()
            .chain(&self.faults)
            .all(|(_, n)| *n > 0)
    }

    pub fn print(&self) {
        println!("{} files, {} lines", self.files, self.lines);
        for (what, counts) in [("refusal", &self.refusals), ("fault", &self.faults)] {
            for (name, n) in counts {
                println!("{what} {name}: {n}");
            }
        }
    }
}
