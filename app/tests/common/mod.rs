//! What the end-to-end tests share: a folder of their own, the built program, and recordings in blocks.
#![allow(dead_code)]
use std::{
    fs,
    io::Write,
    path::PathBuf,
    process::{Command, Stdio},
};

pub const PROGRAM: &str = env!("CARGO_BIN_EXE_burrcradle");

/// The settings of the known answers.
pub const KNOWN: [&str; 6] = ["--n", "8", "--r", "1000", "--f", "50"];

/// The value that means "missing".
pub const MISSING: i32 = i32::MIN;

/// A folder for one test, empty at its start and gone at its end. It stands outside the checkout, in which `rt ci` takes no links.
pub struct Folder(pub PathBuf);

/// How a run of the program ended.
#[derive(Debug)]
pub struct Ran {
    pub status: i32,
    pub out: String,
    pub err: String,
}

impl Folder {
    pub fn new(name: &str) -> Folder {
        let path = std::env::temp_dir().join(format!("burrcradle-test-{name}-{}", std::process::id()));
        let _ = fs::remove_dir_all(&path);
        fs::create_dir_all(&path).unwrap();
        Folder(path)
    }

    pub fn path(&self, name: &str) -> PathBuf {
        self.0.join(name)
    }

    pub fn write(&self, name: &str, bytes: impl AsRef<[u8]>) {
        fs::write(self.path(name), bytes).unwrap();
    }

    pub fn read(&self, name: &str) -> String {
        fs::read_to_string(self.path(name)).unwrap()
    }

    pub fn command(&self, args: &[&str]) -> Command {
        let mut command = Command::new(PROGRAM);
        command.args(args).current_dir(&self.0);
        command
    }

    pub fn run(&self, args: &[&str]) -> Ran {
        self.run_with(args, b"")
    }

    pub fn run_with(&self, args: &[&str], input: &[u8]) -> Ran {
        let mut command = self.command(args);
        let mut child = command.stdin(Stdio::piped()).stdout(Stdio::piped()).stderr(Stdio::piped()).spawn().unwrap();
        let mut stdin = child.stdin.take().unwrap();
        // A program that never reads its input closes the pipe: that is no fault of the test.
        let _ = stdin.write_all(input);
        drop(stdin);
        let ended = child.wait_with_output().unwrap();
        let text = |bytes| String::from_utf8(bytes).unwrap();
        Ran { status: ended.status.code().unwrap(), out: text(ended.stdout), err: text(ended.stderr) }
    }

    /// Runs what must be accepted, and hands back what it says.
    pub fn accepted(&self, args: &[&str]) -> String {
        let ran = self.run(args);
        assert_eq!(ran.status, 0, "{args:?}: {ran:?}");
        ran.out
    }

    /// Runs what must be refused, with that number and place.
    pub fn refused(&self, args: &[&str], number: u64, place: u64) -> Ran {
        let ran = self.run(args);
        assert_eq!(ran.status, 1, "{args:?}: {ran:?}");
        assert!(ran.err.contains(&format!("refusal {number}, place {place}: ")), "{args:?}: {ran:?}");
        ran
    }

    /// Runs what must end with status 2 and these words.
    pub fn bad(&self, args: &[&str], words: &str) -> Ran {
        let ran = self.run(args);
        assert_eq!(ran.status, 2, "{args:?}: {ran:?}");
        assert!(ran.err.contains(words), "{args:?}: wanted {words:?}: {ran:?}");
        assert!(ran.out.is_empty(), "{args:?}: {ran:?}");
        ran
    }

    /// Makes a site for the known answers.
    pub fn site(&self, name: &str) {
        self.accepted(&[&["new", name][..], &KNOWN].concat());
    }

    /// A number of a site's table, as `show` tells it.
    pub fn counted(&self, site: &str, name: &str) -> u64 {
        let told = self.accepted(&["show", site, "--csv"]);
        let line = told.lines().find_map(|line| line.strip_prefix(&format!("{name},")));
        line.unwrap_or_else(|| panic!("no {name} in {told}")).parse().unwrap()
    }

    /// The events of a recording: their eleven numbers, reason and cell; severity and energy as they are written.
    pub fn events(&self, file: &str, more: &[&str]) -> Vec<(Vec<u64>, String)> {
        listed(&self.accepted(&[&["list", file, "--csv"][..], &KNOWN, more].concat()))
    }
}

impl Drop for Folder {
    /// What a failed test has left stays, to be looked at.
    fn drop(&mut self) {
        if !std::thread::panicking() {
            let _ = fs::remove_dir_all(&self.0);
        }
    }
}

/// An event's eleven numbers, in the order of the rules.
#[rustfmt::skip]
pub const EVENT: [&str; 11] = [
    "kind", "start", "end", "seen", "extreme", "retained", "shortfall", "type", "shortfall_a", "shortfall_b", "shortfall_c",
];

/// The events of a list in CSV; the rows of recordings without events are left out.
pub fn listed(csv: &str) -> Vec<(Vec<u64>, String)> {
    let event = |row: Row| {
        let numbers = EVENT.iter().chain(&["reason", "cell"]).map(|name| row.number(name)).collect();
        (numbers, format!("{} {}", row.field("severity"), row.field("energy")))
    };
    rows(csv).into_iter().filter(|row| row.field("kind") != "0").map(event).collect()
}

/// A row of a CSV with a head, none of whose fields is quoted.
pub struct Row {
    head: Vec<String>,
    fields: Vec<String>,
}

impl Row {
    pub fn field(&self, name: &str) -> &str {
        &self.fields[self.head.iter().position(|n| n == name).unwrap_or_else(|| panic!("no {name}"))]
    }

    /// Whether it has a field for each name of the head.
    pub fn whole(&self) -> bool {
        self.fields.len() == self.head.len()
    }

    pub fn number(&self, name: &str) -> u64 {
        self.field(name).parse().unwrap_or_else(|_| panic!("{name}: {:?}", self.fields))
    }
}

pub fn rows(csv: &str) -> Vec<Row> {
    let fields = |line: &str| line.split(',').map(String::from).collect::<Vec<_>>();
    let mut lines = csv.lines();
    let head = fields(lines.next().unwrap());
    lines.map(|line| Row { head: head.clone(), fields: fields(line) }).collect()
}

/// Each of the sentences stands in what was told.
pub fn says(told: &str, sentences: &[&str]) {
    for words in sentences {
        assert!(told.contains(words), "{words}: {told}");
    }
}

/// Blocks of four equal samples, the channels equal: half a cycle each at N 8.
pub fn blocks(levels: &[i32]) -> Vec<i32> {
    levels.iter().flat_map(|level| [*level; 12]).collect()
}

/// A recording as CSV, with a header; a missing sample is an empty field.
pub fn csv(samples: &[i32]) -> String {
    let field = |sample: &i32| if *sample == MISSING { String::new() } else { sample.to_string() };
    let line = |three: &[i32]| three.iter().map(field).collect::<Vec<_>>().join(",") + "\n";
    "a,b,c\n".to_string() + &samples.chunks(3).map(line).collect::<String>()
}

/// A recording as raw samples.
pub fn raw(samples: &[i32]) -> Vec<u8> {
    samples.iter().flat_map(|sample| sample.to_le_bytes()).collect()
}

/// Six blocks with a sag to half the voltage in the middle.
pub fn k2() -> Vec<i32> {
    blocks(&[1000, 1000, 500, 500, 1000, 1000])
}

/// Blocks of four equal samples, each channel at a level of its own.
pub fn levels(levels: &[[i32; 3]]) -> Vec<i32> {
    levels.iter().flat_map(|three| [*three; 4]).flatten().collect()
}

/// Six blocks with the channels at these levels in the two of the middle, and at 1000 before and after.
pub fn dip(low: [i32; 3]) -> Vec<i32> {
    levels(&[[1000; 3], [1000; 3], low, low, [1000; 3], [1000; 3]])
}
