//! The command line: what a command takes, and what it was given.
use crate::{
    answered::{
        grid::{self, GRIDS},
        table::{set, settings, SETTINGS},
    },
    failure::Failure,
    keeping::site,
};
use host::{Settings, Table};
use std::{
    ffi::{OsStr, OsString},
    os::unix::ffi::OsStrExt,
    path::Path,
};

/// What a command takes.
pub struct Takes {
    /// How the files are called where one is wanting, in order; the last may come more than once where `many` says so.
    pub files: &'static [&'static str],
    pub many: bool,
    /// Whether it takes the seven settings, each an option with a value.
    pub settings: bool,
    /// Other options that want a value.
    pub values: &'static [&'static str],
    /// Options that stand alone.
    pub flags: &'static [&'static str],
}

/// How answers are laid out.
#[derive(Clone, Copy, PartialEq)]
pub enum Format {
    Text,
    Json,
    Csv,
}

/// What a command was given.
pub struct Args {
    pub files: Vec<OsString>,
    values: Vec<(String, OsString)>,
    flags: Vec<String>,
}

fn is_setting(option: &str) -> bool {
    option.strip_prefix("--").is_some_and(|name| SETTINGS.contains(&name))
}

/// Bad usage, and why.
pub fn usage<T>(why: String) -> Result<T, Failure> {
    Err(Failure::Usage(why))
}

impl Args {
    pub fn parse(given: &[OsString], takes: &Takes) -> Result<Args, Failure> {
        let mut args = Args { files: Vec::new(), values: Vec::new(), flags: Vec::new() };
        let (mut given, mut open) = (given.iter(), true);
        while let Some(word) = given.next() {
            let text = word.to_string_lossy();
            if !open || text == "-" || !text.starts_with('-') {
                args.files.push(word.clone());
            } else if text == "--" {
                open = false;
            } else {
                // The value may be the name of a file, which need not be text.
                let mut parts = word.as_bytes().splitn(2, |byte| *byte == b'=');
                let name = String::from_utf8_lossy(parts.next().unwrap_or_default()).into_owned();
                let joined = parts.next().map(|value| OsStr::from_bytes(value).to_os_string());
                args.option(name, joined, &mut given, takes)?;
            }
        }
        args.check(takes)?;
        Ok(args)
    }

    fn option<'a>(
        &mut self,
        name: String,
        joined: Option<OsString>,
        rest: &mut impl Iterator<Item = &'a OsString>,
        takes: &Takes,
    ) -> Result<(), Failure> {
        if self.flag(&name) || self.value(&name).is_some() {
            return usage(format!("{name} is given twice"));
        }
        if takes.flags.contains(&name.as_str()) {
            if joined.is_some() {
                return usage(format!("{name} takes no value"));
            }
            self.flags.push(name);
        } else if takes.values.contains(&name.as_str()) || takes.settings && is_setting(&name) {
            match joined.or_else(|| rest.next().cloned()) {
                Some(value) => self.values.push((name, value)),
                None => return usage(format!("{name} wants a value")),
            }
        } else {
            return usage(format!("{name} is no option of this command"));
        }
        Ok(())
    }

    fn check(&self, takes: &Takes) -> Result<(), Failure> {
        if let Some(wanting) = takes.files.get(self.files.len()) {
            return usage(format!("{wanting} is wanting"));
        }
        if self.files.len() > takes.files.len() && !takes.many {
            return usage(format!("{:?} is one file too many", self.files[takes.files.len()]));
        }
        if takes.files.first() == Some(&"SITE") && self.files[0] == "-"
            || self.value("--site").is_some_and(|s| s == "-")
        {
            return usage("a site is a file, and standard input (-) is none".into());
        }
        if self.files.iter().filter(|file| *file == "-").count() > 1 {
            return usage("standard input (-) can be read only once".into());
        }
        Ok(())
    }

    pub fn flag(&self, name: &str) -> bool {
        self.flags.iter().any(|flag| flag == name)
    }

    pub fn value(&self, name: &str) -> Option<&OsStr> {
        self.values.iter().find(|(given, _)| given == name).map(|(_, value)| value.as_os_str())
    }

    /// A whole number, where it is given.
    pub fn whole(&self, name: &str) -> Result<Option<u64>, Failure> {
        let Some(value) = self.value(name) else { return Ok(None) };
        match value.to_str().and_then(|digits| digits.parse().ok()) {
            Some(number) => Ok(Some(number)),
            None => usage(format!("{name} wants a whole number, and {value:?} is none")),
        }
    }

    pub fn format(&self) -> Result<Format, Failure> {
        match (self.flag("--json"), self.flag("--csv")) {
            (true, true) => usage("--json and --csv exclude each other".into()),
            (true, false) => Ok(Format::Json),
            (false, true) => Ok(Format::Csv),
            (false, false) => Ok(Format::Text),
        }
    }

    /// The table of the site, where one is named; a site and settings or borders of one's own exclude each other.
    pub fn site(&self) -> Result<Option<Table>, Failure> {
        let own = self.values.iter().any(|(name, _)| is_setting(name));
        match self.value("--site") {
            Some(_) if own => {
                usage("--site has its settings already: leave out --n, --r, --f and the thresholds".into())
            }
            Some(_) if self.value("--borders").is_some() => {
                usage("--site has its borders already: leave out --borders".into())
            }
            Some(path) => site::load(Path::new(path)).map(Some),
            None => Ok(None),
        }
    }

    /// The settings and the set of borders, of the site or of the options.
    pub fn terms(&self) -> Result<(Settings, u64), Failure> {
        match self.site()? {
            Some(table) => Ok((settings(&table), set(&table))),
            None => Ok((self.settings()?, self.borders()?)),
        }
    }

    /// The set of borders that the options name.
    pub fn borders(&self) -> Result<u64, Failure> {
        let Some(value) = self.value("--borders") else { return Ok(grid::FIRST) };
        match value.to_str().and_then(grid::named) {
            Some(set) => Ok(set),
            None => {
                let words: Vec<&str> = GRIDS.iter().map(|grid| grid.word).collect();
                usage(format!("--borders wants {}, and {value:?} is none of these", words.join(" or ")))
            }
        }
    }

    /// The settings of the options. Whether they are allowed is for the library to say.
    pub fn settings(&self) -> Result<Settings, Failure> {
        let wanted = |name: &str| match self.whole(name)? {
            Some(number) => Ok(number),
            None => usage(format!("{name} is wanting: --n, --r and --f say how the recorder samples")),
        };
        let usual = |name: &str, usual: u64| Ok::<u64, Failure>(self.whole(name)?.unwrap_or(usual));
        Ok(Settings {
            n: wanted("--n")?,
            r: wanted("--r")?,
            f: wanted("--f")?,
            sag: usual("--sag", 90)?,
            interruption: usual("--interruption", 10)?,
            swell: usual("--swell", 110)?,
            hysteresis: usual("--hysteresis", 2)?,
        })
    }
}
