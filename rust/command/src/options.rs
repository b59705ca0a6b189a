//! The arguments.
use crate::stop::Stop;
use crate::times;
use lexopt::{Arg, Parser};
use std::ffi::OsString;

/// What `--help` shows.
pub const HELP: &str = "\
doorquill: the waveforms of the VHDL simulator GHDL, from a .ghw file to an answer

  doorquill signals FILE [PATTERN]
      the signals by name: direction, type, width and reference. PATTERN is a part
      of the name, or the whole of it with * and ?
  doorquill events FILE [--signal PATH]... [--from T] [--to T] [--raw]
      every value that the signals take, a line each. --raw: as the proved reading
      gives them, before the time rule, by reference and in hex
  doorquill fragments FILE --session PATH --strobe PATH --close PATH [--at T] [--as-bits]
      which session each fragment belongs to: a line for each rise of the strobe,
      and the balance. --at T: of the fragment at that time alone, in a sentence.
      --as-bits: takes std_logic lines, 1 and H as 1, 0 and L as 0
  doorquill check FILE
      reads everything and says what is wrong and where, or the figures of the file
  doorquill explain [NUMBER]
      what a refusal's number means and what to do about it

Options
  --json       results for a script: a JSON object to the line, times in femtoseconds
  --salvage    reads a file that a killed simulation left, up to its last whole step
  --reals=rust reads the reals of a big-endian file as wellen does, little-endian
  --timings    says on standard error what each part of the work took
  --help, --version

Times are written 25ns, '25 ns' or 1.5us; a plain number counts femtoseconds. Names
are as `doorquill signals` lists them: rbc.lane(3).s_frag. Values are shown as VHDL
writes them: 0 1 X Z H U W L - for std_logic, a letter for each bit of its vectors;
bit vectors in hex, x\"05f\"; enumerations by name.

Results go to standard output, everything else to standard error. The exit status is
0 done, 1 refused, 2 usage or a file that cannot be read.

A first use:  doorquill signals rbc.ghw
              doorquill fragments rbc.ghw --session rbc.s_bv --strobe rbc.s_frag --close rbc.s_close
";

/// What is asked for.
#[derive(Clone, Copy, Debug, PartialEq, Eq)]
pub enum Which {
    Help,
    Version,
    Signals,
    Events,
    Fragments,
    Check,
    Explain,
}

/// All that can be said by arguments.
#[derive(Debug)]
pub struct Options {
    pub which: Which,
    pub file: OsString,
    pub pattern: Option<String>,
    pub number: Option<u8>,
    pub signals: Vec<String>,
    pub session: String,
    pub strobe: String,
    pub close: String,
    pub from: Option<u64>,
    pub to: Option<u64>,
    pub at: Option<u64>,
    pub raw: bool,
    pub as_bits: bool,
    pub json: bool,
    pub salvage: bool,
    /// Reals are little-endian whatever the header says, as wellen reads them.
    pub wellen_reals: bool,
    pub timings: bool,
}

/// The options of each subcommand, besides `--timings`.
fn allowed(which: Which) -> &'static [&'static str] {
    match which {
        Which::Signals => &["json"],
        Which::Events => &["signal", "from", "to", "raw", "json", "salvage", "reals"],
        Which::Fragments => &["session", "strobe", "close", "at", "as-bits", "json", "salvage", "reals"],
        Which::Check => &["json", "salvage", "reals"],
        Which::Explain => &["json"],
        Which::Help | Which::Version => &[],
    }
}

/// Reads the arguments, without the program's name.
pub fn parse(args: Vec<OsString>) -> Result<Options, Stop> {
    let usage = |text: String| Stop::Usage(text);
    let mut given = Given::default();
    let mut parser = Parser::from_args(args);
    loop {
        let long = match parser.next().map_err(|e| usage(e.to_string()))? {
            None => break,
            Some(Arg::Value(word)) => {
                given.words.push(word);
                continue;
            }
            Some(Arg::Short('h')) => "help".to_string(),
            Some(Arg::Short('V')) => "version".to_string(),
            Some(Arg::Short(other)) => return Err(usage(format!("there is no option -{other}"))),
            Some(Arg::Long(name)) => name.to_string(),
        };
        let value = match long.as_str() {
            "signal" | "session" | "strobe" | "close" | "from" | "to" | "at" | "reals" => {
                let value = parser.value().map_err(|e| usage(e.to_string()))?;
                value.into_string().map_err(|v| usage(format!("--{long} {v:?} is no text in UTF-8")))?
            }
            "raw" | "as-bits" | "json" | "salvage" | "timings" | "help" | "version" => String::new(),
            _ => return Err(usage(format!("there is no option --{long}"))),
        };
        if long != "signal" && given.options.iter().any(|(name, _)| *name == long) {
            return Err(usage(format!("--{long} is given twice")));
        }
        given.options.push((long, value));
    }
    given.options()
}

/// Words and options as they were found.
#[derive(Default)]
struct Given {
    words: Vec<OsString>,
    options: Vec<(String, String)>,
}

impl Given {
    fn has(&self, name: &str) -> bool {
        self.options.iter().any(|(given, _)| given == name)
    }

    fn value(&self, name: &str) -> Option<&String> {
        self.options.iter().find(|(given, _)| given == name).map(|(_, value)| value)
    }

    fn time(&self, name: &str) -> Result<Option<u64>, Stop> {
        let parse = |text: &String| times::parse(text).map_err(|e| Stop::Usage(format!("--{name}: {e}")));
        self.value(name).map(parse).transpose()
    }

    fn wellen_reals(&self) -> Result<bool, Stop> {
        match self.value("reals").map(String::as_str) {
            None | Some("flag") => Ok(false),
            Some("rust") => Ok(true),
            Some(other) => Err(Stop::Usage(format!("--reals={other}: say rust or flag"))),
        }
    }

    fn which(&self) -> Result<Which, Stop> {
        if self.has("help") {
            return Ok(Which::Help);
        }
        if self.has("version") {
            return Ok(Which::Version);
        }
        match self.words.first().map(|word| word.to_string_lossy()).as_deref() {
            Some("signals") => Ok(Which::Signals),
            Some("events") => Ok(Which::Events),
            Some("fragments") => Ok(Which::Fragments),
            Some("check") => Ok(Which::Check),
            Some("explain") => Ok(Which::Explain),
            Some("help") => Ok(Which::Help),
            Some(other) => Err(Stop::Usage(format!("'{other}' is none of signals, events, fragments, check, explain"))),
            None => Err(Stop::Usage("say what to do: signals, events, fragments, check or explain".into())),
        }
    }

    fn options(self) -> Result<Options, Stop> {
        let usage = |text: String| Err(Stop::Usage(text));
        let which = self.which()?;
        let help = matches!(which, Which::Help | Which::Version);
        let stray = self.options.iter().find(|(name, _)| name != "timings" && !allowed(which).contains(&name.as_str()));
        if let (Some((name, _)), false) = (stray, help) {
            return usage(format!("'{}' has no option --{name}", self.words[0].to_string_lossy()));
        }
        let mut words = self.words.iter().skip(1);
        let mut options = Options {
            which,
            file: OsString::new(),
            pattern: None,
            number: None,
            signals: self.options.iter().filter(|(name, _)| name == "signal").map(|(_, path)| path.clone()).collect(),
            session: String::new(),
            strobe: String::new(),
            close: String::new(),
            from: self.time("from")?,
            to: self.time("to")?,
            at: self.time("at")?,
            raw: self.has("raw"),
            as_bits: self.has("as-bits"),
            json: self.has("json"),
            salvage: self.has("salvage"),
            wellen_reals: self.wellen_reals()?,
            timings: self.has("timings"),
        };
        if help {
            return Ok(options);
        }
        if which == Which::Explain {
            if let Some(word) = words.next() {
                let number = word.to_str().and_then(|text| text.parse().ok());
                if number.is_none() {
                    return usage(format!("{word:?} is no refusal's number"));
                }
                options.number = number;
            }
        } else {
            match words.next() {
                Some(file) => options.file = file.clone(),
                None => return usage("name a .ghw file".into()),
            }
        }
        if which == Which::Signals {
            options.pattern = words.next().map(|word| word.to_string_lossy().into_owned());
        }
        if let Some(word) = words.next() {
            return usage(format!("{word:?} is one word too many (a time with a space wants quotes: '25 ns')"));
        }
        if which == Which::Fragments {
            for (name, path) in
                [("session", &mut options.session), ("strobe", &mut options.strobe), ("close", &mut options.close)]
            {
                match self.value(name) {
                    Some(value) => *path = value.clone(),
                    None => {
                        return usage(format!("fragments wants --{name} PATH (doorquill signals FILE lists the paths)"))
                    }
                }
            }
        }
        if let (Some(from), Some(to)) = (options.from, options.to) {
            if from > to {
                return usage(format!("--from {} is after --to {}", times::text(from), times::text(to)));
            }
        }
        if options.raw && options.json {
            return usage("--raw and --json: choose one".into());
        }
        Ok(options)
    }
}
