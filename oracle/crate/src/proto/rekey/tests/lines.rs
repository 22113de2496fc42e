//! Reading and writing lines of single-spaced decimal fields.
use std::fmt::Write as _;
use std::io::{BufRead, Write};

/// The fields of one line, read from the front. A line that does not read
/// is a mistake of the caller: the program stops and shows it.
pub(crate) struct Fields<'a> {
    line: &'a str,
    rest: std::str::Split<'a, char>,
}

impl<'a> Fields<'a> {
    pub(crate) fn new(line: &'a str) -> Self {
        Self { line, rest: line.split(' ') }
    }

    pub(crate) fn bad(&self, why: &str) -> ! {
        eprintln!("{why}: {}", self.line);
        std::process::exit(2);
    }

    pub(crate) fn word(&mut self) -> &'a str {
        match self.rest.next() {
            Some(w) if !w.is_empty() => w,
            _ => self.bad("a field is missing"),
        }
    }

    /// A number of any width.
    pub(crate) fn num<T: std::str::FromStr>(&mut self) -> T {
        let w = self.word();
        match w.parse() {
            Ok(n) => n,
            Err(_) => self.bad(&format!("{w:?} is not a number that fits")),
        }
    }

    /// A number, or `-`.
    pub(crate) fn opt<T: std::str::FromStr>(&mut self) -> Option<T> {
        let mut ahead = self.rest.clone();
        if ahead.next() == Some("-") {
            self.rest = ahead;
            return None;
        }
        Some(self.num())
    }

    pub(crate) fn flag(&mut self) -> bool {
        match self.word() {
            "0" => false,
            "1" => true,
            w => self.bad(&format!("{w:?} is not a flag")),
        }
    }

    pub(crate) fn end(&mut self) {
        if self.rest.next().is_some() {
            self.bad("too many fields");
        }
    }
}

/// ` N`, or ` -` for none.
pub(crate) fn put_opt<T: std::fmt::Display>(s: &mut String, v: Option<T>) {
    match v {
        Some(v) => _ = write!(s, " {v}"),
        None => s.push_str(" -"),
    }
}

/// Hand each line of standard input that is no answer to `each`, which
/// appends lines to what is written; none stands for the end of the input.
pub(crate) fn filter(mut each: impl FnMut(Option<&str>, &mut String)) {
    let stdin = std::io::stdin().lock();
    let mut stdout = std::io::BufWriter::new(std::io::stdout().lock());
    let mut text = String::new();
    for line in stdin.lines() {
        let line = line.expect("the input is text");
        if line.starts_with("= ") {
            continue;
        }
        each(Some(&line), &mut text);
        if text.len() > 1 << 16 {
            put(&mut stdout, &mut text);
        }
    }
    each(None, &mut text);
    put(&mut stdout, &mut text);
    finish(stdout);
}

/// Write `text` and empty it; a closed reader ends the program.
pub(crate) fn put(to: &mut impl Write, text: &mut String) {
    if to.write_all(text.as_bytes()).is_err() {
        std::process::exit(1);
    }
    text.clear();
}

pub(crate) fn finish(mut to: impl Write) {
    if to.flush().is_err() {
        std::process::exit(1);
    }
}

/// The arguments without `--fault NAME`, whose switch is turned on.
pub(crate) fn arguments() -> Vec<String> {
    let mut rest = Vec::new();
    let mut args = std::env::args().skip(1);
    while let Some(a) = args.next() {
        if a == "--fault" {
            let name = args.next().unwrap_or_default();
            if !super::super::faults::set(&name) {
                eprintln!("no fault is called {name:?}");
                std::process::exit(2);
            }
        } else if a == "--faults" {
            for name in super::super::faults::NAMES {
                println!("{name}");
            }
            std::process::exit(0);
        } else {
            rest.push(a);
        }
    }
    rest
}

/// The number in argument `i`.
pub(crate) fn number<T: std::str::FromStr>(args: &[String], i: usize) -> T {
    match args.get(i).and_then(|a| a.parse().ok()) {
        Some(n) => n,
        None => {
            eprintln!("argument {} is not a number", i + 1);
            std::process::exit(2);
        }
    }
}
