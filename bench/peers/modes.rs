//! What the drivers in Rust have in common: `normalise [ORDER]` and `check [ORDER]` of standard input,
//! and `compare ORDER FILE_A FILE_B`.
use std::io::{self, BufWriter, Read, Write};

pub type Fault = Box<dyn std::error::Error>;

/// A library's way from bytes to the deterministic encodings of what they hold.
pub trait Library {
    fn normalise<W: Write>(data: &[u8], length_first: bool, out: &mut W) -> Result<(), Fault>;
}

/// Takes what is written, and holds it against these bytes.
struct Beside<'a> {
    rest: &'a [u8],
    is_same: bool,
}

impl Write for Beside<'_> {
    fn write(&mut self, data: &[u8]) -> io::Result<usize> {
        match self.rest.strip_prefix(data) {
            Some(rest) => self.rest = rest,
            None => self.is_same = false,
        }
        Ok(data.len())
    }

    fn flush(&mut self) -> io::Result<()> {
        Ok(())
    }
}

/// Whether the encodings of what `data` holds are these bytes.
fn gives<L: Library>(data: &[u8], length_first: bool, bytes: &[u8]) -> Result<bool, Fault> {
    let mut out = BufWriter::with_capacity(1 << 16, Beside { rest: bytes, is_same: true });
    L::normalise(data, length_first, &mut out)?;
    out.flush()?;
    let beside = out.get_ref();
    Ok(beside.is_same && beside.rest.is_empty())
}

fn told(is_same: bool, yes: &str, no: &str) -> i32 {
    println!("{}", if is_same { yes } else { no });
    i32::from(!is_same)
}

fn answer<L: Library>(words: &[String]) -> Result<i32, Fault> {
    let length_first = words.get(2).map(String::as_str) == Some("length-first");
    if words.get(1).map(String::as_str) == Some("compare") {
        let mut first = Vec::new();
        L::normalise(&std::fs::read(&words[3])?, length_first, &mut first)?;
        let is_same = gives::<L>(&std::fs::read(&words[4])?, length_first, &first)?;
        return Ok(told(is_same, "same", "different"));
    }
    let mut data = Vec::new();
    io::stdin().read_to_end(&mut data)?;
    if words.get(1).map(String::as_str) == Some("check") {
        let is_same = gives::<L>(&data, length_first, &data)?;
        return Ok(told(is_same, "deterministic", "not deterministic"));
    }
    let mut out = BufWriter::with_capacity(1 << 20, io::stdout().lock());
    L::normalise(&data, length_first, &mut out)?;
    out.flush()?;
    Ok(0)
}

pub fn run<L: Library>() {
    let words: Vec<String> = std::env::args().collect();
    let status = answer::<L>(&words).unwrap_or_else(|fault| {
        eprintln!("{fault}");
        2
    });
    std::process::exit(status);
}
