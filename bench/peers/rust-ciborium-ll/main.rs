//! What some 180 lines on `ciborium-ll` give: that library reads heads and writes the shortest ones;
//! joining, sorting, repeated keys and bignums are this driver's own. So it is a yardstick for speed
//! and a second opinion on bytes, and no product.
#[path = "../modes.rs"]
mod modes;

use ciborium_io::Read as _;
use ciborium_ll::{Decoder, Encoder, Header};
use modes::{Fault, Library};
use std::io::Write;

type Source<'a> = Decoder<&'a [u8]>;

const LIMIT: usize = 128;

fn words(fault: ciborium_ll::Error<std::io::Error>) -> Fault {
    match fault {
        ciborium_ll::Error::Syntax(place) => format!("offset {place}: syntax").into(),
        ciborium_ll::Error::Io(fault) => fault.into(),
    }
}

fn head(out: &mut Vec<u8>, header: Header) {
    Encoder::from(out).push(header).expect("a vector takes all");
}

/// One piece of a string, of `len` bytes.
fn piece(from: &mut Source, text: bool, len: usize, all: usize, whole: &mut Vec<u8>) -> Result<(), Fault> {
    if len > all - from.offset() {
        return Err("truncated string".into());
    }
    let start = whole.len();
    whole.resize(start + len, 0);
    from.read_exact(&mut whole[start..])?;
    if text {
        std::str::from_utf8(&whole[start..])?;
    }
    Ok(())
}

/// The bytes of a string behind its head, joined.
fn string(from: &mut Source, text: bool, len: Option<usize>, all: usize) -> Result<Vec<u8>, Fault> {
    let mut whole = Vec::new();
    if let Some(len) = len {
        piece(from, text, len, all, &mut whole)?;
        return Ok(whole);
    }
    loop {
        match from.pull().map_err(words)? {
            Header::Bytes(Some(len)) if !text => piece(from, text, len, all, &mut whole)?,
            Header::Text(Some(len)) if text => piece(from, text, len, all, &mut whole)?,
            Header::Break => return Ok(whole),
            _ => return Err(format!("offset {}: bad chunk", from.offset()).into()),
        }
    }
}

fn integer(out: &mut Vec<u8>, negative: bool, bytes: &[u8]) {
    let start = bytes.iter().position(|b| *b != 0).unwrap_or(bytes.len());
    let bytes = &bytes[start..];
    if bytes.len() <= 8 {
        let n = bytes.iter().fold(0u64, |n, b| n << 8 | u64::from(*b));
        head(out, if negative { Header::Negative(n) } else { Header::Positive(n) });
    } else {
        head(out, Header::Tag(2 + u64::from(negative)));
        head(out, Header::Bytes(Some(bytes.len())));
        out.extend_from_slice(bytes);
    }
}

struct Work {
    all: usize,
    length_first: bool,
}

impl Work {
    /// An array's items, whose head is still to be written where its length isn't known.
    fn array(&self, from: &mut Source, len: Option<usize>, depth: usize, out: &mut Vec<u8>) -> Result<(), Fault> {
        if let Some(len) = len {
            head(out, Header::Array(Some(len)));
            for _ in 0..len {
                self.must(from, depth, out)?;
            }
            return Ok(());
        }
        let (mut body, mut len) = (Vec::new(), 0);
        while self.item(from, depth, &mut body)? {
            len += 1;
        }
        head(out, Header::Array(Some(len)));
        out.extend_from_slice(&body);
        Ok(())
    }

    /// A map, its pairs in order.
    fn map(&self, from: &mut Source, len: Option<usize>, depth: usize, out: &mut Vec<u8>) -> Result<(), Fault> {
        let (mut body, mut pairs) = (Vec::new(), Vec::new());
        while len.map_or(true, |len| pairs.len() < len) {
            let start = body.len();
            if !self.item(from, depth, &mut body)? {
                if len.is_some() {
                    return Err("unexpected break".into());
                }
                break;
            }
            let middle = body.len();
            self.must(from, depth, &mut body)?;
            pairs.push((start, middle, body.len()));
        }
        let key = |pair: &(usize, usize, usize)| &body[pair.0..pair.1];
        if self.length_first {
            pairs.sort_by(|a, b| (key(a).len(), key(a)).cmp(&(key(b).len(), key(b))));
        } else {
            pairs.sort_by(|a, b| key(a).cmp(key(b)));
        }
        if pairs.windows(2).any(|two| key(&two[0]) == key(&two[1])) {
            return Err("duplicate key".into());
        }
        head(out, Header::Map(Some(pairs.len())));
        for pair in &pairs {
            out.extend_from_slice(&body[pair.0..pair.2]);
        }
        Ok(())
    }

    fn must(&self, from: &mut Source, depth: usize, out: &mut Vec<u8>) -> Result<(), Fault> {
        if self.item(from, depth, out)? {
            Ok(())
        } else {
            Err("unexpected break".into())
        }
    }

    /// One item's deterministic encoding onto `out`; false for a break.
    fn item(&self, from: &mut Source, depth: usize, out: &mut Vec<u8>) -> Result<bool, Fault> {
        let header = from.pull().map_err(words)?;
        let is_nested = matches!(header, Header::Array(_) | Header::Map(_) | Header::Tag(_));
        if is_nested && depth == LIMIT {
            return Err("too deep".into());
        }
        match header {
            Header::Positive(_) | Header::Negative(_) | Header::Simple(_) => head(out, header),
            Header::Float(_) => return Err("float".into()),
            Header::Break => return Ok(false),
            Header::Bytes(len) => {
                let bytes = string(from, false, len, self.all)?;
                head(out, Header::Bytes(Some(bytes.len())));
                out.extend_from_slice(&bytes);
            }
            Header::Text(len) => {
                let bytes = string(from, true, len, self.all)?;
                head(out, Header::Text(Some(bytes.len())));
                out.extend_from_slice(&bytes);
            }
            Header::Tag(tag @ 2..=3) => match from.pull().map_err(words)? {
                Header::Bytes(len) => integer(out, tag == 3, &string(from, false, len, self.all)?),
                _ => return Err("bad bignum".into()),
            },
            Header::Tag(_) => {
                head(out, header);
                self.must(from, depth + 1, out)?;
            }
            Header::Array(len) => self.array(from, len, depth + 1, out)?,
            Header::Map(len) => self.map(from, len, depth + 1, out)?,
        }
        Ok(true)
    }
}

struct CiboriumLl;

impl Library for CiboriumLl {
    fn normalise<W: Write>(data: &[u8], length_first: bool, out: &mut W) -> Result<(), Fault> {
        let work = Work { all: data.len(), length_first };
        let mut whole = Vec::with_capacity(data.len());
        let mut from = Decoder::from(data);
        while from.offset() < data.len() {
            work.must(&mut from, 0, &mut whole)?;
        }
        out.write_all(&whole)?;
        Ok(())
    }
}

fn main() {
    modes::run::<CiboriumLl>();
}
