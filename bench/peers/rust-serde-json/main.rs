//! From a text to deterministic bytes by what one would pick in Rust: `serde_json` read into `serde_cbor`'s `Value`.
use serde::Deserialize;
use std::io::{Read, Write};

fn run() -> Result<(), Box<dyn std::error::Error>> {
    let mut data = Vec::new();
    std::io::stdin().read_to_end(&mut data)?;
    let mut reader = serde_json::Deserializer::from_slice(&data);
    let value = serde_cbor::Value::deserialize(&mut reader)?;
    reader.end()?;
    let mut out = std::io::BufWriter::with_capacity(1 << 20, std::io::stdout().lock());
    serde_cbor::to_writer(&mut out, &value)?;
    out.flush()?;
    Ok(())
}

fn main() {
    if let Err(fault) = run() {
        eprintln!("{fault}");
        std::process::exit(2);
    }
}
