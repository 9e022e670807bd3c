//! `serde_cbor`: its `Value`, in which a map is a `BTreeMap` in the bytewise order. It has no other order.
#[path = "../modes.rs"]
mod modes;

use modes::{Fault, Library};
use std::io::Write;

struct SerdeCbor;

impl Library for SerdeCbor {
    fn normalise<W: Write>(data: &[u8], length_first: bool, out: &mut W) -> Result<(), Fault> {
        if length_first {
            return Err("there is no such order".into());
        }
        for value in serde_cbor::Deserializer::from_slice(data).into_iter::<serde_cbor::Value>() {
            serde_cbor::to_writer(&mut *out, &value?)?;
        }
        Ok(())
    }
}

fn main() {
    modes::run::<SerdeCbor>();
}
