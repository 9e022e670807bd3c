//! What a call of the crate costs, and of serde_cbor's Value: nanoseconds, the best of some rounds.
use std::{collections::BTreeMap, hint::black_box, time::Instant};

fn timed(name: &str, length: usize, mut call: impl FnMut()) {
    // short rounds, which a machine that is shared disturbs least
    let rounds = 1 + 10_000 / (length + 100);
    let mut best = f64::MAX;
    for _ in 0..2000 {
        let start = Instant::now();
        (0..rounds).for_each(|_| call());
        best = best.min(start.elapsed().as_secs_f64() * 1e9 / rounds as f64);
    }
    println!("Rust|{name}|{length}|{best:.0}");
}

fn main() {
    // a map of Values is a BTreeMap, so serde_cbor writes its keys in order
    let _: Option<BTreeMap<serde_cbor::Value, serde_cbor::Value>> = None;
    for name in std::env::args().skip(1) {
        let data = std::fs::read(name).unwrap();
        timed("normalise", data.len(), || {
            black_box(cborn::normalise(black_box(&data), cborn::Options::default()).unwrap());
        });
        timed("check", data.len(), || {
            black_box(cborn::check(black_box(&data), cborn::Order::Bytewise, cborn::Depth::default()).unwrap());
        });
        timed("same", data.len(), || {
            let kind = cborn::Kind::Wire;
            black_box(cborn::same(black_box(&data), kind, &data, kind, cborn::Depth::default()).unwrap());
        });
        timed("serde_cbor: to_vec(from_slice::<Value>())", data.len(), || {
            let value: serde_cbor::Value = serde_cbor::from_slice(black_box(&data)).unwrap();
            black_box(serde_cbor::to_vec(&value).unwrap());
        });
    }
}
