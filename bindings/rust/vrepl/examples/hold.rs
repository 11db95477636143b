//! Holds the rows of an engine's targets to the shards that they have to be in.
//!
//! usage: hold FILE, whose lines have a shard, a tab and the number of a row's sharding column, which is under `numeric`.

use std::process::ExitCode;
use vrepl::{vindex_id, KeyRange, Refused};

/// Where the first row stands that isn't in its shard, from 1, with what is wrong.
fn first_wrong(rows: &str) -> Result<Option<String>, Refused> {
    for (place, line) in rows.lines().enumerate() {
        let (shard, value) = line.split_once('\t').unwrap_or((line, ""));
        let id = vindex_id("numeric", Some(value.as_bytes()))?;
        if !KeyRange::parse(shard)?.holds(&id)? {
            let digits: String = id.iter().map(|byte| format!("{byte:02x}")).collect();
            return Ok(Some(format!("row {} is in shard {shard}, and its id {digits} isn't", place + 1)));
        }
    }
    Ok(None)
}

fn main() -> ExitCode {
    let file = std::env::args().nth(1).expect("usage: hold FILE");
    let rows = std::fs::read_to_string(file).expect("the file is read");
    match first_wrong(&rows) {
        Ok(None) => {
            println!("{} rows are in their shards", rows.lines().count());
            ExitCode::SUCCESS
        }
        Ok(Some(wrong)) => {
            println!("{wrong}");
            ExitCode::FAILURE
        }
        Err(refused) => {
            eprintln!("{refused}");
            ExitCode::FAILURE
        }
    }
}
