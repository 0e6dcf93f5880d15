//! Writes a sample of the Rust's answers into one file, which a program replays with no Rust at
//! hand. The same seed gives the same file.
//!
//! The file, all numbers little-endian, nothing between the fields:
//!
//! | Field | Bytes |
//! |---|---|
//! | how many records | 4 |
//! | the records, one after the other | |
//!
//! A record:
//!
//! | Field | Bytes |
//! |---|---|
//! | L, then the target | 4, L |
//! | kind | 4 |
//! | length of the exon table in bytes, then the table | 4, that many |
//! | CDS start, CDS end (signed, -1 is absent) | 8, 8 |
//! | range start, range end (signed) | 4, 4 |
//! | edit | 4 |
//! | length of the alternative, then the alternative | 4, that many |
//! | direction | 4 |
//! | window | 4 |
//! | expected: refusal, class, start, end, probes | 4, 4, 4, 4, 4 |
//! | length of the reference allele, then the allele | 4, that many |
//! | length of the alternative allele, then the allele | 4, that many |
//!
//! Refusal, class, range and alleles are the Rust's own wherever it can be asked; refusals of rows
//! that the Rust has not, and the probes, which it does not count, are the model's. Both answer
//! buffers have 1,025 bytes, so row 9 is not in the file. The program that replays the file takes at
//! most 524,288 bytes.

mod file;
mod sample;

use oracle::Oracle;
use std::path::PathBuf;
use std::process::ExitCode;

const USAGE: &str = "give a file to write and a seed, as in `record answers.bin 1`";

fn main() -> ExitCode {
    match write_sample() {
        Ok(told) => {
            println!("{told}");
            ExitCode::SUCCESS
        }
        Err(sentence) => {
            eprintln!("record: {sentence}");
            ExitCode::from(2)
        }
    }
}

fn write_sample() -> Result<String, String> {
    let given: Vec<String> = std::env::args().skip(1).collect();
    let [path, seed] = &given[..] else {
        return Err(USAGE.to_string());
    };
    let seed = seed.parse().map_err(|_| USAGE.to_string())?;
    let path = PathBuf::from(path);
    let mut oracle = Oracle::new().ok_or(oracle::NOT_AT_HAND)?;
    let records = sample::take(seed, &mut oracle)?;
    let bytes = file::bytes(&records);
    std::fs::write(&path, &bytes)
        .map_err(|e| format!("{} was not written: {e}", path.display()))?;
    Ok(format!("{} records, {} bytes", records.len(), bytes.len()))
}
