//! A sender's retry: ask the table, then stop, send, or call someone. There is no fourth way. A name that is charted in a damaged file is not sent, and
//! someone is called.
//!
//!     cargo run --offline --example sender -- ../examples/night refs/sent/ward4/o118/e3
use packed_refs::{Asked, Escaped, IdKind, Opener};
use std::os::unix::ffi::OsStringExt;
use std::process::ExitCode;

fn main() -> ExitCode {
    let mut args = std::env::args_os().skip(1);
    let (Some(path), Some(name), None) = (args.next(), args.next(), args.next()) else {
        eprintln!("usage: sender FILE NAME");
        return ExitCode::from(64);
    };
    // A file that can't be read is no answer, and neither is one that is not there or has lost all its bytes: where it should be is known, and a
    // table that was ever written to has bytes.
    let table = match Opener::new().open(IdKind::Sha1, &path) {
        Ok(table) => table,
        Err(error) => return call_someone(&error.to_string()),
    };
    let name = name.into_vec();
    match table.ask(&name) {
        Ok(Asked::Charted(record)) => {
            println!("stop: {} is charted as {}", Escaped(&name), Escaped(record.id));
            ExitCode::SUCCESS
        }
        Ok(Asked::ChartedInDamagedFile { record, fault }) => call_someone(&format!(
            "{} is charted as {}, but the table does not pass the check, and that record may be what the damage made: {fault}",
            Escaped(&name),
            Escaped(record.id)
        )),
        Ok(Asked::Absent) => {
            println!("send: {} is absent", Escaped(&name));
            ExitCode::from(1)
        }
        Err(error) => call_someone(&error.to_string()),
    }
}

fn call_someone(why: &str) -> ExitCode {
    eprintln!("call someone, and do not send: {why}");
    ExitCode::from(2)
}
