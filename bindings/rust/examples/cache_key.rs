//! Prints the key of a cache for each query that is given, or why it has none.

use promql_proved::{Error, canonical};
use std::env;
use std::process::ExitCode;

fn main() -> ExitCode {
    let mut status = ExitCode::SUCCESS;
    for query in env::args().skip(1) {
        match canonical(&query) {
            Ok(key) => println!("{key}"),
            Err(error) => {
                eprintln!("{error}");
                if let Error::Rejected(rejection) = error {
                    eprintln!("{}", rejection.snippet(&query));
                }
                status = ExitCode::FAILURE;
            }
        }
    }
    status
}
