//! The command `gighull`; what it does is in the library beside it.

use std::process::ExitCode;

fn main() -> ExitCode {
    gighull_cli::command::main()
}
