//! ask SURFACE SCRIPT: prints the answers to a script on a surface, as `hilldale run` does, and ends with its status.
use std::io::Write;
use std::process::ExitCode;
use std::{env, fs, io};

fn main() -> io::Result<ExitCode> {
    let names: Vec<String> = env::args().skip(1).collect();
    let [surface, script] = names.as_slice() else {
        return Ok(ExitCode::from(2));
    };
    let (status, text) = hilldale_sys::run(&fs::read(surface)?, &fs::read(script)?, hilldale_sys::TILE);
    io::stdout().write_all(&text)?;
    Ok(ExitCode::from(status as u8))
}
