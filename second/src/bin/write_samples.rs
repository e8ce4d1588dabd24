//! Writes the stored traces, listings and logs: `write_samples EXAMPLES CRATES
//! PROGRAMS`, three folders.

use std::path::Path;
use std::{env, fs, io};

use second::samples::{crates, examples, programs, File};

fn write(folder: &str, files: Vec<File>) -> io::Result<()> {
    for (name, bytes) in files {
        let path = Path::new(folder).join(name);
        fs::create_dir_all(path.parent().expect("it is a file's"))?;
        fs::write(path, bytes)?;
    }
    Ok(())
}

fn main() -> io::Result<()> {
    let arguments: Vec<String> = env::args().skip(1).collect();
    let [example_folder, crate_folder, program_folder] = &arguments[..] else {
        return Err(io::Error::other("usage: write_samples EXAMPLES CRATES PROGRAMS"));
    };
    write(example_folder, examples())?;
    write(crate_folder, crates())?;
    write(program_folder, programs())
}
