//! Opens a session of a system document, and answers the lines of the standard input.
//!
//!     cargo run --example talk -- SYSTEM [PART ..] <SESSION
use roman::{Session, Shelf, QUIT};
use std::{env, error::Error, fs, io};

fn main() -> Result<(), Box<dyn Error>> {
    let paths: Vec<String> = env::args().skip(1).collect();
    let mut shelf = Shelf::new();
    for path in &paths {
        shelf.add(path, &fs::read(path)?)?;
    }
    let mut session = Session::open(&mut shelf, paths.first().ok_or("name a system document")?)?;
    for line in io::stdin().lines() {
        let (status, reply) = session.answer(&line?)?;
        print!("{reply}");
        if status == QUIT {
            break;
        }
    }
    Ok(())
}
