//! Shows that a stock JPEG XL decoder takes the trees that the library writes: pictures that are sent with trees
//! learnt from them come back pixel for pixel, and with a fault in tree or contexts they are refused. Its argument is
//! a folder for files.

mod bits;
mod codes;
mod codestream;
mod faults;
mod pictures;
mod stock;
mod tree;

use faults::Fault;
use ma_learn::picture::Picture;
use std::error::Error;
use std::process::ExitCode;
use stock::{Decoded, Decoder};
use tree::Tree;

/// The leaf limits of the trees that are learnt from each picture.
const LIMITS: [u32; 5] = [1, 2, 16, 64, 256];
/// And of the bundled sheet's tree that faults are put in.
const LIMIT_WITH_FAULTS: u32 = 16;

fn main() -> ExitCode {
    let Some(folder) = std::env::args_os().nth(1) else {
        eprintln!("stock_decoder: a folder for files is due");
        return ExitCode::from(2);
    };
    let decoder = Decoder::new(folder.into());
    let mut tally = Tally::default();
    for (name, picture) in pictures::all() {
        try_limits(&decoder, &mut tally, name, &picture);
    }
    try_faults(&decoder, &mut tally);
    tally.end()
}

fn try_limits(decoder: &Decoder, tally: &mut Tally, name: &str, picture: &Picture) {
    for limit in LIMITS {
        let name = format!("{name}, limit {limit}");
        tally.say(&name, comes_back(decoder, picture, limit));
    }
}

fn try_faults(decoder: &Decoder, tally: &mut Tally) {
    for (name, fault, reason) in faults::ALL {
        tally.say(name, is_refused(decoder, fault, reason));
    }
}

/// Says what was sent, or in what the picture does not come back as it was.
fn comes_back(decoder: &Decoder, picture: &Picture, limit: u32) -> Result<String, Box<dyn Error>> {
    let tree = Tree::learn(picture, limit)?;
    let sent = tree.transmit(picture)?;
    let codestream = sent.codestream();
    if let Some(difference) = decoder.decode(&codestream)?.difference(picture) {
        return Err(difference.into());
    }
    let (leaves, depth, symbols) = (tree.leaves(), tree.depth(), sent.symbols.len());
    let bytes = codestream.len();
    Ok(format!(
        "leaves {leaves}, depth {depth}, symbols {symbols}, bytes {bytes}"
    ))
}

/// Says why the bundled sheet, which comes back without the fault, is refused with it; no other reason will do.
fn is_refused(decoder: &Decoder, fault: Fault, due: &str) -> Result<String, Box<dyn Error>> {
    let picture = pictures::digits();
    let tree = Tree::learn(&picture, LIMIT_WITH_FAULTS)?;
    let mut sent = tree.transmit(&picture)?;
    fault(&tree, &mut sent);
    let decoded = decoder.decode(&sent.codestream())?;
    if let Decoded::Refused(why) = &decoded
        && why.ends_with(&format!(": {due}"))
    {
        return Ok(format!("refused: {due}"));
    }
    let found = decoded.difference(&picture);
    let found = found.unwrap_or_else(|| "the same pixels".into());
    Err(format!("{found}, where '{due}' is due").into())
}

/// What was tried.
#[derive(Default)]
struct Tally {
    passed: u32,
    failed: u32,
}

impl Tally {
    fn say(&mut self, name: &str, result: Result<String, Box<dyn Error>>) {
        match result {
            Ok(said) => {
                self.passed += 1;
                println!("{name:33} {said}");
            }
            Err(why) => {
                self.failed += 1;
                println!("{name:33} FAILED {why}");
            }
        }
    }

    /// The last line, which a gate reads; the status says the same.
    fn end(&self) -> ExitCode {
        println!("{} passed, {} failed", self.passed, self.failed);
        ExitCode::from(u8::from(self.failed > 0))
    }
}
