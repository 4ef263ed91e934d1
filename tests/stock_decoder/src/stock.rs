//! The stock decoder: libjxl's program `djxl`.

use ma_learn::pgm;
use ma_learn::picture::Picture;
use std::error::Error;
use std::fs;
use std::path::PathBuf;
use std::process::Command;

/// Keeps its files in this folder.
pub struct Decoder {
    folder: PathBuf,
}

/// What came of a codestream.
pub enum Decoded {
    Picture(Picture),
    /// The line that says why there is none.
    Refused(String),
}

impl Decoder {
    pub fn new(folder: PathBuf) -> Self {
        Self { folder }
    }

    /// Fails if the decoder could not be asked.
    pub fn decode(&self, codestream: &[u8]) -> Result<Decoded, Box<dyn Error>> {
        let coded = self.folder.join("coded.jxl");
        let decoded = self.folder.join("decoded.pgm");
        fs::write(&coded, codestream)?;
        let ran = Command::new("djxl").arg(&coded).arg(&decoded).output()?;
        if !ran.status.success() {
            let said = String::from_utf8_lossy(&ran.stderr);
            return Ok(Decoded::Refused(reason(&said)));
        }
        let picture = pgm::read(&fs::read(&decoded)?)?;
        // The next picture must not be taken for this one.
        fs::remove_file(&decoded)?;
        Ok(Decoded::Picture(picture))
    }
}

/// The first line that tells of a failure, else the last line.
fn reason(said: &str) -> String {
    let first = said.lines().find(|line| line.contains("FAILURE"));
    first.or(said.lines().last()).unwrap_or_default().to_owned()
}

impl Decoded {
    /// In what it is not this picture, if it is not.
    pub fn difference(&self, picture: &Picture) -> Option<String> {
        let decoded = match self {
            Self::Picture(decoded) => decoded,
            Self::Refused(why) => return Some(format!("refused: {why}")),
        };
        let [got, due] = [decoded, picture].map(|it| (it.width(), it.height()));
        if got != due {
            return Some(format!("{got:?} pixels instead of {due:?}"));
        }
        let mut places = (0..due.1).flat_map(|y| (0..due.0).map(move |x| (x, y)));
        let (x, y) = places.find(|&(x, y)| decoded.at(x, y) != picture.at(x, y))?;
        let [got, due] = [decoded, picture].map(|it| it.at(x, y));
        Some(format!("pixel ({x}, {y}) is {got} instead of {due}"))
    }
}
