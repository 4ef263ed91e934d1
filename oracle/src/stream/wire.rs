//! Little-endian words, lists of them, and messages.

use std::fmt;
use std::io::{self, Read, Write};

/// A stream that is not one of jobs (or answers), with what is wrong.
#[derive(Debug)]
pub struct Damaged(pub String);

impl fmt::Display for Damaged {
    fn fmt(&self, f: &mut fmt::Formatter<'_>) -> fmt::Result {
        write!(f, "damaged stream: {}", self.0)
    }
}

impl From<io::Error> for Damaged {
    fn from(error: io::Error) -> Self {
        Self(error.to_string())
    }
}

pub type Result<T> = std::result::Result<T, Damaged>;

pub fn damaged<T>(what: impl Into<String>) -> Result<T> {
    Err(Damaged(what.into()))
}

/// A job or an answer as it travels.
pub struct Message {
    pub kind: u32,
    pub body: Vec<u8>,
}

/// The next message, or `None` where the stream ends between two.
pub fn read_message(input: &mut impl Read) -> Result<Option<Message>> {
    let mut head = Vec::with_capacity(8);
    input.by_ref().take(8).read_to_end(&mut head)?;
    if head.is_empty() {
        return Ok(None);
    }
    let mut words = Reader::new(&head);
    let kind = words.word()?;
    let length = words.word()?;
    let mut body = Vec::new();
    input.by_ref().take(length.into()).read_to_end(&mut body)?;
    if body.len() != length as usize {
        return damaged(format!(
            "a body of {length} bytes ends after {}",
            body.len()
        ));
    }
    Ok(Some(Message { kind, body }))
}

pub fn write_message(output: &mut impl Write, message: &Message) -> Result<()> {
    let Ok(length) = u32::try_from(message.body.len()) else {
        return damaged("a body of 2^32 bytes or more");
    };
    output.write_all(&message.kind.to_le_bytes())?;
    output.write_all(&length.to_le_bytes())?;
    output.write_all(&message.body)?;
    Ok(())
}

/// Something with a form on the wire.
pub trait Wire: Sized {
    /// The fewest bytes one can take: bounds what a list's length may claim.
    const SIZE: usize;

    fn read(from: &mut Reader<'_>) -> Result<Self>;
    fn write(&self, to: &mut Vec<u8>);
}

/// What is left of a message's body.
pub struct Reader<'a> {
    left: &'a [u8],
}

impl<'a> Reader<'a> {
    pub fn new(body: &'a [u8]) -> Self {
        Self { left: body }
    }

    fn take<const N: usize>(&mut self) -> Result<[u8; N]> {
        let Some((taken, left)) = self.left.split_first_chunk::<N>() else {
            return damaged("a message ends too early");
        };
        self.left = left;
        Ok(*taken)
    }

    pub fn word(&mut self) -> Result<u32> {
        Ok(u32::from_le_bytes(self.take()?))
    }

    pub fn get<T: Wire>(&mut self) -> Result<T> {
        T::read(self)
    }

    /// A word that must be 0 or 1.
    pub fn flag(&mut self) -> Result<bool> {
        match self.word()? {
            0 => Ok(false),
            1 => Ok(true),
            other => damaged(format!("{other} where 0 or 1 is due")),
        }
    }

    pub fn done(self) -> Result<()> {
        match self.left.len() {
            0 => Ok(()),
            more => damaged(format!("a message has {more} bytes too many")),
        }
    }
}

impl Wire for u8 {
    const SIZE: usize = 1;

    fn read(from: &mut Reader<'_>) -> Result<Self> {
        Ok(from.take::<1>()?[0])
    }

    fn write(&self, to: &mut Vec<u8>) {
        to.push(*self);
    }
}

/// Numbers of a fixed width travel as their little-endian bytes, singles and
/// doubles as their bit patterns.
macro_rules! little_endian {
    ($($number:ty),*) => {$(
        impl Wire for $number {
            const SIZE: usize = size_of::<$number>();

            fn read(from: &mut Reader<'_>) -> Result<Self> {
                Ok(Self::from_le_bytes(from.take()?))
            }

            fn write(&self, to: &mut Vec<u8>) {
                to.extend_from_slice(&self.to_le_bytes());
            }
        }
    )*};
}

little_endian!(u32, i32, u64, f32, f64);

impl<A: Wire, B: Wire> Wire for (A, B) {
    const SIZE: usize = A::SIZE + B::SIZE;

    fn read(from: &mut Reader<'_>) -> Result<Self> {
        Ok((from.get()?, from.get()?))
    }

    fn write(&self, to: &mut Vec<u8>) {
        self.0.write(to);
        self.1.write(to);
    }
}

/// A list: its length, then its entries.
impl<T: Wire> Wire for Vec<T> {
    const SIZE: usize = 4;

    fn read(from: &mut Reader<'_>) -> Result<Self> {
        let length = from.word()? as usize;
        if length > from.left.len() / T::SIZE {
            return damaged(format!(
                "a list of {length} entries does not fit its message"
            ));
        }
        (0..length).map(|_| from.get()).collect()
    }

    fn write(&self, to: &mut Vec<u8>) {
        (self.len() as u32).write(to);
        for entry in self {
            entry.write(to);
        }
    }
}

impl Wire for bool {
    const SIZE: usize = 4;

    fn read(from: &mut Reader<'_>) -> Result<Self> {
        from.flag()
    }

    fn write(&self, to: &mut Vec<u8>) {
        u32::from(*self).write(to);
    }
}

/// A set of sixteen bits, which travels as a word.
impl Wire for u16 {
    const SIZE: usize = 4;

    fn read(from: &mut Reader<'_>) -> Result<Self> {
        let word = from.word()?;
        match Self::try_from(word) {
            Ok(set) => Ok(set),
            Err(_) => damaged(format!("{word:#x} is no set of sixteen")),
        }
    }

    fn write(&self, to: &mut Vec<u8>) {
        u32::from(*self).write(to);
    }
}

/// Implements `Wire` for a struct whose fields travel in the order given.
macro_rules! wire_struct {
    ($name:ident { $($field:ident),* $(,)? }) => {
        impl $crate::wire::Wire for $name {
            // Every field takes at least the four bytes of a word or a list's length.
            const SIZE: usize = 4 * [$(stringify!($field)),*].len();

            fn read(from: &mut $crate::wire::Reader<'_>) -> $crate::wire::Result<Self> {
                $(let $field = from.get()?;)*
                Ok(Self { $($field),* })
            }

            fn write(&self, to: &mut Vec<u8>) {
                $(self.$field.write(to);)*
            }
        }
    };
}

pub(crate) use wire_struct;
