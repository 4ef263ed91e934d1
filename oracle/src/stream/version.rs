//! Which form a stream has, and by which rules it is answered. The requests after the base add kinds, change some forms
//! and some answers; a stream made for such a state says so in a version message, its first.

use crate::wire::{Message, Reader, Result, damaged, read_message, write_message};
use std::io::{Read, Write};

/// The state of this format: the base with so many of the requests that came after it.
pub const STATE: u32 = 5;

/// The kind of a version message.
pub const VERSION: u32 = 30;

/// A version message; job and answer have one form.
pub fn version(state: u32) -> Message {
    Message {
        kind: VERSION,
        body: state.to_le_bytes().to_vec(),
    }
}

/// The messages of a stream behind its version message.
pub struct Messages<R> {
    input: R,
}

impl<R: Read> Messages<R> {
    /// A stream to be read: its form must be this one.
    pub fn open(mut input: R) -> Result<Self> {
        match opening(&mut input)? {
            STATE => Ok(Self { input }),
            other => damaged(format!("a stream of state {other}, not {STATE}")),
        }
    }

    /// Jobs to be answered: the version message is answered at once. `None` if the stream is of another state, of
    /// which nothing more is to be answered.
    pub fn greet(mut input: R, output: &mut impl Write) -> Result<Option<Self>> {
        let asked = opening(&mut input)?;
        write_message(output, &version(STATE))?;
        output.flush()?;
        Ok((asked == STATE).then_some(Self { input }))
    }

    /// The next message, or `None` where the stream ends between two.
    pub fn next_message(&mut self) -> Result<Option<Message>> {
        match read_message(&mut self.input)? {
            Some(message) if message.kind == VERSION => {
                damaged("a version message that is not the first")
            }
            next => Ok(next),
        }
    }
}

/// The state that a stream's version message names. Without one it is of state 0, whose records are shorter.
fn opening(input: &mut impl Read) -> Result<u32> {
    match read_message(input)? {
        Some(message) if message.kind == VERSION => state_of(&message),
        _ => damaged(format!(
            "a stream without a version message, which is of state 0, not {STATE}"
        )),
    }
}

fn state_of(message: &Message) -> Result<u32> {
    let mut body = Reader::new(&message.body);
    let state = body.word()?;
    body.done()?;
    Ok(state)
}

#[cfg(test)]
mod tests {
    use super::*;
    use crate::Damaged;

    /// Kinds 6 and 7 with empty lists.
    const JOBS: [u32; 2] = [6, 7];

    fn stream(messages: impl IntoIterator<Item = Message>) -> Vec<u8> {
        let mut bytes = Vec::new();
        for message in messages {
            write_message(&mut bytes, &message).expect("a list has room");
        }
        bytes
    }

    /// The version message, then these.
    fn opened(messages: impl Iterator<Item = Message>) -> Vec<u8> {
        stream([version(STATE)].into_iter().chain(messages))
    }

    fn jobs() -> impl Iterator<Item = Message> {
        JOBS.into_iter().map(|kind| Message {
            kind,
            body: vec![0; 4],
        })
    }

    fn kinds(mut messages: Messages<&[u8]>) -> Vec<u32> {
        let next = || messages.next_message().expect("a sound stream");
        std::iter::from_fn(next)
            .map(|message| message.kind)
            .collect()
    }

    #[test]
    fn a_version_message_is_none_of_the_jobs() {
        let bytes = opened(jobs());
        let messages = Messages::open(&bytes[..]).expect("a sound stream");
        assert_eq!(kinds(messages), JOBS);
        let bytes = opened(std::iter::empty());
        let messages = Messages::open(&bytes[..]).expect("a sound stream");
        assert!(kinds(messages).is_empty());
    }

    #[test]
    fn the_answer_names_this_state_whatever_was_asked_for() {
        for asked in [0, STATE - 1, STATE, STATE + 1, u32::MAX] {
            let bytes = stream([version(asked)].into_iter().chain(jobs()));
            let mut answers = Vec::new();
            let left = Messages::greet(&bytes[..], &mut answers).expect("a sound stream");
            assert_eq!(answers, stream([version(STATE)]));
            assert_eq!(left.map(kinds), (asked == STATE).then(|| JOBS.to_vec()));
            assert_eq!(Messages::open(&bytes[..]).is_ok(), asked == STATE);
        }
    }

    /// Nothing is answered, and what is wrong is said.
    #[test]
    fn a_stream_without_a_version_message_is_of_another_state() {
        for bytes in [stream(jobs()), Vec::new()] {
            let mut answers = Vec::new();
            let opened = Messages::open(&bytes[..]).err();
            let greeted = Messages::greet(&bytes[..], &mut answers).err();
            for said in [opened, greeted] {
                let Damaged(what) = said.expect("no stream of this state");
                assert!(what.contains("without a version message"), "{what}");
            }
            assert!(answers.is_empty());
        }
    }

    #[test]
    fn a_version_message_is_the_first_and_one_word() {
        let twice = opened([version(STATE)].into_iter());
        let mut messages = Messages::open(&twice[..]).expect("a first message");
        assert!(messages.next_message().is_err());
        let late = opened(jobs().chain([version(STATE)]));
        let mut messages = Messages::open(&late[..]).expect("a first message");
        let taken = [(); 3].map(|()| messages.next_message().is_ok());
        assert_eq!(taken, [true, true, false]);
        for length in [0, 3, 5, 8] {
            let body = vec![0; length];
            let bytes = stream([Message {
                kind: VERSION,
                body,
            }]);
            assert!(Messages::open(&bytes[..]).is_err());
        }
    }
}
