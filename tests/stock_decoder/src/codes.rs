//! A coded stream: pairs of context and value, with a prefix code for each context.

use crate::bits::Bits;
use ostrovuc::{Encoding, Symbol, uint_encode};
use std::collections::BTreeSet;

/// A stream has no more codes than this.
const MOST_CONTEXTS: usize = 256;
/// So many contexts can name their codes in three bits each; more of them do it in a stream of their own.
const FEW_CONTEXTS: usize = 8;

/// The codes of a stream.
pub struct Codes {
    of_contexts: Vec<Code>,
}

impl Codes {
    /// For each context a code for the tokens of its values.
    pub fn of(contexts: usize, pairs: &[Symbol]) -> Self {
        assert!((1..=MOST_CONTEXTS).contains(&contexts));
        let mut tokens = vec![BTreeSet::new(); contexts];
        for pair in pairs {
            tokens[pair.context as usize].insert(uint_encode(pair.value).token);
        }
        let code = |(context, tokens)| Code::of(context, tokens);
        let of_contexts = tokens.into_iter().enumerate().map(code).collect();
        Self { of_contexts }
    }

    /// What a decoder reads before the pairs.
    pub fn write_header(&self, bits: &mut Bits) {
        bits.bool(false); // Nothing is copied from before (LZ77).
        if self.of_contexts.len() > 1 {
            self.write_map(bits);
        }
        bits.bool(true); // Prefix codes, and not ANS.
        self.write_of_each(bits, |_, bits| write_token_form(bits));
        self.write_of_each(bits, Code::write_size);
        self.write_of_each(bits, Code::write_widths);
    }

    fn write_of_each(&self, bits: &mut Bits, part: fn(&Code, &mut Bits)) {
        for code in &self.of_contexts {
            part(code, bits);
        }
    }

    /// The pairs in their order: a token's word, then those bits of the value that the token leaves open.
    pub fn write_pairs(&self, bits: &mut Bits, pairs: &[Symbol]) {
        for pair in pairs {
            let encoding: Encoding = uint_encode(pair.value);
            let code = &self.of_contexts[pair.context as usize];
            let (width, word) = code.words[encoding.token as usize];
            bits.word(width, word);
            bits.u(encoding.extra_count, encoding.extra_bits);
        }
    }

    /// Which code a context has: the one of its own number.
    fn write_map(&self, bits: &mut Bits) {
        let numbers = 0..self.of_contexts.len() as u32;
        let few = self.of_contexts.len() <= FEW_CONTEXTS;
        bits.bool(few);
        if few {
            bits.u(2, 3);
            numbers.for_each(|number| bits.u(3, number));
        } else {
            bits.bool(false); // The numbers as they are (no move to front).
            let pair = |value| Symbol { context: 0, value };
            let pairs: Vec<Symbol> = numbers.map(pair).collect();
            let codes = Self::of(1, &pairs);
            codes.write_header(bits);
            codes.write_pairs(bits, &pairs);
        }
    }
}

/// How values become tokens, which is as the library does it: below 2^4 the value itself, from there on the place
/// of its highest bit and the 2 bits after that, and none of its lowest.
fn write_token_form(bits: &mut Bits) {
    bits.u(4, 4);
    bits.u(3, 2);
    bits.u(2, 0);
}

/// A complete code. Files need not be small, but a value must not pass in another context than its own: so no two
/// neighbouring contexts have the same word for their first token, be it the only one.
struct Code {
    /// Width and word of each token; those that it is not for have no word.
    words: Vec<(u32, u32)>,
}

impl Code {
    /// Some tokens have shorter words: the first ones in an even context, the last ones in an odd one.
    fn of(context: usize, tokens: BTreeSet<u32>) -> Self {
        let tokens = filled_up(tokens);
        let size = tokens.last().map_or(0, |last| last + 1);
        let width = tokens.len().ilog2() + 1;
        let shorter = (1 << width) - tokens.len();
        let longer = tokens.len() - shorter;
        let mut words = vec![(0, 0); size as usize];
        for (place, &token) in tokens.iter().enumerate() {
            let even = context.is_multiple_of(2);
            let is_shorter = if even {
                place < shorter
            } else {
                place >= longer
            };
            words[token as usize].0 = if is_shorter { width - 1 } else { width };
        }
        hand_out(&mut words);
        Self { words }
    }

    /// How many tokens a decoder has to count with, less 1.
    fn write_size(&self, bits: &mut Bits) {
        let last = self.words.len() as u32 - 1;
        let width = last.ilog2();
        bits.bool(true); // Not 0.
        bits.u(4, width);
        bits.u(width, last - (1 << width));
    }

    /// The widths of all words, as RFC 7932 has them (3.5). They are coded too: their code has a word of four bits
    /// for each width from 0 to 15, and none for 16 and 17, which stand for runs.
    fn write_widths(&self, bits: &mut Bits) {
        const ORDER: [u32; 18] = [1, 2, 3, 4, 0, 5, 17, 6, 16, 7, 8, 9, 10, 11, 12, 13, 14, 15];
        const FOUR_BITS: u32 = 0b01;
        const NO_WORD: u32 = 0b00;
        bits.u(2, 0); // None of the order is skipped.
        for width in ORDER {
            bits.u(2, if width < 16 { FOUR_BITS } else { NO_WORD });
        }
        for &(width, _) in &self.words {
            bits.word(4, width);
        }
    }
}

/// With more tokens behind these, until there are three or more and their number is no power of two.
fn filled_up(mut tokens: BTreeSet<u32>) -> BTreeSet<u32> {
    let mut next = tokens.last().map_or(0, |last| last + 1);
    while tokens.len() < 3 || tokens.len().is_power_of_two() {
        tokens.insert(next);
        next += 1;
    }
    tokens
}

/// A decoder is told widths alone, and hands out words by width, then by token (RFC 7932, 3.2).
fn hand_out(words: &mut [(u32, u32)]) {
    let mut next = 0;
    for due in 1..16 {
        for (_, word) in words.iter_mut().filter(|(width, _)| *width == due) {
            *word = next;
            next += 1;
        }
        next *= 2;
    }
}
