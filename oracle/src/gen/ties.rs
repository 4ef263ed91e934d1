//! Learning and deepening with equal gains.

use crate::At;
use crate::draft::{Draft, plain_settings};
use crate::logs;
use crate::rng::Rng;
use crate::rows::Rows;
use crate::trees::{Shape, Tests, tree, with_depths};
use stream::{Job, Record};

/// Three jobs of few rows, then mirrored copies.
pub fn ties(at: At) -> Job {
    match at.index {
        0 => Job::Learn(six_rows().fitted()),
        1 => Job::Learn(five_rows().fitted()),
        2 => five_rows_of_a_seed(),
        _ => copies(at),
    }
}

/// Rows by the tokens of predictors 0 and 1, the only ones allowed; property 0 is the row's number.
fn two_predictors(tokens: &[[u8; 2]], alphabet: u32, limit: u32) -> Draft {
    let mut made = Rows::zeros(tokens.len());
    made.set_column(0, |row| row as i32);
    for (all, two) in made.tokens.iter_mut().zip(tokens) {
        all[..2].copy_from_slice(two);
    }
    let mut settings = plain_settings(alphabet, limit);
    settings.side_predictors = 2;
    settings.allowed = 0b11;
    Draft::new(settings, made)
}

/// The smallest job that was found on which the original, which leaves equal gains to its heap, grows another tree
/// where leaves have as many rows: nodes 2 and 3 offer 2 bits each, and once node 4, which offers more, is out of the
/// heap, 3 comes before 2.
fn six_rows() -> Draft {
    let tokens = [[1, 0], [0, 16], [16, 0], [1, 16], [16, 1], [0, 0]];
    two_predictors(&tokens, 17, 5)
}

/// The smallest job on which the lower number alone grows another tree: nodes 1 and 2 offer 4 bits each, node 1 over
/// two rows and node 2 over three. Costs are extra bits alone.
fn five_rows() -> Draft {
    let tokens = [[0, 16], [0, 16], [44, 0], [0, 44], [24, 0]];
    let mut draft = two_predictors(&tokens, 45, 3);
    draft.logs = logs::zero(tokens.len());
    draft
}

/// The same two leaves, from a seed.
fn five_rows_of_a_seed() -> Job {
    let mut draft = five_rows();
    let leaf = Record::leaf(0, 0);
    draft.seed = with_depths(vec![Record::split(0, 2, 1, 2), leaf, leaf]);
    Job::Deepen(draft.fitted())
}

/// Mirrored copies of a pair of rows: once the copies are apart, many offer the same gain, over as many rows or over
/// more, so that the order of splits is the order of the tie rule.
fn copies(at: At) -> Job {
    let mut rng = at.rng();
    let copies: Vec<Sides> = (0..3 + rng.below(6))
        .map(|_| Sides::any(&mut rng))
        .collect();
    let made = mirrored(&mut rng, &copies);
    let copies = copies.len();
    let limit = 2 + rng.below(2 * copies) as u32;
    let mut settings = plain_settings(24, limit);
    settings.side_predictors = rng.pick(&[1, 4, 14]);
    settings.price = rng.pick(&[0.0, 0.0, 0.0, 2.0, 3.0]);
    let mut draft = Draft::new(settings, made);
    if rng.one_in(3) {
        draft.logs = logs::rounded(draft.rows.len(), 1);
    }
    if rng.one_in(2) {
        return draft.learn(&mut rng);
    }
    // A seed that sets the copies apart puts all equal gains into one queue.
    draft.seed = copies_apart(&mut rng, copies);
    draft.settings.limit = (copies + rng.below(copies + 1)) as u32;
    draft.deepen(&mut rng)
}

/// Two sides, each with so many rows of a token of its own and so many of one that both have. Parting the sides gains a
/// bit for each of the former, however many the latter are.
struct Sides {
    own: usize,
    shared: usize,
}

impl Sides {
    fn any(rng: &mut Rng) -> Self {
        let own = rng.pick(&[1, 1, 1, 2, 3]);
        let shared = rng.pick(&[0, 0, 1, own]);
        Self { own, shared }
    }

    /// Which of the copy's three tokens a side's rows have.
    fn tokens(&self, side: u8) -> Vec<u8> {
        [vec![side; self.own], vec![2; self.shared]].concat()
    }

    /// The rows of both, with the copy's number, the side and the token.
    fn rows(&self, number: u8) -> Vec<(u8, u8, u8)> {
        let of_side = |side| {
            let row = move |token| (number, side, 3 * number + token);
            self.tokens(side).into_iter().map(row)
        };
        of_side(0).chain(of_side(1)).collect()
    }
}

/// Property 2 is the copy, a property of a few that equal each other tells its sides apart.
fn mirrored(rng: &mut Rng, copies: &[Sides]) -> Rows {
    let rows_of = |(number, copy): (u8, &Sides)| copy.rows(number);
    let mut rows: Vec<_> = (0..).zip(copies).flat_map(rows_of).collect();
    rng.shuffle(&mut rows);
    let mut made = Rows::zeros(rows.len());
    made.set_column(2, |row| i32::from(rows[row].0));
    for property in [9, 16, 17] {
        made.set_column(property, |row| i32::from(rows[row].1));
    }
    made.set_tokens(|row| rows[row].2);
    made
}

fn copies_apart(rng: &mut Rng, copies: usize) -> Vec<Record> {
    let shape = rng.pick(&[Shape::GtChain, Shape::LeChain]);
    let mut seed = tree(rng, copies, shape, &Tests { rows: None });
    let mut values = 0..copies as i32 - 1;
    for node in seed.iter_mut().filter(|node| node.is_split()) {
        let value = values.next().expect("a tree has a split less than leaves");
        node.prop = 2;
        node.val = match shape {
            Shape::GtChain => value,
            _ => copies as i32 - 2 - value,
        };
    }
    seed
}
