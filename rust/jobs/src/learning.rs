//! Learning and deepening.

use crate::records;
use crate::{queue_entry, told};
use ostrovuc::{Entries, Learned, Refusal, Room};
use stream::{Answer, Learning, PROPERTIES, Span};

/// A job that was run: what was answered, and its lists as they then stand.
pub struct Run {
    pub result: Result<Learned, Refusal>,
    pub room: Room,
    /// With the rows as they then stand.
    job: Learning,
    deepens: bool,
}

/// Learns, or deepens the seed that stands at the front of the node list.
pub fn run(mut job: Learning, deepens: bool) -> Run {
    let mut room = room_for(&job);
    let settings = records::settings(&job.settings);
    let lists = room.lend(&mut job.properties, &mut job.tokens, &mut job.residuals);
    let result = if deepens {
        ostrovuc::deepen(lists, &settings, job.seed_count, &job.logarithms)
    } else {
        ostrovuc::learn(lists, &settings, &job.logarithms)
    };
    Run {
        result,
        room,
        job,
        deepens,
    }
}

impl Run {
    /// How many rows the job has.
    pub fn rows(&self) -> usize {
        self.job.properties.len() / PROPERTIES
    }

    /// The stream's answer, with every list whole.
    pub fn into_answer(self) -> Answer {
        let answer = if self.deepens {
            Answer::Deepened
        } else {
            Answer::Learned
        };
        answer(self.into_lists())
    }

    fn into_lists(self) -> stream::Learned {
        let Self { room, job, .. } = self;
        let (number, place, learned) = told(self.result);
        stream::Learned {
            number,
            place,
            node_count: learned.nodes,
            leaf_count: learned.leaves,
            estimated_bits: learned.bits,
            flat_bits: learned.flat,
            nodes: records::records(&room.nodes),
            spans: records::spans(&room.spans),
            properties: job.properties,
            tokens: job.tokens,
            residuals: job.residuals,
            queue: room
                .queue_bits()
                .map(|parts| queue_entry(parts, job.fill))
                .collect(),
            counts: room.counts.into_iter().collect(),
        }
    }
}

/// The lists that a job lends besides its rows, at its lengths and with its pattern.
fn room_for(job: &Learning) -> Room {
    let fill = job.fill;
    let mut room = Room {
        nodes: records::nodes(&job.nodes.whole(fill)),
        spans: records::span_records(&Span::list(job.span_entries, fill)),
        ..Room::of_entries(Entries {
            nodes: 0,
            spans: 0,
            queue: job.queue_entries as usize,
            counts: job.count_entries as usize,
        })
    };
    room.queue_words.fill(fill);
    room.queue_values.fill(fill as i32);
    room.queue_gains.fill(f32::from_bits(fill));
    room.counts.fill(fill);
    room
}

#[cfg(test)]
mod tests {
    use super::*;
    use stream::{NodeList, Record, Runs, Settings};

    /// A job that is refused with 1: an alphabet of 0.
    fn refused() -> Learning {
        Learning {
            settings: Settings {
                alphabet: 0,
                limit: 1,
                split_cost: 0.0,
                price: 0.0,
                smallest_node: 0,
                side_predictors: 1,
                candidates: 1,
                weighted: false,
                allowed: 1,
                modal_offsets: false,
                settling: false,
            },
            properties: vec![3; PROPERTIES],
            tokens: vec![4; stream::PREDICTORS],
            residuals: vec![5],
            logarithms: vec![0.0; 2],
            seed_count: 0,
            nodes: NodeList {
                entries: 4,
                given: vec![Record::leaf(2, -1)],
            },
            span_entries: 3,
            queue_entries: 2,
            count_entries: 5,
            fill: 9,
        }
    }

    #[test]
    fn the_lists_are_as_long_as_the_job_says() {
        let entries = Entries {
            nodes: 4,
            spans: 3,
            queue: 2,
            counts: 5,
        };
        assert_eq!(room_for(&refused()).entries(), entries);
    }

    #[test]
    fn a_refused_job_is_answered_with_its_lists_as_they_were() {
        let job = refused();
        let run = run(job.clone(), false);
        assert_eq!(run.rows(), 1);
        let Answer::Learned(answer) = run.into_answer() else {
            panic!("another kind");
        };
        assert_eq!((answer.number, answer.place, answer.node_count), (1, 0, 0));
        assert_eq!(answer.nodes, job.nodes.whole(9));
        assert_eq!(answer.spans, Span::list(3, 9));
        assert_eq!(answer.properties, job.properties);
        assert_eq!(answer.tokens, job.tokens);
        assert_eq!(answer.residuals, job.residuals);
        assert_eq!(answer.queue, Runs::of(9, 2));
        assert_eq!(answer.counts, Runs::of(9, 5));
    }
}
