//! Right answers pass, and each of many broken ones is refused for what is broken in it.

mod growth;
mod small;
mod symbols;

use crate::{Run, Tally, pairs, runs, tally};
use small::{deepening, folded, job, one_leaf, refused, settled, three_leaves, two_leaves};
use stream::{
    Answer, Contexts, ContextsJob, Damaged, Found, Job, Learned, LookupJob, Message, NodeList,
    PREDICTORS, PruneJob, Pruned, Record, Runs, STATE, SampleJob, Sampled, ScoreJob, Scored, Span,
    TokenOf, ValueOf, version, write_message,
};

fn bytes(messages: impl Iterator<Item = Message>) -> Vec<u8> {
    let mut bytes = Vec::new();
    for message in messages {
        write_message(&mut bytes, &message).expect("a list has room");
    }
    bytes
}

/// What is said of these jobs and answers.
fn told(jobs: &[Job], answers: &[Answer]) -> Result<Tally, String> {
    let opened = || [version(STATE)].into_iter();
    let jobs = bytes(opened().chain(jobs.iter().map(Job::message)));
    let answers = bytes(opened().chain(answers.iter().map(Answer::message)));
    tally(&mut &jobs[..], &mut &answers[..]).map_err(|Damaged(what)| what)
}

#[track_caller]
fn passes(jobs: &[Job], answers: &[Answer]) -> Tally {
    told(jobs, answers).expect("nothing is broken")
}

/// They are refused, and this is said of it.
#[track_caller]
fn refuses(jobs: &[Job], answers: &[Answer], why: &str) {
    let what = told(jobs, answers).err();
    let what = what.unwrap_or_else(|| panic!("not refused, where due is: {why}"));
    assert!(what.contains(why), "{what:?}, where due is {why:?}");
}

fn learned(answers: [Learned; 2]) -> [Answer; 2] {
    answers.map(Answer::Learned)
}

#[test]
fn right_answers_are_counted() {
    let jobs = [1, 2, 3].map(|limit| Job::Learn(job(limit)));
    let answers = [one_leaf(), two_leaves(), three_leaves()].map(Answer::Learned);
    let tally = passes(&jobs, &answers);
    assert_eq!(tally.to_string(), "3 jobs, 3 accepted, 2 pairs");
    assert_eq!(
        tally.demand3(),
        "learning:  2 pairs (0 alike, 2 by one split), 3 runs (3 unpruned, 0 settled; 3 with fresh tokens), \
         0 free, 0 refused, 0 halves\n"
    );
    let jobs = [2, 3, 4].map(|limit| Job::Deepen(deepening(limit)));
    let last = refused(&deepening(4));
    let answers = [two_leaves(), two_leaves(), last].map(Answer::Deepened);
    let tally = passes(&jobs, &answers);
    assert_eq!(tally.to_string(), "3 jobs, 2 accepted, 1 x 5, 1 pairs");
    assert_eq!(
        tally.demand3(),
        "deepening: 1 pairs (1 alike, 0 by one split), 2 runs (2 unpruned, 0 settled; 2 with fresh tokens), \
         0 free, 1 refused, 1 halves\n"
    );
}

/// More than any list has.
const TOO_MANY: u32 = 1 << 31;

/// How an answer is broken, and what must be said of it.
type Break = (fn(&mut Learned), &'static str);

/// Breaks of the answer with two leaves that show in it alone.
#[rustfmt::skip]
const BROKEN_RUNS: &[Break] = &[
    (|a| a.tokens[0] = 5, "a stale token: the row at place 0, leaf 1, has 5, not 0"),
    (|a| a.tokens[PREDICTORS * 3] = 100, "a stale token: the row at place 3, leaf 2"),
    (|a| a.nodes[1].offset = 3, "leaf 1 has offset 3, not 10"),
    (|a| a.nodes[2].pred = 5, "leaf 2 has offset 3, not 0"),
    (|a| a.spans[1].end = 3, "the span of leaf 1 holds 3 rows, and not the 2"),
    (|a| a.spans[2].first = 3, "the span of leaf 2 holds 1 rows, and not the 2"),
    (|a| a.spans.swap(1, 2), "the span of leaf 1 holds 2 rows, and not the 2"),
    (|a| a.spans[2].end = 5, "the span of leaf 2 holds no places"),
    (|a| a.spans[2].first = TOO_MANY, "the span of leaf 2 holds no places"),
    (|a| a.nodes[0].val = 9, "the span of leaf 1 holds 2 rows, and not the 0"),
    (|a| a.residuals.swap(0, 2), "the span of leaf 1 holds 2 rows, and not the 2"),
    (|a| a.properties[2] = 1, "the span of leaf 1 holds 2 rows, and not the 2"),
    (|a| a.tokens[1] = 77, "the span of leaf 1 holds 2 rows, and not the 2"),
    (|a| _ = a.residuals.pop(), "the lists of rows have other lengths"),
    (|a| _ = a.tokens.pop(), "the lists of rows have other lengths"),
    (|a| a.properties.truncate(24), "the lists of rows have other lengths"),
    (|a| a.spans[0].first = 1, "the children of split 0 do not share its span"),
    (|a| a.spans[0].end = 3, "the children of split 0 do not share its span"),
    (|a| a.spans[0].end = 5, "the span of split 0 holds no places"),
    (all_below, "all rows of split 0 go one way"),
    (|a| a.leaf_count = 3, "leaf count does not fit the tree"),
    (|a| a.node_count = 2, "no sound tree"),
    (|a| a.node_count = 0, "no sound tree"),
    (|a| a.node_count = 5, "no sound tree"),
    (|a| a.node_count = TOO_MANY, "nodes in a list of 6"),
    (|a| a.nodes[0].gt = 2, "no sound tree"),
    (|a| a.nodes[0].le = 0, "no sound tree"),
    (|a| a.nodes[0].prop = 24, "no sound tree"),
    (|a| a.nodes[2].pred = 14, "no sound tree"),
    (|a| a.nodes[0].depth = 1, "node 0 stores depth 1, and not 0"),
    (|a| a.nodes[1].depth = 0, "node 1 stores depth 0, and not 1"),
    (|a| a.nodes[2].depth = 2, "node 2 stores depth 2, and not 1"),
    (|a| a.nodes[2].depth = u32::MAX, "node 2 stores depth 4294967295, and not 1"),
    (|a| a.nodes[2].kind = 7, "a leaf has junk"),
    (|a| a.nodes[2].val = 1, "a leaf has junk"),
    (|a| a.nodes[5].cost += 1, "an entry past those written changed"),
    (|a| a.nodes[5].depth += 1, "an entry past those written changed"),
    (|a| a.nodes[3].depth = 0, "an entry past those written changed"),
    (|a| a.spans[3].end += 1, "an entry past those written changed"),
    (|a| a.nodes[3] = Record::BLANK, "an entry was vacated without pruning"),
    (|a| _ = a.nodes.pop(), "the lists of nodes and spans have other lengths"),
    (|a| _ = a.spans.pop(), "the lists of nodes and spans have other lengths"),
    (|a| a.place = 1, "accepted, yet a place is named"),
    (|a| a.queue = Runs(vec![(0, 3), (9, 1)]), "space does not hold zeros"),
    (|a| a.counts = Runs::of(7, 9), "space does not hold zeros"),
    (|a| a.counts = Runs::of(0, 8), "space does not hold zeros"),
];

/// A tree that holds its rows, in an empty leaf and a full one.
fn all_below(answer: &mut Learned) {
    answer.nodes[0].val = 9;
    (answer.spans[1].end, answer.spans[2].first) = (0, 0);
}

#[test]
fn broken_runs_are_refused() {
    for (breaks, why) in BROKEN_RUNS {
        let mut answer = two_leaves();
        breaks(&mut answer);
        let jobs = [Job::Learn(job(2))];
        refuses(&jobs, &[Answer::Learned(answer.clone())], why);
        let jobs = [Job::Deepen(deepening(2))];
        refuses(&jobs, &[Answer::Deepened(answer)], why);
    }
}

/// Breaks of the answer with three leaves that show only beside the one with two.
#[rustfmt::skip]
const BROKEN_PAIRS: &[Break] = &[
    (|a| a.estimated_bits = 2.5, "k + 1: estimated bits are 2.5, not 2"),
    (|a| a.estimated_bits = -a.estimated_bits, "k + 1: estimated bits are -2, not 2"),
    (|a| a.nodes[3] = a.nodes[3].with_cost(0.25), "k + 1: estimated bits are 2, not 1.75"),
    (|a| a.flat_bits = 8.0, "k + 1: the flat bits differs"),
    (|a| a.nodes[1] = a.nodes[1].with_cost(1.5), "k + 1: entries [1, 2] of the node list changed"),
    (|a| a.nodes[0].offset = 4, "k + 1: entries [0, 2] of the node list changed"),
    (|a| a.nodes[2] = a.nodes[2].with_cost(2.5), "k + 1: leaf 2 became Record"),
    (|a| a.nodes[2].pred = 1, "k + 1: leaf 2 became Record"),
    (swap_rows_of_leaf_1, "k + 1: place 0, outside the split's span, has another row"),
];

/// Whole rows, so that leaf 1 still has its own.
fn swap_rows_of_leaf_1(answer: &mut Learned) {
    answer.properties.as_chunks_mut::<24>().0.swap(0, 1);
    answer.tokens.as_chunks_mut::<14>().0.swap(0, 1);
    answer.residuals.swap(0, 1);
}

#[test]
fn broken_pairs_are_refused() {
    for (breaks, why) in BROKEN_PAIRS {
        let mut answer = three_leaves();
        breaks(&mut answer);
        passes(&[Job::Learn(job(3))], &[Answer::Learned(answer.clone())]);
        let jobs = [2, 3].map(|limit| Job::Learn(job(limit)));
        refuses(&jobs, &learned([two_leaves(), answer.clone()]), why);
        let jobs = [2, 3].map(|limit| Job::Deepen(deepening(limit)));
        refuses(&jobs, &[two_leaves(), answer].map(Answer::Deepened), why);
    }
}

/// The second answer's spans and depths would be refused without the first too, so the pair's own rule is asked.
#[test]
fn broken_spans_and_depths_of_pairs_are_refused() {
    const BROKEN: &[Break] = &[
        (|a| a.spans[0].first = 1, "k + 1: span entry 0 changed"),
        (|a| a.spans[2].end = 3, "k + 1: span entry 2 changed"),
        (|a| a.spans.swap(3, 4), "do not share"),
        (
            |a| a.nodes[0].depth = 1,
            "k + 1: entries [0, 2] of the node list",
        ),
        (|a| a.nodes[2].depth = 2, "k + 1: leaf 2 became Record"),
        (|a| a.nodes[3].depth = 1, "a new leaf is Record"),
        (|a| a.nodes[4].depth = 3, "a new leaf is Record"),
    ];
    let run = |limit, answer| Run {
        deepens: false,
        job: job(limit),
        answer,
    };
    for (breaks, why) in BROKEN {
        let mut answer = three_leaves();
        breaks(&mut answer);
        let said = pairs::check(&run(2, two_leaves()), &run(3, answer));
        let said = said.err().unwrap_or_else(|| panic!("not refused: {why}"));
        assert!(said.contains(why), "{said:?}, where due is {why:?}");
    }
}

#[test]
fn other_than_two_new_nodes_are_refused() {
    let jobs = [1, 2].map(|limit| Job::Learn(job(limit)));
    let why = "k + 1: the node count is not 2 more";
    refuses(&jobs, &learned([one_leaf(), three_leaves()]), why);
    refuses(&jobs, &learned([two_leaves(), one_leaf()]), why);
}

/// The two new leaves trade places with their spans: a tree of its own, but le comes first.
#[test]
fn the_new_leaves_stand_gt_first() {
    let mut answer = three_leaves();
    answer.spans.swap(3, 4);
    for (at, row) in [(2, 0), (3, 1)] {
        answer.properties[24 * at + 1] = row;
        answer.tokens[PREDICTORS * at + 1..][..13].fill(row as u8 + 1);
    }
    let why = "the children of split 2 do not share its span";
    refuses(&[Job::Learn(job(3))], &[Answer::Learned(answer)], why);
}

/// Where a leaf's span is wrong too, that is said first.
#[test]
fn splits_have_the_rows_of_their_children() {
    const BROKEN: &[Break] = &[
        (
            |a| a.nodes[0].val = 9,
            "split 0 has 2 rows go below, and not 4",
        ),
        (
            |a| a.nodes[0].val = 4,
            "split 0 has 2 rows go below, and not 0",
        ),
        (
            |a| a.properties[0] = 5,
            "split 0 has 2 rows go below, and not 3",
        ),
        (
            |a| a.spans[1].end = 1,
            "the children of split 0 do not share",
        ),
        (
            |a| a.spans.swap(1, 2),
            "the children of split 0 do not share",
        ),
        (
            |a| a.spans[2].first = TOO_MANY,
            "the span of split 0 holds no",
        ),
    ];
    for (breaks, why) in BROKEN {
        let mut answer = two_leaves();
        breaks(&mut answer);
        let said = runs::splits_part_their_spans(&job(2), &answer);
        let said = said.err().unwrap_or_else(|| panic!("not refused: {why}"));
        assert!(said.contains(why), "{said:?}, where due is {why:?}");
    }
}

/// Told by a cost without end, which learning has not.
#[test]
fn splits_of_a_seed_have_no_span() {
    let mut answer = two_leaves();
    answer.nodes[0] = answer.nodes[0].with_cost(f32::INFINITY);
    let why = "split 0, of the seed, has a span";
    refuses(
        &[Job::Deepen(deepening(2))],
        &[Answer::Deepened(answer.clone())],
        why,
    );
    answer.spans[0] = Span::BLANK;
    passes(
        &[Job::Deepen(deepening(2))],
        &[Answer::Deepened(answer.clone())],
    );
    let why = "the children of split 0 do not share its span";
    refuses(&[Job::Learn(job(2))], &[Answer::Learned(answer)], why);
}

/// What makes two jobs no pair leaves their answers free of each other.
#[test]
fn pairs_differ_in_the_limit_alone() {
    let broken = Learned {
        flat_bits: 1.0,
        ..two_leaves()
    };
    let answers = || learned([one_leaf(), broken.clone()]);
    let [first, second] = [job(1), job(2)];
    let pair = |second| [Job::Learn(first.clone()), Job::Learn(second)];
    refuses(&pair(second.clone()), &answers(), "the flat bits differs");
    let mut other = second.clone();
    other.logarithms[0] = 1.0;
    passes(&pair(other), &answers());
    passes(&pair(job(3)), &answers());
    let mut minus = second;
    minus.settings.price = -0.0;
    passes(&pair(minus), &answers());
}

#[test]
fn pruning_leaves_tokens_stale_unless_it_settles() {
    let mut pruned = job(2);
    pruned.settings.price = 20.0;
    let mut settling = pruned.clone();
    settling.settings.settling = true;
    let jobs = [pruned, settling].map(Job::Learn);
    let tally = passes(&jobs, &learned([folded(), settled()]));
    assert_eq!(
        tally.demand3(),
        "learning:  0 pairs (0 alike, 0 by one split), 1 runs (0 unpruned, 1 settled; 1 with fresh tokens), \
         1 free, 0 refused, 0 halves\n"
    );
    let why = "a stale token: the row at place 0, leaf 0, has 0, not 14";
    refuses(&jobs, &learned([folded(), folded()]), why);
    let mut torn = folded();
    torn.residuals.swap(0, 2);
    refuses(&jobs, &learned([torn, settled()]), "the span of leaf 0");
    let mut kept = settled();
    kept.nodes[2] = two_leaves().nodes[2];
    let why = "an entry past those written changed";
    refuses(&jobs, &learned([folded(), kept]), why);
    let mut deep = settled();
    deep.nodes[2].depth = 1;
    refuses(&jobs, &learned([folded(), deep]), why);
}

/// Where a seed is taken that should be refused, that is said, whatever became of it.
#[test]
fn acceptances_without_a_seed_are_refused() {
    const SPOILT: &[fn(&mut Record)] = &[|root| root.depth = 1, |root| root.pred = 14];
    let why = "accepted, yet the seed is no sound tree";
    for spoil in SPOILT {
        let mut job = deepening(2);
        spoil(&mut job.nodes.given[0]);
        refuses(&[Job::Deepen(job)], &[Answer::Deepened(two_leaves())], why);
    }
    let mut job = deepening(2);
    job.seed_count = 7;
    refuses(&[Job::Deepen(job)], &[Answer::Deepened(two_leaves())], why);
}

#[test]
fn a_refusal_that_changes_something_is_refused() {
    const CHANGES: &[Break] = &[
        (|a| a.node_count = 1, "a refusal says more"),
        (|a| a.flat_bits = -0.0, "a refusal says more"),
        (|a| a.nodes[5].kind = 9, "refused, nodes changed"),
        (|a| a.nodes[0].depth = 0, "refused, nodes changed"),
        (|a| a.spans[0].end = 0, "refused, spans changed"),
        (|a| a.tokens[0] = 0, "refused, rows changed"),
        (|a| a.properties.swap(1, 25), "refused, rows changed"),
        (|a| a.queue = Runs::of(0, 4), "refused, space changed"),
        (|a| a.counts = Runs::of(0, 9), "refused, space changed"),
    ];
    let jobs = [Job::Learn(job(2))];
    passes(&jobs, &[Answer::Learned(refused(&job(2)))]);
    for (changes, why) in CHANGES {
        let mut answer = refused(&job(2));
        changes(&mut answer);
        refuses(&jobs, &[Answer::Learned(answer)], why);
    }
}

/// A version message is no job, and its answer no answer to one; a stream without one is of another state.
#[test]
fn versions_stand_apart() {
    let job = || Job::Pack(vec![0]).message();
    let answer = || Answer::Packed(vec![0]).message();
    let told = |jobs: Vec<Message>, answers: Vec<Message>| {
        let (jobs, answers) = (bytes(jobs.into_iter()), bytes(answers.into_iter()));
        tally(&mut &jobs[..], &mut &answers[..]).map(|tally| tally.to_string())
    };
    let seen = told(vec![version(STATE), job()], vec![version(STATE), answer()]);
    assert_eq!(seen.ok().as_deref(), Some("1 jobs, 1 accepted"));
    assert!(told(vec![version(STATE), job()], vec![answer()]).is_err());
    assert!(told(vec![job()], vec![version(STATE), answer()]).is_err());
    assert!(told(vec![job()], vec![answer()]).is_err());
    assert!(told(vec![version(STATE)], vec![version(STATE + 1)]).is_err());
    let twice = |message| vec![version(STATE), message, version(STATE)];
    assert!(told(twice(job()), twice(answer())).is_err());
}

#[test]
fn each_job_has_an_answer_of_its_kind() {
    let jobs = [Job::Pack(vec![0]), Job::Pack(vec![-1])];
    let answers = [Answer::Packed(vec![0]), Answer::Packed(vec![1])];
    passes(&jobs, &answers);
    refuses(&jobs, &answers[..1], "not as many answers as jobs");
    refuses(&jobs[..1], &answers, "not as many answers as jobs");
    let other = [Answer::Learned(two_leaves())];
    refuses(&[Job::Deepen(deepening(2))], &other, "of another kind");
    refuses(&jobs[..1], &other, "of another kind");
}

/// A split by property 0 above 5, and its two leaves.
fn tree() -> NodeList {
    NodeList {
        entries: 3,
        given: two_leaves().nodes[..3].to_vec(),
    }
}

/// A job of each other operation but pruning, its answer, and a broken one.
#[rustfmt::skip]
fn others() -> Vec<(Job, Answer, Answer, &'static str)> {
    let lookup = LookupJob { count: 3, nodes: tree(), fill: 0, properties: vec![6; 24] };
    let found = |leaf| Answer::Found(Found { leaf, ..Found::default() });
    let contexts = ContextsJob { count: 3, nodes: tree(), fill: 7, context_entries: 3, queue_entries: 3 };
    let counted = |le| Answer::Contexts(Contexts {
        number: 0, place: 0, context_count: 2, contexts: vec![u32::MAX, 0, le], queue: Runs::of(0, 3),
    });
    let sample = SampleJob { rows: 5, target: 2, output_entries: 3, fill: 7 };
    let sampled = |picked, second| Answer::Sampled(Sampled { number: 0, place: 0, picked, output: vec![0, second, 7] });
    let token = |extra_bits| Answer::Tokens(vec![TokenOf { token: 16, extra_count: 2, extra_bits }]);
    let value = |number| Answer::Values(vec![ValueOf { number, place: 0, value: 0 }]);
    let residuals = vec![4, 4, 5];
    let mode = |mode, tokens: [u8; 3]| Answer::Mode(mode, tokens.to_vec());
    let candidates = |found: [i32; 2]| Answer::Candidates(found.to_vec());
    let parted = |above| Answer::Partitioned(above, vec![3, 1]);
    vec![
        (Job::Lookup(lookup), found(1), found(2), "another leaf"),
        (Job::Contexts(contexts), counted(1), counted(2), "other contexts"),
        (Job::Sample(sample.clone()), sampled(2, 2), sampled(2, 3), "other rows picked"),
        (Job::Sample(sample), sampled(2, 2), sampled(4, 2), "more rows picked than the output holds"),
        (Job::Pack(vec![-2]), Answer::Packed(vec![3]), Answer::Packed(vec![4]), "packing does not read back"),
        (Job::Token(vec![18]), token(2), token(3), "a token does not read back"),
        (Job::Value(vec![(16, 4)]), value(10), value(0), "another value"),
        (Job::Mode(residuals.clone()), mode(4, [0, 0, 2]), mode(5, [1, 1, 0]), "not the mode"),
        (Job::Mode(residuals), mode(4, [0, 0, 2]), mode(4, [0, 0, 1]), "not the mode's tokens"),
        (Job::Candidates(vec![1, 3, 2], 2), candidates([1, 2]), candidates([1, 3]), "other candidates"),
        (Job::Partition(vec![1, 3], 2), parted(1), parted(2), "not parted at the threshold"),
        (Job::Partition(vec![1, 3], 2), parted(1), parted(3), "not parted at the threshold"),
    ]
}

/// Jobs of pruning, each with its answer and a broken one.
#[rustfmt::skip]
fn prunings() -> Vec<(Job, Answer, Answer, &'static str)> {
    let nodes = tree().given;
    let spans = two_leaves().spans[..3].to_vec();
    let pruned_to = |node_count, node, span, vacated| Answer::Pruned(Pruned {
        estimated_bits: 8.0,
        node_count,
        nodes: vec![node, vacated, vacated],
        spans: vec![span, Span::BLANK, Span::BLANK],
    });
    let pruned = |node_count, node| pruned_to(node_count, node, spans[0], Record::BLANK);
    let vacated = |node, vacated| pruned_to(1, node, spans[0], vacated);
    let lifted = pruned_to(1, nodes[1].at_depth(0), spans[1], Record::BLANK);
    let folded = Record::leaf(0, 3).with_cost(8.0);
    let prune = || Job::Prune(PruneJob { price: 20.0, nodes: nodes.clone(), spans: spans.clone() });
    vec![
        (prune(), pruned(1, folded), pruned(4, folded), "no sound tree"),
        (prune(), pruned(1, folded), pruned(1, folded.at_depth(1)), "node 0 stores depth 1, and not 0"),
        (prune(), pruned(1, folded), vacated(folded, Record::BLANK.at_depth(1)), "a vacated entry is not blank"),
        (prune(), pruned(1, folded), lifted, "a node that was not there before"),
        (prune(), pruned(1, folded), pruned(1, Record::leaf(0, 4)), "a node that was not there before"),
    ]
}

/// A job of scoring, its answer, and a broken one.
#[rustfmt::skip]
fn scorings() -> Vec<(Job, Answer, Answer, &'static str)> {
    // Rows -1, 4, 4 and 9.
    let score = |candidates: &[i32]| Job::Score(ScoreJob {
        alphabet: 1,
        column: vec![4, -1, 9, 4],
        tokens: vec![0; 4 * PREDICTORS],
        side_predictors: vec![0],
        candidates: candidates.to_vec(),
        logarithms: vec![0.0; 5],
    });
    let scored = |threshold, below| Answer::Scored(Scored { found: true, threshold, cost: 0.0, below });
    let free = |cost| Answer::Scored(Scored { found: true, threshold: 4, cost, below: 3 });
    let nothing = || Answer::Scored(Scored::default());
    let but = |edit: fn(&mut Scored)| {
        let mut answer = Scored::default();
        edit(&mut answer);
        Answer::Scored(answer)
    };
    vec![
        (score(&[-1, 4]), scored(4, 3), scored(4, 1), "not the rows at or under the threshold"),
        (score(&[-1, 4]), scored(-1, 1), scored(-1, 0), "not the rows at or under the threshold"),
        (score(&[-1, 4]), scored(4, 3), scored(3, 1), "the threshold is no candidate"),
        (score(&[-1, 9]), scored(-1, 1), scored(9, 4), "a side is empty"),
        (score(&[-2, 5]), scored(5, 3), scored(-2, 0), "a side is empty"),
        (score(&[4]), free(-8.0), free(f32::NAN), "the cost is no number"),
        (score(&[-2, 4]), scored(4, 3), nothing(), "nothing found, where a candidate has rows on both sides"),
        (score(&[-2, 9, 10]), nothing(), scored(9, 4), "a side is empty"),
        (score(&[9]), nothing(), but(|a| a.threshold = 9), "nothing found, yet more is said"),
        (score(&[9]), nothing(), but(|a| a.cost = -0.0), "nothing found, yet more is said"),
        (score(&[-2]), nothing(), but(|a| a.below = 4), "nothing found, yet more is said"),
    ]
}

/// Places that are not those of marks 1, 63 and 64, of 128.
#[rustfmt::skip]
const BROKEN_PLACES: &[(&[u32], &str)] = &[
    (&[63, 1, 64], "the places do not ascend"),
    (&[1, 63, 63, 64], "the places do not ascend"),
    (&[1, 63, 64, 128], "a place beyond the words"),
    (&[1, 63, u32::MAX], "a place beyond the words"),
    (&[0, 63, 64], "a place whose mark is not set"),
    (&[1, 62, 64], "a place whose mark is not set"),
    (&[1, 63, 127], "a place whose mark is not set"),
    (&[63, 64], "not as many places as set marks"),
    (&[1, 63], "not as many places as set marks"),
    (&[], "not as many places as set marks"),
];

/// A job of marks, its answer, and a broken one.
fn markings() -> impl Iterator<Item = (Job, Answer, Answer, &'static str)> {
    let marks = || Job::Marks(vec![1 << 63 | 2, 1]);
    let places = |list: &[u32]| Answer::Places(list.to_vec());
    let broken = BROKEN_PLACES.iter();
    broken.map(move |&(broken, why)| (marks(), places(&[1, 63, 64]), places(broken), why))
}

#[test]
fn broken_answers_to_the_other_jobs_are_refused() {
    let listed = [others(), prunings(), scorings()].into_iter().flatten();
    for (job, right, broken, why) in listed.chain(markings()) {
        passes(std::slice::from_ref(&job), &[right]);
        refuses(&[job], &[broken], why);
    }
}

/// Where a port took what it should have refused, the check says so and does not stumble.
#[test]
fn acceptances_without_a_tree_are_refused() {
    let mut lookup = LookupJob {
        count: 4,
        nodes: tree(),
        fill: 0,
        properties: vec![6; 24],
    };
    let found = || Answer::Found(Found::default());
    refuses(&[Job::Lookup(lookup.clone())], &[found()], "more nodes");
    lookup.count = 3;
    lookup.nodes.given[0].gt = 0;
    let why = "a lookup breaks off at node 0";
    refuses(&[Job::Lookup(lookup.clone())], &[found()], why);
    let mut contexts = ContextsJob {
        count: 3,
        nodes: lookup.nodes,
        fill: 7,
        context_entries: 3,
        queue_entries: 3,
    };
    let counted = || {
        Answer::Contexts(Contexts {
            number: 0,
            place: 0,
            context_count: 2,
            contexts: vec![u32::MAX, 0, 1],
            queue: Runs::of(0, 3),
        })
    };
    let why = "without a sound tree";
    refuses(&[Job::Contexts(contexts.clone())], &[counted()], why);
    for (node, depth) in [(0, 1), (1, 0), (2, 2), (2, u32::MAX)] {
        contexts.nodes = tree();
        contexts.nodes.given[node].depth = depth;
        refuses(&[Job::Contexts(contexts.clone())], &[counted()], why);
    }
}

/// Which depths are stored is nothing to lookup.
#[test]
fn lookups_over_any_depths_pass() {
    let mut nodes = tree();
    for depth in [0, 1, 2, u32::MAX] {
        nodes.given = nodes.given.iter().map(|n| n.at_depth(depth)).collect();
        let lookup = LookupJob {
            count: 3,
            nodes: nodes.clone(),
            fill: 0,
            properties: vec![6; 24],
        };
        let found = Found {
            leaf: 1,
            ..Found::default()
        };
        passes(&[Job::Lookup(lookup)], &[Answer::Found(found)]);
    }
}
