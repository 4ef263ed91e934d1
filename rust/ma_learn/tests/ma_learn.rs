//! The learner as a program: its four forms, refusals, and wrong files.

mod common;

use common::{Ran, assert_fails, file, run};
use ostrovuc::Refusal;
use stream::{
    Answer, Job, Learned, Learning, Message, Messages, NodeList, Record, Runs, STATE, Settings,
    Span, version, write_message,
};

const MA_LEARN: &str = env!("CARGO_BIN_EXE_ma_learn");

/// Eight rows of which y tells two greys apart: 5 5 5 6 above, 20 20 20 20 below. Zero and Gradient are allowed.
fn small_job() -> Learning {
    let greys = [5, 5, 5, 6, 20, 20, 20, 20];
    let mut properties = vec![0; 24 * 8];
    let mut tokens = vec![0; 14 * 8];
    for (row, &grey) in greys.iter().enumerate() {
        properties[24 * row + 2] = row as i32 / 4;
        // Packed, a grey of 5, 6 or 20 is 10, 12 or 40, and 40 has token 4 x 5 + 1.
        tokens[14 * row] = [10, 12, 21][[5, 6, 20]
            .iter()
            .position(|&known| known == grey)
            .expect("known")];
        tokens[14 * row + 5] = [0, 3, 6, 9, 12, 15, 1, 2][row];
    }
    Learning {
        settings: Settings {
            alphabet: 128,
            limit: 2,
            split_cost: 0.0,
            price: 0.0,
            smallest_node: 0,
            side_predictors: 2,
            candidates: 8,
            weighted: false,
            allowed: 0b10_0001,
            modal_offsets: true,
            settling: true,
        },
        properties,
        tokens,
        residuals: greys.to_vec(),
        // Of 1 to 8.
        logarithms: [
            0.0,
            0.0,
            1.0,
            1.584_962_5,
            2.0,
            2.321_928,
            2.584_962_6,
            2.807_355,
            3.0,
        ]
        .to_vec(),
        seed_count: 0,
        nodes: NodeList {
            entries: 4,
            given: Vec::new(),
        },
        span_entries: 3,
        queue_entries: 2,
        count_entries: 20_000,
        fill: 7,
    }
}

/// These messages, end to end.
fn stream<const N: usize>(messages: [Message; N]) -> Vec<u8> {
    let mut bytes = Vec::new();
    for message in messages {
        write_message(&mut bytes, &message).expect("a job can be written");
    }
    bytes
}

/// The job behind a version message.
fn bytes(job: Job) -> Vec<u8> {
    stream([version(STATE), job.message()])
}

fn learn(arguments: &[&str], job: Learning) -> Ran {
    run(MA_LEARN, arguments, &bytes(Job::Learn(job)))
}

fn text(ran: Ran) -> String {
    assert_eq!((ran.status, ran.errors.as_str()), (Some(0), ""));
    String::from_utf8(ran.output).expect("text")
}

/// By hand: the lower leaf has one 6 among four, 3 x (log 4 - log 3) + log 4 bits; equal greys take none. Flat, the three
/// greys take 3 x (log 8 - log 3) + log 8 + 4 x (log 8 - log 4) bits, and each 20 three bits more beside its token.
const TEXT: &str = "\
rows            8
nodes           3
leaves          2
estimated bits  3.2
flat bits       23.2
bits saved      20.0 (86.0 %)

0 property y > 0, 8 rows: 4 yes, 4 no
1   yes: Zero, offset 20, 0.0 bits, 4 rows
2   no: Zero, offset 5, 3.2 bits, 4 rows
";

#[test]
fn text_is_the_default() {
    assert_eq!(text(learn(&[], small_job())), TEXT);
    assert_eq!(text(learn(&["--text"], small_job())), TEXT);
    assert_eq!(text(learn(&["-"], small_job())), TEXT);
    let path = file("small.job", &bytes(Job::Learn(small_job())));
    assert_eq!(
        text(run(MA_LEARN, &[path.to_str().expect("a plain path")], b"")),
        TEXT
    );
}

#[test]
fn dot() {
    let expected = r##"digraph tree {
    label="8 rows, 2 leaves, 3.2 bits, 23.2 flat";
    fontname="sans-serif"; fontsize=12; labelloc=t; rankdir=LR; ordering=out;
    node [shape=box, fontname="sans-serif", fontsize=11];
    edge [fontname="sans-serif", fontsize=10];
    n0 [label="y > 0\n8 rows"];
    n0 -> n1 [label="yes, 4 rows"];
    n0 -> n2 [label="no, 4 rows"];
    n1 [label="Zero, offset 20\n0.0 bits\n4 rows", style=filled, fillcolor="#e8eef7"];
    n2 [label="Zero, offset 5\n3.2 bits\n4 rows", style=filled, fillcolor="#e8eef7"];
}
"##;
    assert_eq!(text(learn(&["--dot"], small_job())), expected);
}

/// A grey is packed to twice as much.
#[test]
fn symbols() {
    let expected = "\
1 3 property
0 0 split_val
1 0 property
2 0 predictor
3 40 offset
4 0 multiplier_log
5 0 multiplier_bits
1 0 property
2 0 predictor
3 10 offset
4 0 multiplier_log
5 0 multiplier_bits
";
    assert_eq!(text(learn(&["--symbols"], small_job())), expected);
}

/// The answer behind the version message.
fn raw(ran: &Ran) -> Answer {
    let mut messages = Messages::open(&ran.output[..]).expect("a stream of this state");
    let mut next = || messages.next_message().expect("a sound stream");
    let answer = Answer::read(&next().expect("a message")).expect("an answer");
    assert!(next().is_none(), "one answer");
    answer
}

#[test]
fn raw_has_every_list() {
    let ran = learn(&["--raw"], small_job());
    assert_eq!((ran.status, ran.errors.as_str()), (Some(0), ""));
    let Answer::Learned(Learned {
        nodes,
        spans,
        properties,
        residuals,
        queue,
        counts,
        ..
    }) = raw(&ran)
    else {
        panic!("another kind of answer");
    };
    let cost = nodes[0].cost;
    let root = Record {
        cost,
        offset: 20,
        ..Record::split(2, 0, 1, 2)
    };
    let low = Record {
        cost: nodes[2].cost,
        ..Record::leaf(0, 5).at_depth(1)
    };
    // What the job's fill of 7 leaves in entry 3: 7 + 3 is even.
    let untouched = Record {
        kind: Record::LEAF,
        prop: 10,
        val: 10,
        gt: 10,
        le: 10,
        cost: 10,
        pred: 10,
        offset: 10,
        depth: 10,
    };
    let high = Record::leaf(0, 20).at_depth(1);
    assert_eq!(nodes, [root, high, low, untouched]);
    assert_eq!(
        spans,
        [(0, 8), (0, 4), (4, 8)].map(|(first, end)| Span { first, end })
    );
    let ys: Vec<i32> = properties.iter().skip(2).step_by(24).copied().collect();
    assert_eq!(ys, [1, 1, 1, 1, 0, 0, 0, 0]);
    assert_eq!(residuals.iter().sum::<i32>(), 101);
    assert_eq!((queue, counts), (Runs::of(0, 2), Runs::of(0, 20_000)));
}

/// A leaf below the root, as every kind but a split's is.
const NEITHER: Record = Record {
    kind: 2,
    ..Record::leaf(5, 0).at_depth(1)
};

#[test]
fn deepening_grows_below_a_seed() {
    let mut job = small_job();
    job.seed_count = 3;
    job.nodes = NodeList {
        entries: 5,
        given: vec![
            Record::split(3, 9, 1, 2),
            NEITHER,
            Record::leaf(0, 0).at_depth(1),
        ],
    };
    (job.span_entries, job.queue_entries, job.settings.limit) = (5, 3, 3);
    let expected = "\
rows            8
nodes           5
leaves          3
estimated bits  3.2
flat bits       23.2
bits saved      20.0 (86.0 %)

0 property x > 9, 8 rows: 0 yes, 8 no
1   yes: Gradient, offset 0, 0.0 bits, 0 rows
2   no: property y > 0, 8 rows: 4 yes, 4 no
3     yes: Zero, offset 20, 0.0 bits, 4 rows
4     no: Zero, offset 5, 3.2 bits, 4 rows
";
    let ran = run(MA_LEARN, &[], &bytes(Job::Deepen(job)));
    assert_eq!(text(ran), expected);
}

/// A seed's splits have no spans: their rows are those of the leaves below. Here the first row alone has an x above 9.
#[test]
fn rows_of_a_seeds_splits() {
    let mut job = small_job();
    job.properties[3] = 10;
    let (root, below) = (Record::split(2, 0, 1, 2), Record::split(3, 9, 3, 4));
    let leaf = NEITHER.at_depth(2);
    job.seed_count = 5;
    job.nodes = NodeList {
        entries: 5,
        given: vec![root, NEITHER, below.at_depth(1), leaf, leaf],
    };
    (job.span_entries, job.queue_entries, job.settings.limit) = (5, 3, 3);
    let expected = "\
0 property y > 0, 8 rows: 4 yes, 4 no
1   yes: Zero, offset 20, 0.0 bits, 4 rows
2   no: property x > 9, 4 rows: 1 yes, 3 no
3     yes: Zero, offset 5, 0.0 bits, 1 row
4     no: Zero, offset 5, 2.8 bits, 3 rows
";
    let bytes = bytes(Job::Deepen(job));
    let shown = text(run(MA_LEARN, &[], &bytes));
    assert_eq!(shown.split_once("\n\n").expect("a head").1, expected);
    let drawn = text(run(MA_LEARN, &["--dot"], &bytes));
    let expected = r#"
    n2 [label="x > 9\n4 rows"];
    n2 -> n3 [label="yes, 1 row"];
    n2 -> n4 [label="no, 3 rows"];
"#;
    assert!(drawn.contains(expected), "{drawn}");
}

#[test]
fn no_rows_and_one_row() {
    let mut job = small_job();
    job.properties.truncate(24);
    job.tokens.truncate(14);
    job.residuals.truncate(1);
    assert!(text(learn(&[], job.clone())).ends_with("\n0 Zero, offset 5, 0.0 bits, 1 row\n"));
    (job.properties, job.tokens, job.residuals) = Default::default();
    let expected = "\
rows            0
nodes           1
leaves          1
estimated bits  0.0
flat bits       0.0
bits saved      0.0

0 Zero, offset 0, 0.0 bits, 0 rows
";
    assert_eq!(text(learn(&[], job)), expected);
}

#[test]
fn refusals_have_number_place_and_reason() {
    let mut job = small_job();
    job.tokens[14 * 3] = 200;
    job.nodes.given = vec![NEITHER];
    let reason = Refusal::Token { row: 3 };
    let message = format!("ma_learn: refused: number 4, place 3: {reason}");
    assert_fails(&learn(&[], job.clone()), 1, &message);
    assert_fails(&learn(&["--dot"], job.clone()), 1, &message);
    assert_fails(&learn(&["--symbols"], job.clone()), 1, &message);
    let ran = learn(&["--raw"], job.clone());
    assert_eq!((ran.status, ran.errors.trim_end()), (Some(1), &message[..]));
    let Answer::Learned(Learned {
        number,
        place,
        nodes,
        tokens,
        ..
    }) = raw(&ran)
    else {
        panic!("another kind of answer");
    };
    assert_eq!((number, place, tokens), (4, 3, job.tokens));
    assert_eq!(nodes[0], NEITHER);
    let mut job = small_job();
    job.settings.limit = 4_097;
    let reason = Refusal::Settings;
    let message = format!("ma_learn: refused: number 1, place 0: {reason}");
    assert_fails(&learn(&[], job), 1, &message);
}

/// A leaf of the seed that stores the root's depth.
#[test]
fn a_seed_has_its_depths() {
    let mut job = small_job();
    job.seed_count = 3;
    let (root, leaf) = (Record::split(3, 9, 1, 2), NEITHER.at_depth(0));
    job.nodes.given = vec![root, NEITHER, leaf];
    let reason = Refusal::Tree { node: 2 };
    let message = format!("ma_learn: refused: number 8, place 2: {reason}");
    let bytes = bytes(Job::Deepen(job));
    assert_fails(&run(MA_LEARN, &[], &bytes), 1, &message);
}

/// A file of this content is refused, in every form, with its name and this reason.
fn assert_wrong(name: &str, content: &[u8], why: &str) {
    let path = file(name, content);
    let path = path.to_str().expect("a plain path");
    for form in ["--text", "--dot", "--symbols", "--raw"] {
        assert_fails(
            &run(MA_LEARN, &[form, path], b""),
            2,
            &format!("ma_learn: {path}: {why}"),
        );
    }
}

/// A version message has twelve bytes.
#[test]
fn files_cut_short() {
    let whole = bytes(Job::Learn(small_job()));
    let body = whole.len() - 12 - 8;
    let why = "empty, where a job of learning or deepening is due";
    assert_wrong("empty", b"", why);
    let why = "cut short: a message ends too early";
    for length in [3, 6, 12 + 3, 12 + 6] {
        assert_wrong("cut in a head", &whole[..length], why);
    }
    let why = "cut short: a body of 4 bytes ends after 3";
    assert_wrong("cut in its state", &whole[..11], why);
    let why = "a version message alone, where a job of learning or deepening is due";
    assert_wrong("cut before the job", &whole[..12], why);
    let why = format!("cut short: a body of {body} bytes ends after {}", body - 5);
    assert_wrong("cut in its body", &whole[..whole.len() - 5], &why);
}

/// Of a stream of another state nothing is read but this, and of one without a version message nothing at all.
#[test]
fn streams_of_another_state() {
    let job = || Job::Learn(small_job()).message();
    for state in [0, STATE - 1, STATE + 1, u32::MAX] {
        let why = format!("a stream of state {state}; state {STATE} is due");
        assert_wrong("another state", &stream([version(state), job()]), &why);
        let beyond = [&stream([version(state)])[..], b"beyond"].concat();
        assert_wrong("a later form", &beyond, &why);
    }
    let why =
        format!("a stream without a version message, which is of state 0; state {STATE} is due");
    assert_wrong("no version", &stream([job()]), &why);
    let deepening = Job::Deepen(small_job()).message();
    assert_wrong("no version", &stream([deepening]), &why);
}

#[test]
fn version_messages_that_are_none() {
    let state = |body: &[u8]| {
        let message = Message {
            body: body.to_vec(),
            ..version(STATE)
        };
        stream([message, Job::Learn(small_job()).message()])
    };
    let why = |length| format!("not a job: a version message of {length}, where 4 are due");
    assert_wrong("no state", &state(&[]), &why("0 bytes"));
    let long = [&STATE.to_le_bytes()[..], &[0]].concat();
    assert_wrong("short state", &state(&long[..1]), &why("1 byte"));
    assert_wrong("long state", &state(&long), &why("5 bytes"));
    let twice = stream([version(STATE), version(STATE)]);
    let why = "a job of a stream's state, where learning or deepening is due";
    assert_wrong("version twice", &twice, why);
}

#[test]
fn files_with_more_than_a_job() {
    let whole = bytes(Job::Learn(small_job()));
    let twice = [&whole[..], &whole].concat();
    let why = format!("{} bytes follow the job; one job is due", whole.len());
    assert_wrong("two jobs", &twice, &why);
    let more = [&whole[..], b"\n"].concat();
    let why = "1 byte follows the job; one job is due";
    assert_wrong("left over", &more, why);
}

#[test]
fn files_of_something_else() {
    let why = "a PGM picture and not a job; pgm_to_job makes a job of it";
    assert_wrong("picture", b"P5\n1 1\n255\n0", why);
    let why = "not a job: there is no kind 1701670771";
    assert_wrong("prose", b"some text", why);
    let version_and_prose = [&stream([version(STATE)])[..], b"some text"].concat();
    assert_wrong("prose behind it", &version_and_prose, why);
    let why = "a job of packing, where learning or deepening is due";
    assert_wrong("another kind", &bytes(Job::Pack(vec![1])), why);
    let packing = Job::Pack(vec![1]).message();
    assert_wrong("another kind alone", &stream([packing]), why);
}

/// However the pair in the first line is written.
#[test]
fn lists_of_symbols() {
    let why = "a list of symbols and not a job; --from-symbols reads it";
    for list in [
        "1 0 property\n2 5 predictor\n",
        "1\t0\tproperty\r\n2\t5\r\n",
        "  1 0\n",
        "\t1  0",
        "01 0\n",
        "1 0 split_val\n",
        "0 7\n1 0\n",
    ] {
        assert_wrong("symbols", list.as_bytes(), why);
    }
    let why = "not a job: there is no kind 168632369";
    assert_wrong("no pair", b"1 \r\n0 0\n", why);
}

#[test]
fn damaged_bodies() {
    let mut whole = bytes(Job::Learn(small_job()));
    // Behind the version message and the job's head the settings' eighth word is the weighted flag.
    whole[12 + 8 + 4 * 7] = 2;
    assert_wrong("flag", &whole, "not a job: 2 where 0 or 1 is due");
    let mut job = small_job();
    job.count_entries = u32::MAX;
    let why = "asks for 4294967295 entries of count space; at most 16777216 are lent";
    assert_wrong("long", &bytes(Job::Learn(job)), why);
}

#[test]
fn files_that_cannot_be_read() {
    let ran = run(MA_LEARN, &["no/such/file"], b"");
    assert_fails(
        &ran,
        2,
        "ma_learn: no/such/file: No such file or directory (os error 2)",
    );
    let why = "empty, where a job of learning or deepening is due";
    assert_fails(
        &run(MA_LEARN, &[], b""),
        2,
        &format!("ma_learn: standard input: {why}"),
    );
}

#[test]
fn arguments() {
    let help = text(run(MA_LEARN, &["--help"], b""));
    assert!(help.starts_with("ma_learn: ") && help.contains("usage: ma_learn"));
    assert!(help.contains(&format!("stream of state {STATE} ")));
    for name in ma_learn::names::PROPERTIES
        .iter()
        .chain(&ma_learn::names::PREDICTORS)
    {
        assert!(
            help.contains(&format!(" {name}")),
            "{name} is not in the help"
        );
    }
    assert_eq!(text(run(MA_LEARN, &["-h", "no/such/file"], b"")), help);
    assert_eq!(text(run(MA_LEARN, &["--version"], b"")), "ma_learn 1.0.0\n");
    let unknown = run(MA_LEARN, &["--svg"], b"");
    assert_fails(
        &unknown,
        2,
        "ma_learn: no option --svg; --help says which there are",
    );
    let forms = run(MA_LEARN, &["--dot", "--raw"], b"");
    assert_fails(
        &forms,
        2,
        "ma_learn: at most one of --text, --dot, --symbols and --raw can be given; --help says more",
    );
    let files = run(MA_LEARN, &["one", "two"], b"");
    assert_fails(
        &files,
        2,
        "ma_learn: at most one file can be given; --help says more",
    );
}
