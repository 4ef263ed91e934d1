//! A tree's symbols: printed, drawn again, refused, and files that are none.

mod common;

use common::{Ran, assert_fails, file, run};
use ma_learn::{fault, symbols};
use ostrovuc::{Refusal, Symbol};

const MA_LEARN: &str = env!("CARGO_BIN_EXE_ma_learn");
const PGM_TO_JOB: &str = env!("CARGO_BIN_EXE_pgm_to_job");

fn text(ran: Ran) -> String {
    assert_eq!((ran.status, ran.errors.as_str()), (Some(0), ""));
    String::from_utf8(ran.output).expect("text")
}

/// What comes of a list on standard input.
fn from_symbols(more: &[&str], list: &str) -> Ran {
    let arguments = [&["--from-symbols", "-"], more].concat();
    run(MA_LEARN, &arguments, list.as_bytes())
}

/// What a text shows of a tree but node numbers, rows and bits.
fn shape(text: &str) -> Vec<String> {
    let (_, nodes) = text.split_once("\n\n").expect("a head");
    let node = |line: &str| {
        let parts = if line.contains("property ") { 1 } else { 2 };
        let kept: Vec<&str> = line.split(", ").take(parts).collect();
        let number = |c: char| c == ' ' || c.is_ascii_digit();
        let indent = line.find(|c| !number(c)).expect("more than a number");
        format!("{indent} {}", kept.join(", ").trim_start_matches(number))
    };
    nodes.lines().map(node).collect()
}

/// The bundled sheet's tree, pruned and numbered from the root, gt first.
#[test]
fn a_learnt_tree_is_drawn_from_its_symbols() {
    let sheet = concat!(env!("CARGO_MANIFEST_DIR"), "/../../sheets/digits.pgm");
    let job = run(PGM_TO_JOB, &[sheet], b"").output;
    let learnt = text(run(MA_LEARN, &[], &job));
    let list = text(run(MA_LEARN, &["--symbols"], &job));
    let drawn = text(from_symbols(&[], &list));
    assert_eq!(shape(&drawn), shape(&learnt));
    assert!(drawn.starts_with("nodes           69\nleaves          35\n\n"));
    assert_eq!(text(from_symbols(&["--symbols"], &list)), list);
    let path = file("digits.symbols", list.as_bytes());
    let path = path.to_str().expect("a plain path");
    assert_eq!(text(run(MA_LEARN, &["--from-symbols", path], b"")), drawn);
}

/// y above -1 asks for x above 5; its predictors are Weighted, Average4 and Gradient.
const LIST: &str = "\
1 3 property
0 1 split_val
1 4 property
0 10 split_val
1 0 property
2 5 predictor
3 0 offset
4 0 multiplier_log
5 0 multiplier_bits
1 0 property
2 6 predictor
3 1 offset
4 0 multiplier_log
5 0 multiplier_bits
1 0 property
2 13 predictor
3 4294967295 offset
4 0 multiplier_log
5 0 multiplier_bits
";

/// Numbers are breadth first.
#[test]
fn text_has_what_symbols_give() {
    let expected = "\
nodes           5
leaves          3

0 property y > -1
1   yes: property x > 5
3     yes: Weighted, offset -1
4     no: Average4, offset -2147483648
2   no: Gradient, offset 0
";
    assert_eq!(text(from_symbols(&[], LIST)), expected);
    assert_eq!(text(from_symbols(&["--text"], LIST)), expected);
}

#[test]
fn dot_has_what_symbols_give() {
    let expected = r##"digraph tree {
    label="5 nodes, 3 leaves";
    fontname="sans-serif"; fontsize=12; labelloc=t; rankdir=LR; ordering=out;
    node [shape=box, fontname="sans-serif", fontsize=11];
    edge [fontname="sans-serif", fontsize=10];
    n0 [label="y > -1"];
    n0 -> n1 [label="yes"];
    n0 -> n2 [label="no"];
    n1 [label="x > 5"];
    n1 -> n3 [label="yes"];
    n1 -> n4 [label="no"];
    n3 [label="Weighted, offset -1", style=filled, fillcolor="#e8eef7"];
    n4 [label="Average4, offset -2147483648", style=filled, fillcolor="#e8eef7"];
    n2 [label="Gradient, offset 0", style=filled, fillcolor="#e8eef7"];
}
"##;
    assert_eq!(text(from_symbols(&["--dot"], LIST)), expected);
}

/// Blanks may be tabs, lines may end as elsewhere, and the last one need not end.
#[test]
fn names_may_be_left_out() {
    let pair = |line: &str| line.split(' ').take(2).collect::<Vec<_>>().join("\t");
    let pairs: Vec<String> = LIST.lines().map(pair).collect();
    let list = format!(" {}", pairs.join(" \r\n"));
    assert_eq!(text(from_symbols(&["--symbols"], &list)), LIST);
}

/// The list with one line exchanged for others.
fn with(line: usize, others: &[&str]) -> String {
    let mut lines: Vec<&str> = LIST.lines().collect();
    lines.splice(line - 1..line, others.iter().copied());
    lines.join("\n")
}

/// Refused in every form, with this symbol at fault.
fn refused(list: &str, fault: &str) {
    let reason = Refusal::Symbols;
    let message = format!("ma_learn: refused: number 11, place 0: {reason}; {fault}");
    for form in ["--text", "--dot", "--symbols"] {
        assert_fails(&from_symbols(&[form], list), 1, &message);
    }
}

#[test]
fn symbols_missing_or_left_over() {
    refused("", "line 1: context 1 (property) is missing");
    let list = LIST.trim_end_matches("5 0 multiplier_bits\n");
    refused(list, "line 19: context 5 (multiplier_bits) is missing");
    let list = format!("{LIST}1 0");
    refused(&list, "line 20: left over, the tree is whole");
}

#[test]
fn symbols_of_another_context() {
    let due = "where context 1 (property) is due";
    refused(
        &with(1, &[]),
        &format!("line 1: context 0 (split_val), {due}"),
    );
    let due = "where context 2 (predictor) is due";
    refused(
        &with(6, &["3 0"]),
        &format!("line 6: context 3 (offset), {due}"),
    );
    let due = "where context 5 (multiplier_bits) is due";
    refused(&with(19, &["6 0"]), &format!("line 19: context 6, {due}"));
}

#[test]
fn symbols_with_a_value_too_large() {
    refused(
        &with(1, &["1 25"]),
        "line 1: property symbol 25, where at most 24 is due",
    );
    refused(
        &with(16, &["2 14"]),
        "line 16: predictor symbol 14, where at most 13 is due",
    );
    refused(
        &with(8, &["4 1"]),
        "line 8: multiplier_log symbol 1, where at most 0 is due",
    );
    refused(
        &with(9, &["5 1"]),
        "line 9: multiplier_bits symbol 1, where at most 0 is due",
    );
}

#[test]
fn symbols_of_too_many_nodes() {
    let leaf = "1 0\n2 0\n3 0\n4 0\n5 0\n";
    let list = "1 1\n0 0\n".repeat(4_096) + &leaf.repeat(4_097);
    refused(
        &list,
        "line 8191: with this split there are more than 8191 nodes",
    );
}

/// The program finds a symbol at fault wherever the library refuses, and only there.
#[test]
fn what_is_refused_has_a_fault() {
    let list = symbols::read(LIST.as_bytes()).expect("symbols");
    let (mut refused, mut accepted) = (0, 0);
    let mut check = |list: &[Symbol]| {
        let has_fault = fault::of(list).is_some();
        match symbols::nodes(list) {
            Ok(_) => accepted += 1,
            Err(refusal) => {
                assert_eq!(refusal, Refusal::Symbols);
                refused += 1;
            }
        }
        assert_eq!(has_fault, symbols::nodes(list).is_err(), "{list:?}");
    };
    for at in 0..list.len() {
        check(&list[..at]);
        check(&[&list[..at], &list[at + 1..]].concat());
        check(&[&list[..=at], &list[at..]].concat());
        for context in 0..8 {
            for value in [0, 1, 13, 14, 24, 25, u32::MAX] {
                let mut changed = list.clone();
                changed[at] = Symbol { context, value };
                check(&changed);
            }
        }
    }
    let split = &list[..2];
    let leaf = &list[4..9];
    for splits in [0, 1, 4_094, 4_095, 4_096] {
        check(&[split.repeat(splits), leaf.repeat(splits + 1)].concat());
    }
    assert!(refused > 1_000 && accepted > 50, "{refused}, {accepted}");
}

/// A file of this content is refused as a list, with its name and this reason.
fn assert_no_list(name: &str, content: &[u8], why: &str) {
    let path = file(name, content);
    let path = path.to_str().expect("a plain path");
    let ran = run(MA_LEARN, &["--from-symbols", path], b"");
    assert_fails(&ran, 2, &format!("ma_learn: {path}: {why}"));
}

#[test]
fn files_of_something_else() {
    let wrong = |content: &[u8], why: &str| assert_no_list("something else", content, why);
    let sheet = include_bytes!("../../../sheets/digits.pgm");
    wrong(sheet, "a PGM picture and not a list of symbols");
    wrong(b"P2 1 1 1 0", "a PGM picture and not a list of symbols");
    let why = "a stream of jobs and not a list of symbols; \
               without --from-symbols a job of learning is read";
    let sheet = concat!(env!("CARGO_MANIFEST_DIR"), "/../../sheets/digits.pgm");
    wrong(&run(PGM_TO_JOB, &[sheet], b"").output, why);
    for kind in [2, 10, 30, 33, 49] {
        wrong(&[kind, 0, 0, 0, 4, 0, 0, 0, 1, 2, 3, 4], why);
    }
}

#[test]
fn files_that_are_no_lists() {
    let wrong = |content: &[u8], why: &str| assert_no_list("no list", content, why);
    let no_pair = |line: usize| {
        format!(
            "line {line} is no pair: a context and a value of 32 bits are due, as in '1 10 property'"
        )
    };
    wrong(b"\n", &no_pair(1));
    wrong(format!("{LIST}\n").as_bytes(), &no_pair(20));
    for line in [
        "",
        "2",
        "2 5 predictor 5",
        "two 5",
        "2 -5",
        "2 4294967296",
        "2, 5",
        "2 5.0",
    ] {
        wrong(with(6, &[line]).as_bytes(), &no_pair(6));
    }
    wrong(b"1 0\n2 \xff\n", &no_pair(2));
    let other = "line 6: context 2 is named predictor";
    wrong(with(6, &["2 5 property"]).as_bytes(), other);
    wrong(b"6 0 split_val", "line 1: context 6 has no name");
}

#[test]
fn files_that_cannot_be_read() {
    let ran = run(MA_LEARN, &["--from-symbols", "no/such/file"], b"");
    let message = "ma_learn: no/such/file: No such file or directory (os error 2)";
    assert_fails(&ran, 2, message);
    let why = "line 1 is no pair: a context and a value of 32 bits are due, as in '1 10 property'";
    let message = format!("ma_learn: standard input: {why}");
    assert_fails(&from_symbols(&[], "a b"), 2, &message);
}

#[test]
fn arguments() {
    let fails = |arguments: &[&str], message: &str| {
        let message = format!("ma_learn: {message}; --help says more");
        assert_fails(&run(MA_LEARN, arguments, LIST.as_bytes()), 2, &message);
    };
    let file = "--from-symbols takes a file, or '-' for standard input";
    fails(&["--from-symbols"], file);
    fails(&["--from-symbols", "--dot", "-"], file);
    fails(
        &["--from-symbols", "-", "--from-symbols", "-"],
        "at most one --from-symbols can be given",
    );
    let both = "a job and --from-symbols cannot both be given";
    fails(&["--from-symbols", "-", "job"], both);
    fails(&["job", "--raw", "--from-symbols", "-"], both);
    let raw = "--raw answers a job, and --from-symbols has none";
    fails(&["--raw", "--from-symbols", "-"], raw);
    let forms = "at most one of --text, --dot, --symbols and --raw can be given";
    fails(&["--symbols", "--from-symbols", "-", "--dot"], forms);
}
