//! Jobs and answers in words. Properties that are 0 are left out, and so are
//! words without a mark and entries that only a fill pattern holds.

use std::fmt::Write;
use stream::{
    Answer, Contexts, ContextsJob, Job, Learned, Learning, LookupJob, NodeList, PREDICTORS,
    PROPERTIES, PruneJob, Pruned, ReadSymbolsJob, Record, SampleJob, Sampled, ScoreJob, Scored,
    Settings, Span, Symbol, SymbolsRead, SymbolsWritten, WriteSymbolsJob,
};

pub fn job(job: &Job) -> String {
    match job {
        Job::Learn(job) => learning("learn", job),
        Job::Deepen(job) => learning("deepen", job),
        Job::Lookup(job) => lookup(job),
        Job::Contexts(job) => contexts(job),
        Job::Sample(job) => sample(job),
        Job::Pack(list) => format!("pack {list:?}\n"),
        Job::Token(list) => format!("tokens of {list:?}\n"),
        Job::Value(list) => format!("values of (token, extra bits) {list:?}\n"),
        Job::Mode(list) => format!("mode step on residuals {list:?}\n"),
        Job::Candidates(list, limit) => format!("at most {limit} candidates of column {list:?}\n"),
        Job::Partition(list, threshold) => {
            format!("partition of column {list:?} above {threshold}\n")
        }
        Job::Prune(job) => prune(job),
        Job::WriteSymbols(job) => write_symbols(job),
        Job::ReadSymbols(job) => read_symbols(job),
        Job::Score(job) => score(job),
        Job::Marks(words) => marks(words),
    }
}

pub fn answer(answer: &Answer) -> String {
    match answer {
        Answer::Learned(answer) | Answer::Deepened(answer) => learned(answer),
        Answer::Found(found) => format!(
            "number {}, place {}, leaf {}, predictor {}\n",
            found.number, found.place, found.leaf, found.pred
        ),
        Answer::Contexts(answer) => counted(answer),
        Answer::Sampled(answer) => sampled(answer),
        Answer::Packed(list) => format!("{list:?}\n"),
        Answer::Tokens(list) => list
            .iter()
            .map(|t| {
                format!(
                    "token {}, {} extra bits: {}\n",
                    t.token, t.extra_count, t.extra_bits
                )
            })
            .collect(),
        Answer::Values(list) => list
            .iter()
            .map(|v| {
                format!(
                    "number {}, place {}, value {}\n",
                    v.number, v.place, v.value
                )
            })
            .collect(),
        Answer::Mode(mode, tokens) => format!("mode {mode}, zero-predictor tokens {tokens:?}\n"),
        Answer::Candidates(list) => format!("candidates {list:?}\n"),
        Answer::Partitioned(above, list) => format!("{above} rows above, column {list:?}\n"),
        Answer::Pruned(answer) => pruned(answer),
        Answer::SymbolsWritten(answer) => symbols_written(answer),
        Answer::SymbolsRead(answer) => symbols_read(answer),
        Answer::Scored(answer) => scored(answer),
        Answer::Places(list) => format!("places {list:?}\n"),
    }
}

fn given(nodes: &[Record]) -> String {
    let line = |(i, record)| format!("node {i}: {}\n", node(record));
    nodes.iter().enumerate().map(line).collect()
}

fn spanned(nodes: &[Record], spans: &[Span]) -> String {
    let line = |(i, (record, span)): (usize, (&Record, &Span))| {
        format!(
            "node {i}: {}, rows {}..{}\n",
            node(record),
            span.first,
            span.end
        )
    };
    nodes.iter().zip(spans).enumerate().map(line).collect()
}

/// A node list to be read, and how much of it counts.
fn list_of(count: u32, nodes: &NodeList, fill: u32) -> String {
    format!(
        "the first {count} nodes of {}, {} given, fill {fill}\n{}",
        nodes.entries,
        nodes.given.len(),
        given(&nodes.given)
    )
}

fn lookup(job: &LookupJob) -> String {
    let properties = match job.properties.as_array() {
        Some(properties) => set(properties),
        None => format!("{:?}", job.properties),
    };
    format!(
        "lookup of properties {properties} in {}",
        list_of(job.count, &job.nodes, job.fill)
    )
}

fn contexts(job: &ContextsJob) -> String {
    format!(
        "contexts, room for {}, queue {}, of {}",
        job.context_entries,
        job.queue_entries,
        list_of(job.count, &job.nodes, job.fill)
    )
}

fn counted(answer: &Contexts) -> String {
    format!(
        "number {}, place {}, {} contexts: {:?}, queue {:?}\n",
        answer.number, answer.place, answer.context_count, answer.contexts, answer.queue.0
    )
}

fn sample(job: &SampleJob) -> String {
    format!(
        "even sampling of {} rows, {} wanted, room for {}, fill {}\n",
        job.rows, job.target, job.output_entries, job.fill
    )
}

fn sampled(answer: &Sampled) -> String {
    format!(
        "number {}, place {}, {} picked: {:?}\n",
        answer.number, answer.place, answer.picked, answer.output
    )
}

fn prune(job: &PruneJob) -> String {
    format!(
        "prune at price {:?}\n{}",
        job.price,
        spanned(&job.nodes, &job.spans)
    )
}

fn pruned(answer: &Pruned) -> String {
    format!(
        "{} nodes, estimated bits {:?}\n{}",
        answer.node_count,
        answer.estimated_bits,
        spanned(&answer.nodes, &answer.spans)
    )
}

fn write_symbols(job: &WriteSymbolsJob) -> String {
    format!(
        "write symbols, room for {} pairs, queue {}, of {}",
        job.pair_entries,
        job.queue_entries,
        list_of(job.count, &job.nodes, job.fill)
    )
}

fn symbols_written(answer: &SymbolsWritten) -> String {
    let written = answer.symbols.get(..answer.pair_count as usize);
    format!(
        "number {}, place {}, {} pairs written, queue {:?}\n{}",
        answer.number,
        answer.place,
        answer.pair_count,
        answer.queue.0,
        pairs(written.unwrap_or(&answer.symbols))
    )
}

fn read_symbols(job: &ReadSymbolsJob) -> String {
    format!(
        "read {} pairs, room for {} nodes, fill {}\n{}",
        job.symbols.len(),
        job.node_entries,
        job.fill,
        pairs(&job.symbols)
    )
}

fn symbols_read(answer: &SymbolsRead) -> String {
    let read = answer.nodes.get(..answer.node_count as usize);
    format!(
        "number {}, place {}, {} nodes read\n{}",
        answer.number,
        answer.place,
        answer.node_count,
        given(read.unwrap_or(&answer.nodes))
    )
}

/// A line for each node, which begins with a symbol in context 1.
fn pairs(symbols: &[Symbol]) -> String {
    let node = |symbols: &[Symbol]| {
        let pair = |&Symbol { context, value }: &Symbol| format!("{context}:{value}");
        let pairs: Vec<String> = symbols.iter().map(pair).collect();
        format!("pairs {}\n", pairs.join(" "))
    };
    let nodes = symbols.chunk_by(|_, next| next.context != 1);
    nodes.map(node).collect()
}

fn score(job: &ScoreJob) -> String {
    let mut text = format!(
        "score candidates {:?}: alphabet {}, side predictors {:?}\n",
        job.candidates, job.alphabet, job.side_predictors
    );
    text += &logarithms(&job.logarithms);
    let rows = job.column.iter().zip(job.tokens.chunks(PREDICTORS));
    for (row, (value, tokens)) in rows.enumerate() {
        text += &format!("row {row}: value {value}, tokens {tokens:?}\n");
    }
    text
}

fn scored(answer: &Scored) -> String {
    let Scored {
        found,
        threshold,
        cost,
        below,
    } = answer;
    let found = if *found { "found" } else { "nothing found" };
    format!("{found}: threshold {threshold}, cost {cost:?}, {below} rows at or under it\n")
}

fn marks(words: &[u64]) -> String {
    let mut text = format!("marks in {} words\n", words.len());
    let set = words.iter().enumerate().filter(|&(_, &word)| word != 0);
    for (at, word) in set {
        text += &format!("word {at}: {word:#018x}\n");
    }
    text
}

fn logarithms(list: &[f32]) -> String {
    let list: Vec<String> = list.iter().map(f32::to_string).collect();
    format!("logarithms {}\n", list.join(" "))
}

fn learning(what: &str, job: &Learning) -> String {
    let mut text = format!("{what}: {}\n", settings(&job.settings));
    text += &logarithms(&job.logarithms);
    text += &format!(
        "room: {} nodes, {} spans, {} queue, {} counts; fill {}\n",
        job.nodes.entries, job.span_entries, job.queue_entries, job.count_entries, job.fill
    );
    text += &format!(
        "seed of {} nodes, {} given\n",
        job.seed_count,
        job.nodes.given.len()
    );
    text += &given(&job.nodes.given);
    text + &rows(&job.properties, &job.tokens, &job.residuals)
}

fn settings(s: &Settings) -> String {
    let yes = |flag| if flag { "yes" } else { "no" };
    format!(
        "alphabet {}, limit {}, split cost {:?}, price {:?}, smallest node {}, side predictors {}, \
         candidates {}, weighted {}, allowed {:#06x}, modal offsets {}, settling {}",
        s.alphabet,
        s.limit,
        s.split_cost,
        s.price,
        s.smallest_node,
        s.side_predictors,
        s.candidates,
        yes(s.weighted),
        s.allowed,
        yes(s.modal_offsets),
        yes(s.settling),
    )
}

fn learned(answer: &Learned) -> String {
    let mut text = format!(
        "number {}, place {}, {} nodes, {} leaves, estimated bits {:?}, flat bits {:?}\n",
        answer.number,
        answer.place,
        answer.node_count,
        answer.leaf_count,
        answer.estimated_bits,
        answer.flat_bits,
    );
    let tree = answer.nodes.get(..answer.node_count as usize);
    text += &spanned(tree.unwrap_or(&answer.nodes), &answer.spans);
    text += &rows(&answer.properties, &answer.tokens, &answer.residuals);
    text + &format!("queue {:?}, counts {:?}\n", answer.queue.0, answer.counts.0)
}

fn node(record: &Record) -> String {
    let Record {
        prop,
        val,
        gt,
        le,
        pred,
        offset,
        depth,
        ..
    } = record;
    let beside = format!(
        "cost {}, predictor {pred}, offset {offset}, depth {depth}",
        f32::from_bits(record.cost)
    );
    match record.kind {
        Record::SPLIT => format!("property {prop} > {val} to {gt}, else {le}; {beside}"),
        Record::LEAF => format!("leaf, {beside}"),
        other => format!("leaf of kind {other}, {beside}"),
    }
}

fn rows(properties: &[i32], tokens: &[u8], residuals: &[i32]) -> String {
    let mut text = String::new();
    let (properties, left) = properties.as_chunks();
    for (row, properties) in properties.iter().enumerate() {
        let tokens = tokens.get(PREDICTORS * row..PREDICTORS * (row + 1));
        let residual = residuals.get(row);
        let _ = write!(text, "row {row}: properties {}", set(properties));
        let _ = write!(text, ", tokens {:?}", tokens.unwrap_or_default());
        let _ = writeln!(
            text,
            "{}",
            residual.map_or(String::new(), |r| format!(", residual {r}"))
        );
    }
    if !left.is_empty() {
        let _ = writeln!(text, "and {} properties more", left.len());
    }
    text
}

/// The properties that are not 0.
fn set(properties: &[i32; PROPERTIES]) -> String {
    let set = properties
        .iter()
        .enumerate()
        .filter(|&(_, &value)| value != 0);
    let set: Vec<String> = set.map(|(k, value)| format!("{k}:{value}")).collect();
    format!("{{{}}}", set.join(" "))
}
