//! Times the verified code beside the reference and the engine that propagates lists on
//! the named maps and prints tables in markdown: the calls on one graph, batches of addresses,
//! the text check, the text check on maps with accesses, the comparison on tables, the text
//! check on texts made to be slow, the reading of address sheets, and the whole program with
//! its start. The answers must agree. The last tables have the stack that the text check and
//! a batch take.
//!
//! ```text
//! bench [--long] [part of a map's name or of a table's title]
//! ```
//!
//! `--long` adds the maps that take seconds. The script `bench` at the top of the
//! repository builds what is needed and runs this. A call's time is processor time,
//! the program's is wall clock; each is the lowest of several runs, but for the slow texts,
//! where it is of one run.

use host::hostile::{texts, Hostile};
use host::large::{access_maps, deep_maps, deep_maps_with_accesses, maps, Map};
use host::large::{batches, singles, Batch, Call, Single};
use host::propagate;
use host::reference::{batch, check, compare_by, list, printed, text_check, text_check_by, walk};
use host::reference::{BatchRows, Listing, Refusal};
use host::reference::{MAX_EDGES, MAX_NODES, NODE_WIDTH, REPORT_ROOM};
use host::sheet::read_sheet;
use host::sheet_texts::{sheets, Sheet};
use std::ffi::c_long;
use std::hint::black_box;
use std::io::Write;
use std::path::{Path, PathBuf};
use std::process::{Command, Stdio};
use std::time::Instant;

/// In milliseconds. A run that takes longer than the first is not repeated.
const ONE_RUN: f64 = 2_000.0;
const ENOUGH: f64 = 700.0;
const SHORTEST_SERIES: f64 = 2.0;
const FEWEST_SERIES: usize = 3;

/// Maps whose text check is timed; the comparison on tables is timed on the others
/// and on the first two.
const AS_TEXT: [&str; 9] = [
    "P1",
    "5 x 115, 2,000 nodes, 2,600 edges",
    "small map, seed 7",
    "65,536 bytes, none connected",
    "500 x 500, hub, diagonal alive",
    "30 x 30, 1,024 paths, no merging",
    "702 roots, 702 banks of one leaf",
    "364 roots, 500 leaves of two banks each",
    "1,000 roots, 1,000 banks of one leaf, none connected",
];
const ALSO_AS_TABLES: usize = 2;

/// The titles of the tables.
const ONE_GRAPH: &str = "One graph";
const BATCHES: &str = "Batches";
const TEXT_CHECK: &str = "Text check";
const ACCESS: &str = "Access";
const COMPARISON: &str = "Comparison on tables";
const HOSTILE: &str = "Texts made to be slow, one run each";
const SHEETS: &str = "Sheets";
const PROGRAM: &str = "Whole program, its start included";
const STACK: &str = "Stack of the text check";
const BATCH_STACK: &str = "Stack of a batch";

/// Starts of the whole program for one figure, at least and at most.
const FEWEST_STARTS: usize = 5;
const MOST_STARTS: usize = 40;

extern "C" {
    /// The processor time that this process has used, in microseconds.
    fn clock() -> c_long;
}

/// Processor time in milliseconds: other programs on the machine do not count.
fn now() -> f64 {
    // SAFETY: the call takes nothing and changes nothing.
    unsafe { clock() as f64 / 1_000.0 }
}

/// Milliseconds for a series of runs.
fn series<T>(runs: usize, run: &mut impl FnMut() -> T) -> f64 {
    let start = now();
    for _ in 0..runs {
        black_box(run());
    }
    now() - start
}

/// Milliseconds for one run, the lowest of several.
fn time<T>(mut run: impl FnMut() -> T) -> f64 {
    let begin = now();
    let first = series(1, &mut run);
    if first > ONE_RUN {
        return first;
    }
    // A run too short for the clock is timed in series.
    let (mut runs, mut millis) = (1, first);
    while millis < SHORTEST_SERIES {
        runs *= 2;
        millis = series(runs, &mut run);
    }
    let mut lowest = millis;
    let mut timed = 1;
    while now() - begin < ENOUGH || timed < FEWEST_SERIES {
        lowest = lowest.min(series(runs, &mut run));
        timed += 1;
    }
    lowest / runs as f64
}

/// A call on one graph by the reference: the numbers that it writes.
fn rust_call(call: Call, graph: &Single) -> Result<Vec<i64>, Refusal> {
    let Single { nodes, edges, root, leaf, address, kind, .. } = graph;
    match call {
        Call::Check => check(nodes, edges).map(|_| Vec::new()),
        Call::List => {
            let records = list(nodes, edges, *root, *leaf, *kind, usize::MAX)?.into_iter();
            Ok(records.flat_map(|r| [r.first, r.last, r.displacement]).collect())
        }
        Call::Walk => walk(nodes, edges, *root, *leaf, *address, *kind, usize::MAX),
    }
}

#[cfg(benchcalls_library)]
fn time_call(call: Call, graph: &Single) -> Option<f64> {
    use host::library;
    let Single { nodes, edges, root, leaf, address, kind, .. } = graph;
    let kind = library::kind_number(*kind);
    let expected = rust_call(call, graph);
    let mut out = vec![0; expected.as_ref().map_or(0, Vec::len)];
    let mut answer = 0;
    let millis = time(|| {
        answer = match call {
            Call::Check => library::check(nodes, edges),
            Call::List => library::list(nodes, edges, *root, *leaf, kind, &mut out),
            Call::Walk => library::walk(nodes, edges, *root, *leaf, *address, kind, &mut out),
        }
    });
    // A record is three numbers.
    let width = if call == Call::List { 3 } else { 1 };
    let written = expected.as_ref().map(|numbers| numbers.chunks(width).collect());
    assert_eq!(answer, library::count(&written.map_err(|refusal| *refusal)), "the answers differ");
    assert!(expected.is_ok_and(|numbers| numbers == out) || answer < 0, "the numbers differ");
    Some(millis)
}

#[cfg(not(benchcalls_library))]
fn time_call(_call: Call, _graph: &Single) -> Option<f64> {
    None
}

#[cfg(healdrip_library)]
fn time_text(text: &[u8]) -> Option<f64> {
    let expected = host::reference::text_check(text, usize::MAX).expect("the map is taken");
    let mut report = vec![0; expected.len()];
    let mut answer = 0;
    let millis = time(|| answer = host::library::text_check(text, &mut report));
    assert_eq!(answer, expected.len() as i64, "the answers differ");
    assert!(report == expected, "the reports differ");
    Some(millis)
}

#[cfg(not(healdrip_library))]
fn time_text(_text: &[u8]) -> Option<f64> {
    None
}

#[cfg(benchcalls_library)]
fn time_tables(tables: &host::reference::Tables) -> Option<f64> {
    use host::library;
    let mut answer = 0;
    let millis = time(|| answer = library::compare(tables));
    let expected = library::summary(&compare_by(tables, Listing::ByRoot));
    assert_eq!(answer, expected, "the answers differ");
    Some(millis)
}

#[cfg(not(benchcalls_library))]
fn time_tables(_tables: &host::reference::Tables) -> Option<f64> {
    None
}

/// A figure with two or more digits that count; none where nothing was timed.
fn shown(millis: Option<f64>) -> String {
    match millis {
        None => "-".to_string(),
        Some(millis) if millis < 0.1 => format!("{millis:.4}"),
        Some(millis) if millis < 10.0 => format!("{millis:.2}"),
        Some(millis) => format!("{millis:.0}"),
    }
}

fn ratio(one: Option<f64>, other: Option<f64>) -> String {
    match (one, other) {
        (Some(one), Some(other)) => format!("{:.2}", one / other),
        _ => "-".to_string(),
    }
}

/// Prints a table in markdown; none where it has no row.
fn print_table(title: &str, names: &[&str], rows: &[Vec<String>]) {
    if rows.is_empty() {
        return;
    }
    println!("\n### {title}\n\n| {} |\n|{}", names.join(" | "), "---|".repeat(names.len()));
    rows.iter().for_each(|row| println!("| {} |", row.join(" | ")));
}

/// The times, that of the proved code first, and it as a multiple of each other one.
fn cells(times: &[Option<f64>]) -> Vec<String> {
    let ratios = times[1..].iter().map(|&other| ratio(times[0], other));
    times.iter().map(|&time| shown(time)).chain(ratios).collect()
}

fn print_singles(graphs: &[Single]) {
    let mut rows = Vec::new();
    for graph in graphs {
        for &call in graph.calls {
            let name = match call {
                Call::Check => "check",
                Call::List => "list",
                Call::Walk => "walk",
            };
            let proved = time_call(call, graph);
            let rust = Some(time(|| rust_call(call, graph)));
            let times = [shown(proved), shown(rust), ratio(proved, rust)];
            rows.push([vec![name.to_string(), graph.name.to_string()], times.to_vec()].concat());
        }
    }
    print_table(ONE_GRAPH, &["Call", "Map", "Proved", "Rust", "Proved / Rust"], &rows);
}

/// A batch by the reference, with room for all rows.
fn rust_batch(batched: &Batch) -> BatchRows {
    let Batch { graph: Single { nodes, edges, root, leaf, kind, .. }, addresses } = batched;
    batch(nodes, edges, *root, *leaf, addresses, *kind, usize::MAX).expect("the batch is taken")
}

/// A batch by the verified code, and a walk for each of its addresses.
#[cfg(benchcalls_library)]
fn time_batch(batched: &Batch, expected: BatchRows) -> [Option<f64>; 2] {
    use host::library;
    let Batch { graph: Single { nodes, edges, root, leaf, kind, .. }, addresses } = batched;
    let kind = library::kind_number(*kind);
    let numbers = expected.rows.concat();
    let mut out = vec![0; numbers.len()];
    let mut answer = 0;
    let together =
        time(|| answer = library::batch(nodes, edges, *root, *leaf, addresses, kind, &mut out));
    assert!(out == numbers, "the rows differ");
    let mut bits = vec![0; expected.records];
    let mut walk = |&address| library::walk(nodes, edges, *root, *leaf, address, kind, &mut bits);
    let mut count = 0;
    let singly = time(|| count = addresses.iter().map(&mut walk).sum());
    assert_eq!(count, expected.rows.len() as i64, "the walks give other bits");
    assert_eq!(answer, library::counts(&Ok(expected)), "the answers differ");
    [Some(together), Some(singly)]
}

#[cfg(not(benchcalls_library))]
fn time_batch(_batched: &Batch, _expected: BatchRows) -> [Option<f64>; 2] {
    [None; 2]
}

/// Batches beside walks of the same addresses, and beside the reference.
fn print_batches(batches: &[Batch]) {
    let mut rows = Vec::new();
    for batched in batches {
        let expected = rust_batch(batched);
        let counts = [batched.addresses.len(), expected.rows.len()].map(|count| count.to_string());
        let mut row = vec![batched.graph.name.to_string()];
        row.extend(counts);
        let [together, singly] = time_batch(batched, expected);
        let rust = Some(time(|| rust_batch(batched)));
        row.extend([together, singly, rust].map(shown));
        row.extend([ratio(singly, together), ratio(together, rust)]);
        rows.push(row);
    }
    let names = ["List", "Addresses", "Rows", "Proved", "Proved by walks", "Rust"];
    print_table(BATCHES, &[&names[..], &["By walks / proved", "Proved / Rust"]].concat(), &rows);
}

const COLUMNS: [&str; 7] = [
    "Proved",
    "Rust by pair",
    "Rust by root",
    "Rust by lists",
    "Proved / by pair",
    "Proved / by root",
    "Proved / by lists",
];

fn print_texts(maps: &[Map]) {
    let mut rows = Vec::new();
    for map in maps.iter().filter(|map| AS_TEXT.contains(&map.name)) {
        let text = map.text().expect("the map fits into a text");
        let by = |listing| Some(time(|| text_check_by(&text, usize::MAX, listing)));
        let by_lists = Some(time(|| propagate::text_check(&text, usize::MAX)));
        let times = [time_text(&text), by(Listing::ByPair), by(Listing::ByRoot), by_lists];
        let mut row = vec![map.name.to_string(), text.len().to_string(), map.pairs().to_string()];
        row.extend(cells(&times));
        rows.push(row);
    }
    print_table(TEXT_CHECK, &[&["Map", "Bytes", "Pairs"], &COLUMNS[..]].concat(), &rows);
}

/// Maps with no access, with a single one, and with many.
fn print_accesses(maps: &[Map]) {
    let mut rows = Vec::new();
    for map in maps {
        let text = map.text().expect("the map fits into a text");
        let by_root = Some(time(|| text_check(&text, usize::MAX)));
        let by_lists = Some(time(|| propagate::text_check(&text, usize::MAX)));
        let counts = [map.closed(), text.len()].map(|count| count.to_string());
        let mut row = vec![map.name.to_string()];
        row.extend(counts);
        row.extend(cells(&[time_text(&text), by_root, by_lists]));
        rows.push(row);
    }
    let names = ["Map", "Nodes with an access", "Bytes", "Proved", "Rust by root", "Rust by lists"];
    let ratios = ["Proved / by root", "Proved / by lists"];
    print_table(ACCESS, &[&names[..], &ratios].concat(), &rows);
}

fn print_tables(maps: &[Map]) {
    let as_tables =
        |map: &&Map| !AS_TEXT.contains(&map.name) || AS_TEXT[..ALSO_AS_TABLES].contains(&map.name);
    let mut rows = Vec::new();
    for map in maps.iter().filter(as_tables) {
        let by = |listing| time(|| compare_by(&map.tables, listing));
        let by_pair = map.by_pair.then(|| by(Listing::ByPair));
        let by_lists = Some(time(|| propagate::compare(&map.tables)));
        let times = [time_tables(&map.tables), by_pair, Some(by(Listing::ByRoot)), by_lists];
        let mut row = vec![map.name.to_string(), map.pairs().to_string()];
        row.extend(cells(&times));
        rows.push(row);
    }
    print_table(COMPARISON, &[&["Map", "Pairs"], &COLUMNS[..]].concat(), &rows);
}

/// Milliseconds for one run, and what it gave.
fn time_once<T>(run: impl FnOnce() -> T) -> (f64, T) {
    let start = now();
    let given = black_box(run());
    (now() - start, given)
}

/// One run of the library with mapcheck's buffer; the answer must be this.
#[cfg(healdrip_library)]
fn time_text_once(text: &[u8], expected: &Result<Vec<u8>, Refusal>) -> Option<f64> {
    let mut report = vec![0; REPORT_ROOM];
    let (millis, answer) = time_once(|| host::library::text_check(text, &mut report));
    assert_eq!(answer, host::reference::coded(expected), "the answers differ");
    assert!(expected.iter().all(|bytes| report.starts_with(bytes)), "the reports differ");
    Some(millis)
}

#[cfg(not(healdrip_library))]
fn time_text_once(_text: &[u8], _expected: &Result<Vec<u8>, Refusal>) -> Option<f64> {
    None
}

/// The texts made to be slow.
fn print_hostile(texts: &[Hostile]) {
    let mut rows = Vec::new();
    for hostile in texts {
        let text = hostile.text();
        let (by_lists, expected) = time_once(|| propagate::text_check(&text, REPORT_ROOM));
        let (by_root, given) = time_once(|| text_check(&text, REPORT_ROOM));
        assert!(given == expected, "the engines differ");
        let asked = time_text_once(&text, &expected);
        let [roots, leaves] = hostile.rows();
        let lines = match &expected {
            // Two lines of names, an empty one and the last are no pair's.
            Ok(report) => (report.split(|&byte| byte == b'\n').count() - 5).to_string(),
            Err(refusal) => format!("refusal {}", refusal.number),
        };
        let pairs = format!("{roots} x {leaves}");
        let mut row = vec![hostile.name.clone(), text.len().to_string(), pairs, lines];
        row.extend(cells(&[asked, Some(by_root), Some(by_lists)]));
        rows.push(row);
    }
    let names = ["Text", "Bytes", "Pairs", "Lines"];
    let columns = ["Rust by root", "Rust by lists", "Proved / by root", "Proved / by lists"];
    print_table(HOSTILE, &[&names[..], &["Proved"], &columns].concat(), &rows);
}

/// A sheet read by the reference into buffers of the largest tables, filled with a number that
/// no table has: what it gave, and the buffers.
fn rust_sheet(text: &[u8]) -> (Result<[usize; 2], Refusal>, [Vec<i64>; 2]) {
    let rooms = [NODE_WIDTH * MAX_NODES, 3 * MAX_EDGES];
    let [mut nodes, mut edges] = rooms.map(|room| vec![-1; room]);
    (read_sheet(text, &mut nodes, &mut edges), [nodes, edges])
}

#[cfg(benchcalls_library)]
fn time_sheet(text: &[u8]) -> Option<f64> {
    use host::library;
    let (expected, buffers) = rust_sheet(text);
    let [mut nodes, mut edges] = [&buffers[0], &buffers[1]].map(|buffer| vec![-1; buffer.len()]);
    let mut answer = 0;
    let millis = time(|| answer = library::read_sheet(text, &mut nodes, &mut edges));
    assert_eq!(answer, library::lengths(&expected), "the answers differ");
    assert!([nodes, edges] == buffers, "the tables differ");
    Some(millis)
}

#[cfg(not(benchcalls_library))]
fn time_sheet(_text: &[u8]) -> Option<f64> {
    None
}

fn print_sheets(sheets: &[Sheet]) {
    let mut rows = Vec::new();
    for sheet in sheets {
        let (expected, [mut nodes, mut edges]) = rust_sheet(&sheet.text);
        let made = match expected {
            Ok([numbers, _]) => (numbers / NODE_WIDTH).to_string(),
            Err(refusal) => format!("refusal {}", refusal.number),
        };
        let [bytes, lines] = [sheet.text.len(), sheet.lines()].map(|count| count.to_string());
        let mut row = vec![sheet.name.to_string(), bytes, lines, made];
        let rust = time(|| read_sheet(&sheet.text, &mut nodes, &mut edges));
        row.extend(cells(&[time_sheet(&sheet.text), Some(rust)]));
        rows.push(row);
    }
    let names = ["Sheet", "Bytes", "Lines", "Nodes", "Proved", "Rust", "Proved / Rust"];
    print_table(SHEETS, &names, &rows);
}

/// Milliseconds from the start of a program to its end, the lowest of several.
fn time_program(program: &Path, text: &[u8]) -> f64 {
    let mut lowest = f64::INFINITY;
    let first = Instant::now();
    for start in 0..MOST_STARTS {
        if start >= FEWEST_STARTS && first.elapsed().as_secs_f64() * 1_000.0 > ENOUGH {
            break;
        }
        let begin = Instant::now();
        let mut child = Command::new(program)
            .stdin(Stdio::piped())
            .stdout(Stdio::piped())
            .spawn()
            .expect("the program starts");
        child.stdin.take().unwrap().write_all(text).expect("the program reads its input");
        let output = child.wait_with_output().expect("the program ends").stdout;
        lowest = lowest.min(begin.elapsed().as_secs_f64() * 1_000.0);
        assert!(output == printed(text), "{} prints something else", program.display());
    }
    lowest
}

/// The proved program, whose path the variable MAPCHECK has, beside the Rust program.
fn print_programs(maps: &[Map]) {
    let rust = std::env::current_exe().expect("this program has a path").with_file_name("mapcheck");
    let proved = std::env::var("MAPCHECK").ok().map(PathBuf::from);
    let mut rows = Vec::new();
    for map in maps.iter().filter(|map| AS_TEXT.contains(&map.name)) {
        let text = map.text().expect("the map fits into a text");
        let proved = proved.as_ref().map(|path| time_program(path, &text));
        let rust = rust.exists().then(|| time_program(&rust, &text));
        let times = [shown(proved), shown(rust), ratio(proved, rust)];
        rows.push([vec![map.name.to_string(), text.len().to_string()], times.to_vec()].concat());
    }
    let names = ["Map", "Bytes", "Proved", "Rust by root", "Proved / by root"];
    print_table(PROGRAM, &names, &rows);
}

#[cfg(healdrip_library)]
fn stack_of(text: &[u8]) -> Option<usize> {
    let report = host::reference::text_check(text, usize::MAX).expect("the map is taken");
    Some(host::stack::of_text_check(text, &mut vec![0; report.len()]))
}

#[cfg(not(healdrip_library))]
fn stack_of(_text: &[u8]) -> Option<usize> {
    None
}

fn print_stack(maps: &[Map]) {
    let mut rows = Vec::new();
    for map in maps {
        let stack = stack_of(&map.text().expect("the map fits into a text"));
        let stack = stack.map_or("-".to_string(), |bytes| bytes.to_string());
        let [pairs, closed] = [map.pairs(), map.closed()].map(|count| count.to_string());
        rows.push(vec![map.name.to_string(), pairs, closed, stack]);
    }
    print_table(STACK, &["Map", "Pairs", "Nodes with an access", "Bytes of stack"], &rows);
}

/// Bytes of stack that the verified code takes for a batch.
#[cfg(benchcalls_library)]
fn stack_of_batch(batched: &Batch) -> Option<usize> {
    let room = 2 * rust_batch(batched).rows.len();
    Some(host::stack::of_batch(batched, &mut vec![0; room]))
}

#[cfg(not(benchcalls_library))]
fn stack_of_batch(_batched: &Batch) -> Option<usize> {
    None
}

/// The stack that batches take, which grows with the records of the list.
fn print_batch_stack(batches: &[Batch]) {
    let mut rows = Vec::new();
    for batched in batches {
        let stack = stack_of_batch(batched).map_or("-".to_string(), |bytes| bytes.to_string());
        let count = batched.addresses.len().to_string();
        rows.push(vec![batched.graph.name.to_string(), count, stack]);
    }
    print_table(BATCH_STACK, &["List", "Addresses", "Bytes of stack"], &rows);
}

/// Which maps are asked for, by a part of their names or of a table's title.
struct Wanted {
    part: String,
    long: bool,
}

impl Wanted {
    fn has(&self, title: &str, name: &str) -> bool {
        title.contains(&self.part) || name.contains(&self.part)
    }

    /// Those of the batches that the table of that title has.
    fn batches(&self, title: &str) -> Vec<Batch> {
        batches().into_iter().filter(|batched| self.has(title, batched.graph.name)).collect()
    }

    /// Those of the maps that the table of that title has.
    fn among(&self, title: &str, maps: impl IntoIterator<Item = Map>) -> Vec<Map> {
        let wanted = |map: &Map| self.has(title, map.name) && (self.long || !map.long);
        maps.into_iter().filter(wanted).collect()
    }
}

/// The processor's name, how many there are, and how busy they are.
fn machine() -> String {
    let read = |path: &str| std::fs::read_to_string(path).unwrap_or_default();
    let cpuinfo = read("/proc/cpuinfo");
    let name = cpuinfo.lines().find_map(|line| line.strip_prefix("model name")).unwrap_or("");
    let name = name.trim_start_matches([' ', '\t', ':']);
    let count = std::thread::available_parallelism().map_or(1, |count| count.get());
    let load = read("/proc/loadavg");
    let load = load.split(' ').next().unwrap_or("").to_string();
    format!("{name}, {count} processors, load average {load} at the start")
}

fn main() {
    let (options, names): (Vec<String>, Vec<String>) =
        std::env::args().skip(1).partition(|word| word.starts_with("--"));
    assert!(options.iter().all(|option| option == "--long"), "usage: bench [--long] [NAME]");
    let part = names.first().cloned().unwrap_or_default();
    let wanted = Wanted { part, long: !options.is_empty() };
    println!(
        "Machine: {}. Command: `./bench{}`. Times in milliseconds, the lowest of several runs.",
        machine(),
        std::env::args().skip(1).map(|word| format!(" {word}")).collect::<String>()
    );
    let graphs = singles().into_iter().filter(|graph| wanted.has(ONE_GRAPH, graph.name));
    print_singles(&graphs.collect::<Vec<_>>());
    print_batches(&wanted.batches(BATCHES));
    print_texts(&wanted.among(TEXT_CHECK, maps()));
    print_accesses(&wanted.among(ACCESS, access_maps()));
    print_tables(&wanted.among(COMPARISON, maps()));
    let slow = texts().into_iter().filter(|text| wanted.has(HOSTILE, &text.name));
    print_hostile(&slow.collect::<Vec<_>>());
    let sheets = sheets().into_iter().filter(|sheet| wanted.has(SHEETS, sheet.name));
    print_sheets(&sheets.collect::<Vec<_>>());
    print_programs(&wanted.among(PROGRAM, maps()));
    let deep = deep_maps().into_iter().chain(deep_maps_with_accesses());
    print_stack(&wanted.among(STACK, deep));
    print_batch_stack(&wanted.batches(BATCH_STACK));
}
