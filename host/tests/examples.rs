//! The files under examples/ and the pages that show them. A map has its report
//! beside it and a sheet its tables, worked out without the library; a map, report,
//! sheet or table on a page is the text of its file.

use host::reference::{coded, printed, refusal_report, text_check, REPORT_ROOM};
use host::sheet::{parse, tables};
use std::fs;
use std::path::{Path, PathBuf};

const PAGES: [&str; 4] = ["README.md", "docs/MAP-FILE.md", "docs/SHEET.md", "docs/REFUSALS.md"];
const REFUSALS_PAGE: &str = "docs/REFUSALS.md";
const SHEET_PAGE: &str = "docs/SHEET.md";
const REFUSED: &str = "examples/refused";
const REFUSED_SHEETS: &str = "examples/sheet/refused";
const FENCE: &str = "```";

/// How the names lines of maps, reports, refusals and sheets begin when they are shown.
const SHOWN: [&str; 6] = [
    "side kind",
    "side from",
    "role spec",
    "root leaf verdict",
    "refusal table",
    "initiator block",
];

/// The top folder of the repository, which holds this project's folder.
fn top() -> &'static Path {
    Path::new(env!("CARGO_MANIFEST_DIR")).parent().unwrap()
}

fn bytes_of(path: &Path) -> Vec<u8> {
    fs::read(path).unwrap_or_else(|error| panic!("{}: {error}", path.display()))
}

fn page(name: &str) -> String {
    String::from_utf8(bytes_of(&top().join(name))).unwrap()
}

/// The files below a folder with that extension, in order of their names.
fn files(folder: &Path, extension: &str) -> Vec<PathBuf> {
    let mut found = Vec::new();
    for entry in fs::read_dir(folder).unwrap() {
        let path = entry.unwrap().path();
        if path.is_dir() {
            found.extend(files(&path, extension));
        } else if path.extension().is_some_and(|end| end == extension) {
            found.push(path);
        }
    }
    found.sort();
    found
}

fn maps() -> Vec<PathBuf> {
    let maps = files(&top().join("examples"), "map");
    assert!(!maps.is_empty(), "no map under examples/");
    maps
}

fn sheets() -> Vec<PathBuf> {
    let sheets = files(&top().join("examples"), "sheet");
    assert!(!sheets.is_empty(), "no sheet under examples/");
    sheets
}

fn report_of(map: &Path) -> Vec<u8> {
    bytes_of(&map.with_extension("report"))
}

/// What is to be printed for a map or for a sheet.
fn answer_of(file: &Path) -> Vec<u8> {
    let is_map = file.extension().is_some_and(|end| end == "map");
    bytes_of(&file.with_extension(if is_map { "report" } else { "tables" }))
}

fn as_text(bytes: &[u8]) -> String {
    String::from_utf8_lossy(bytes).into_owned()
}

#[test]
fn a_report_beside_each_map() {
    for map in maps() {
        assert!(map.with_extension("report").is_file(), "{}: no report", map.display());
    }
    for report in files(&top().join("examples"), "report") {
        assert!(report.with_extension("map").is_file(), "{}: no map", report.display());
    }
}

#[test]
fn tables_beside_each_sheet() {
    for sheet in sheets() {
        assert!(sheet.with_extension("tables").is_file(), "{}: no tables", sheet.display());
    }
    for tables in files(&top().join("examples"), "tables") {
        assert!(tables.with_extension("sheet").is_file(), "{}: no sheet", tables.display());
    }
}

/// Rows of side 0 below their names.
fn side_0(names: &str, numbers: &[i64], width: usize) -> String {
    let line = |row: &[i64]| row.iter().fold("0".into(), |line: String, n| format!("{line} {n}"));
    numbers.chunks(width).fold(format!("{names}\n"), |text, row| format!("{text}{}\n", line(row)))
}

/// What is printed for a sheet.
fn printed_tables(text: &[u8]) -> String {
    const LINES: usize = 2_600;
    let lines = match parse(text) {
        Ok(lines) if lines.len() <= LINES => lines,
        Ok(_) => return "refusal table row\n1 1 0\n".into(),
        Err(refusal) => return as_text(&refusal_report(&refusal)),
    };
    let [nodes, edges] = tables(&lines);
    // The tables of a sheet have no column access, since every node is open.
    assert!(nodes.chunks(5).all(|node| node[4] == 0));
    let nodes: Vec<i64> = nodes.chunks(5).flat_map(|node| &node[..4]).copied().collect();
    let nodes = side_0("side kind base range unit", &nodes, 4);
    format!("{nodes}\n{}", side_0("side from to offset", &edges, 3))
}

#[test]
fn the_reference_prints_the_tables() {
    for sheet in sheets() {
        let answer = printed_tables(&bytes_of(&sheet));
        assert_eq!(answer, as_text(&answer_of(&sheet)), "{}", sheet.display());
    }
}

/// The map that docs/SHEET.md puts together has the tables of its sheet on side 0.
#[test]
fn a_map_from_a_sheet() {
    let [text, nodes, edges, pairs, map] = ["tables", "nodes", "edges", "pairs", "map"]
        .map(|end| page(&format!("examples/sheet/soc.{end}")));
    let (node_lines, edge_lines) = text.split_once("\n\n").unwrap();
    assert_eq!(map, format!("{node_lines}\n{nodes}\n{edge_lines}{edges}\n{pairs}"));
}

#[test]
fn the_reference_prints_the_reports() {
    for map in maps() {
        let answer = as_text(&printed(&bytes_of(&map)));
        assert_eq!(answer, as_text(&report_of(&map)), "{}", map.display());
    }
}

#[cfg(healdrip_library)]
#[test]
fn the_library_prints_the_reports() {
    use host::reference::{coded_refusal, refusal};
    const UNTOUCHED: u8 = 170;
    for map in maps() {
        let mut buffer = vec![UNTOUCHED; REPORT_ROOM];
        let answer = host::library::text_check(&bytes_of(&map), &mut buffer);
        let report = as_text(&report_of(&map));
        let mut wanted = vec![UNTOUCHED; REPORT_ROOM];
        let code = match report.strip_prefix("refusal table row\n") {
            Some(numbers) => {
                let numbers: Vec<usize> =
                    numbers.split_whitespace().map(|number| number.parse().unwrap()).collect();
                coded_refusal(&refusal(numbers[0] as i64, numbers[1], numbers[2]))
            }
            None => {
                wanted[..report.len()].copy_from_slice(report.as_bytes());
                report.len() as i64
            }
        };
        assert_eq!(answer, code, "{}", map.display());
        assert!(buffer == wanted, "{}: bytes of the buffer", map.display());
    }
}

/// A fenced block of a page: the words after its opening marks, and its text.
struct Block {
    words: Vec<String>,
    text: String,
}

fn blocks(page: &str) -> Vec<Block> {
    let mut found = Vec::new();
    let mut lines = page.lines();
    while let Some(line) = lines.next() {
        if let Some(words) = line.strip_prefix(FENCE) {
            let words = words.split_whitespace().map(String::from).collect();
            let inside = lines.by_ref().take_while(|line| *line != FENCE);
            let text = inside.map(|line| format!("{line}\n")).collect();
            found.push(Block { words, text });
        }
    }
    found
}

/// A block whose second word names a file shows that file. No other block shows a map
/// or a report.
#[test]
fn pages_show_the_files() {
    for name in PAGES {
        for block in blocks(&page(name)) {
            if let Some(file) = block.words.get(1) {
                assert_eq!(block.text, as_text(&bytes_of(&top().join(file))), "{name}: {file}");
            } else {
                let shows = |line: &str| SHOWN.iter().any(|start| line.starts_with(start));
                assert!(!block.text.lines().any(shows), "{name}: no file is named\n{}", block.text);
            }
        }
    }
}

/// Line number and text of a cell such as "3: `0 3 256 64 8`".
fn quoted_line(cell: &str) -> Option<(usize, &str)> {
    let (number, text) = cell.split_once(": `")?;
    Some((number.parse().ok()?, text.strip_suffix('`')?))
}

/// The file that a row of one of the page's tables names: a map, or a sheet.
fn named_file(row: &str) -> Option<PathBuf> {
    let name = row.strip_prefix("| `")?.split('`').next()?;
    let numbered = name.starts_with(|first: char| first.is_ascii_digit());
    let map = top().join(REFUSED).join(format!("{name}.map"));
    let sheet = top().join(REFUSED_SHEETS).join(format!("{name}.sheet"));
    numbered.then_some(if map.is_file() { map } else { sheet })
}

/// A row tells of its file the changed line and the refusal.
fn row_holds(row: &str, file: &Path) {
    let cells: Vec<&str> = row.split('|').map(str::trim).collect();
    let answer = as_text(&answer_of(file));
    let numbers = answer.lines().nth(1).unwrap();
    assert_eq!(cells[3], format!("`{numbers}`"), "{}", file.display());
    if let Some((number, line)) = quoted_line(cells[2]) {
        let text = as_text(&bytes_of(file));
        assert_eq!(text.lines().nth(number - 1), Some(line), "{}", file.display());
    }
}

/// Each refused file has a row on its page.
#[test]
fn the_page_has_each_refused_file() {
    for (name, folder, end) in
        [(REFUSALS_PAGE, REFUSED, "map"), (SHEET_PAGE, REFUSED_SHEETS, "sheet")]
    {
        let page = page(name);
        for file in files(&top().join(folder), end) {
            let stem = file.file_stem().unwrap().to_str().unwrap();
            let row = page.lines().find(|line| line.starts_with(&format!("| `{stem}` |")));
            row_holds(row.unwrap_or_else(|| panic!("{name}: {stem} is missing")), &file);
        }
    }
}

#[test]
fn the_page_codes_a_refusal() {
    let text = bytes_of(&top().join(REFUSED).join("14-hexadecimal.map"));
    let code = coded(&text_check(&text, REPORT_ROOM));
    assert!(page(REFUSALS_PAGE).contains(&format!("= \u{2212}{}.", -code)), "{code}");
}

/// A row of a table of the page names a file that is there, and tells of it.
#[test]
fn the_page_names_no_other_file() {
    for row in page(REFUSALS_PAGE).lines() {
        if let Some(file) = named_file(row) {
            assert!(file.is_file(), "{REFUSALS_PAGE}: no file {}", file.display());
            row_holds(row, &file);
        }
    }
}
