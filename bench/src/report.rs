//! The tables, the medians of their passes, and the summary.

const NOISE: f64 = 1.10;
/// Over the slice function, from 4 KiB on.
pub const SLICE_LIMIT: f64 = 1.20;
/// For a log, in milliseconds.
const LOG_LIMIT: f64 = 100.0;

/// What a table's times are.
#[derive(Clone, PartialEq)]
pub enum Columns {
    /// Nanoseconds of library, model, floor and another, unless its name is empty; ratios of the library's to each.
    Contestants { other: String },
    /// Nanoseconds of the library behind many blocks and behind few; their ratio.
    ManyAndFew,
    /// Milliseconds of program and model.
    Logs,
}

/// Places of the contestants' columns.
const MODEL: usize = 1;
const FLOOR: usize = 2;
const OTHER: usize = 3;

#[derive(Clone)]
struct Line {
    name: String,
    /// By column.
    times: Vec<Option<f64>>,
    /// Of the first time to each column's.
    ratios: Vec<Option<f64>>,
    slice_target: bool,
}

#[derive(Clone)]
pub struct Table {
    /// The name by which it is chosen.
    pub key: &'static str,
    title: String,
    columns: Columns,
    lines: Vec<Line>,
}

fn number(ns: f64) -> String {
    match ns {
        _ if ns < 100.0 => format!("{ns:.2}"),
        _ if ns < 100_000.0 => format!("{ns:.0}"),
        _ => format!("{:.0}k", ns / 1000.0),
    }
}

fn rounded(ratio: f64) -> f64 {
    (ratio * 100.0).round() / 100.0
}

fn median(mut numbers: Vec<f64>) -> Option<f64> {
    numbers.sort_by(f64::total_cmp);
    numbers.get(numbers.len() / 2).copied()
}

/// The median of each column.
fn medians(passes: Vec<&Vec<Option<f64>>>) -> Vec<Option<f64>> {
    (0..passes[0].len()).map(|column| median(passes.iter().filter_map(|pass| pass[column]).collect())).collect()
}

impl Table {
    pub fn new(title: &str, columns: Columns) -> Table {
        Table { key: "", title: title.to_string(), columns, lines: Vec::new() }
    }

    pub fn push(&mut self, name: &str, times: Vec<Option<f64>>, slice_target: bool) {
        let ratios = times.iter().map(|&time| times[0].zip(time).map(|(first, time)| first / time)).collect();
        self.lines.push(Line { name: name.to_string(), times, ratios, slice_target });
    }

    fn print(&self) {
        let (names, with_ratios) = match &self.columns {
            Columns::Contestants { other } => (vec!["library ns", "model ns", "floor ns", other], true),
            Columns::ManyAndFew => (vec!["100,000 ns", "10 ns"], true),
            Columns::Logs => (vec!["program ms", "model ms"], false),
        };
        let used = |column: usize| self.lines.iter().any(|line| line.times[column].is_some());
        let columns: Vec<usize> = (0..names.len()).filter(|&column| used(column)).collect();
        let ratio_behind = |column: usize| with_ratios && column > 0;
        print!("\n{:<40}", self.title);
        for &column in &columns {
            print!("{:>11}{}", names[column], if ratio_behind(column) { "   ratio" } else { "" });
        }
        println!();
        for line in &self.lines {
            let mut text = format!("{:<40}", line.name);
            for &column in &columns {
                text += &format!("{:>11}", line.times[column].map_or(String::new(), number));
                if ratio_behind(column) {
                    text += &line.ratios[column].map_or(" ".repeat(8), |ratio| format!("{ratio:>8.2}"));
                }
            }
            println!("{}", text.trim_end());
        }
    }
}

/// For each line the median of each time and of each ratio over the passes, which measured the same lines.
pub fn of_passes(passes: &[Vec<Table>]) -> Vec<Table> {
    let mut tables = passes[0].clone();
    for (at, table) in tables.iter_mut().enumerate() {
        for (nth, line) in table.lines.iter_mut().enumerate() {
            let all: Vec<&Line> = passes.iter().map(|pass| &pass[at].lines[nth]).collect();
            assert!(all.iter().all(|other| other.name == line.name), "{}", line.name);
            line.times = medians(all.iter().map(|line| &line.times).collect());
            line.ratios = medians(all.iter().map(|line| &line.ratios).collect());
        }
    }
    tables
}

pub fn print(tables: &[Table]) {
    tables.iter().for_each(Table::print);
}

// ---- the summary

/// What is asked of the ratios of some lines.
struct Target {
    what: &'static str,
    to: &'static str,
    column: usize,
    limit: f64,
    /// By table and line.
    asks: fn(&str, &str) -> bool,
}

fn is_access(table: &str, line: &str) -> bool {
    table == "accesses" && (line.starts_with("load ") || line.starts_with("store "))
}

const TARGETS: [Target; 7] = [
    Target { what: "load and store", to: "model", column: MODEL, limit: 0.75, asks: is_access },
    Target { what: "load and store", to: "floor", column: FLOOR, limit: 1.25, asks: is_access },
    Target { what: "refused calls", to: "model", column: MODEL, limit: 0.80, asks: |table, _| table == "refused" },
    Target { what: "move", to: "model", column: MODEL, limit: 0.80, asks: |table, line| table == "accesses" && line.starts_with("move ") },
    Target {
        what: "fill and copy of 16 bytes",
        to: "model",
        column: MODEL,
        limit: 0.75,
        asks: |table, line| table == "bulk" && (line.starts_with("fill 16 B") || line.starts_with("copy 16 B")),
    },
    Target {
        what: "allocate, free, tally and release",
        to: "model",
        column: MODEL,
        limit: 1.00,
        asks: |table, _| ["few", "many", "releases"].contains(&table),
    },
    Target {
        what: "fill, copy and set-up of 1 MiB",
        to: "slice functions",
        column: OTHER,
        limit: 1.05,
        asks: |table, line| table == "bulk" && line.contains(" 1 MiB"),
    },
];

/// Names and ratios.
fn list<'a>(lines: impl IntoIterator<Item = (&'a str, f64)>) -> String {
    let names: Vec<String> = lines.into_iter().map(|(name, ratio)| format!("{name} ({ratio:.2})")).collect();
    if names.is_empty() {
        "none".to_string()
    } else {
        names.join("; ")
    }
}

impl Target {
    /// Ratios are taken as they are printed.
    fn verdict(&self, tables: &[Table]) -> String {
        let asked = tables.iter().flat_map(|table| table.lines.iter().filter(|line| (self.asks)(table.key, &line.name)));
        let ratios: Vec<(&str, f64)> = asked.filter_map(|line| Some((&*line.name, rounded(line.ratios[self.column]?)))).collect();
        let missed: Vec<(&str, f64)> = ratios.iter().copied().filter(|&(_, ratio)| ratio > self.limit).collect();
        match (ratios.len(), missed.len()) {
            (0, _) => "not measured".to_string(),
            (lines, 0) => format!("met by all {lines} lines, {:.2} at most", ratios.iter().fold(0.0, |most: f64, &(_, ratio)| most.max(ratio))),
            (lines, some) => format!("missed by {some} of {lines} lines: {}", list(missed)),
        }
    }
}

pub fn summary(tables: &[Table]) {
    println!("\nTargets, by the ratios as printed:");
    for target in &TARGETS {
        println!("  {}, {:.2} of the {}: {}", target.what, target.limit, target.to, target.verdict(tables));
    }
    let lines = |wanted: fn(&Columns) -> bool| tables.iter().filter(move |table| wanted(&table.columns)).flat_map(|table| &table.lines);
    let contests = || lines(|columns| matches!(columns, Columns::Contestants { .. }));
    let over = |column: usize, above: f64, to: f64| {
        contests().filter_map(move |line| Some((line, line.ratios[column]?))).filter(move |&(_, ratio)| above < ratio && ratio <= to)
    };
    println!("Slower than the model by more than 10 %: {}", list(over(MODEL, NOISE, f64::INFINITY).map(|(line, ratio)| (&*line.name, ratio))));
    println!("By at most 10 %, the noise: {}", list(over(MODEL, 1.0, NOISE).map(|(line, ratio)| (&*line.name, ratio))));
    let slices = over(OTHER, SLICE_LIMIT, f64::INFINITY).filter(|(line, _)| line.slice_target);
    println!("From 4 KiB on, over {SLICE_LIMIT:.2} of the slice function: {}", list(slices.map(|(line, ratio)| (&*line.name, ratio))));
    let behind = lines(|columns| *columns == Columns::ManyAndFew).filter_map(|line| Some((&*line.name, line.ratios[1]?)));
    println!("Slower behind 100,000 blocks than behind 10 by more than 10 %: {}", list(behind.filter(|&(_, ratio)| ratio > NOISE)));
    let logs = lines(|columns| *columns == Columns::Logs).filter_map(|line| Some((&*line.name, line.times[0]?)));
    println!("Logs over {LOG_LIMIT} ms: {}", list(logs.filter(|&(_, ms)| ms > LOG_LIMIT)));
}

#[cfg(test)]
mod tests {
    use super::*;

    fn pass(library: f64, model: f64) -> Vec<Table> {
        let mut table = Table::new("a call", Columns::Contestants { other: String::new() });
        table.push("load 1", vec![Some(library), Some(model), None, None], false);
        vec![table]
    }

    /// Of 9/6, 2/5 and 4/4 the median is 1, and not the medians' ratio, 4/5.
    #[test]
    fn medians_of_times_and_of_ratios() {
        let tables = of_passes(&[pass(9.0, 6.0), pass(2.0, 5.0), pass(4.0, 4.0)]);
        let line = &tables[0].lines[0];
        assert_eq!(line.times, [Some(4.0), Some(5.0), None, None]);
        assert_eq!(line.ratios, [Some(1.0), Some(1.0), None, None]);
    }

    /// A ratio that is printed as the limit meets it.
    #[test]
    fn verdicts() {
        let verdict = |library: f64| {
            let mut tables = pass(library, 1.0);
            tables[0].key = "accesses";
            TARGETS[0].verdict(&tables)
        };
        assert_eq!(verdict(0.754), "met by all 1 lines, 0.75 at most");
        assert_eq!(verdict(0.756), "missed by 1 of 1 lines: load 1 (0.76)");
        assert_eq!(TARGETS[0].verdict(&[]), "not measured");
    }
}
