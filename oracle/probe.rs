//! The program probe (scope, Checked values): key=value lines in, what the calls return out. A line that cannot be read as its kind ends it.
use crate::order;
use crate::sizes;
use crate::stores::{Asked, Scratch, Stores};
use crate::trace::{self, Trace};
use std::fmt::Display;

/// The largest of each that the probe has room for.
const CAPACITY: usize = 64;
const DEGREE: usize = 32;
const DIMENSION: usize = 64;
const SCRATCH: Scratch = sizes::scratch(CAPACITY);

/// What `all` prints beside the probe's lines goes through here.
struct Printer {
    text: String,
    all: bool,
}

impl Printer {
    fn line(&mut self, line: String) {
        self.text += &line;
        self.text += "\n";
    }

    fn aside<T: Display>(&mut self, name: impl Display, items: impl IntoIterator<Item = T>) {
        if self.all {
            let items: Vec<String> = items.into_iter().map(|item| format!(" {item}")).collect();
            self.line(format!("{name}:{}", items.concat()));
        }
    }

    fn built(&mut self, trace: &Trace) {
        self.aside("centroid", bits(&trace.centroid));
        for positions in &trace.draws {
            self.aside("leaders", positions);
        }
        for leaf in &trace.leaves {
            self.aside("leaf", leaf);
        }
        for (node, cells) in &trace.cells {
            self.aside(format!("cells of {node}"), pairs(cells));
        }
        for (node, list) in &trace.merged {
            self.aside(format!("merged of {node}"), pairs(list));
        }
        for (node, list) in trace.lists_before_repair.iter().enumerate() {
            self.aside(format!("list of {node}"), list);
        }
        for (near, far) in &trace.bridges {
            self.aside("bridge", [near, far]);
        }
    }
}

fn bits(values: &[f32]) -> Vec<String> {
    values
        .iter()
        .map(|&x| format!("{:08x}", order::bits(x)))
        .collect()
}

fn pairs(items: &[(u32, f32)]) -> Vec<String> {
    items
        .iter()
        .map(|&(node, distance)| format!("{node}={:08x}", order::bits(distance)))
        .collect()
}

/// Decimal digits and nothing else, of a number that fits.
fn decimal(text: &str) -> Option<u32> {
    text.bytes()
        .all(|b| b.is_ascii_digit())
        .then(|| text.parse().ok())?
}

/// This number of hexadecimal digits in lower case and nothing else.
fn hexadecimal(text: &str, digits: usize) -> Option<u64> {
    let good = text.len() == digits && text.bytes().all(|b| matches!(b, b'0'..=b'9' | b'a'..=b'f'));
    good.then(|| u64::from_str_radix(text, 16).ok())?
}

fn components<'a>(texts: impl Iterator<Item = &'a str>) -> Option<Vec<u32>> {
    texts
        .map(|text| hexadecimal(text, 8).map(|x| x as u32))
        .collect()
}

/// The ten header lines, in their order.
fn header<'a>(lines: &mut impl Iterator<Item = &'a str>) -> Option<Asked> {
    let mut value = |key: &str| lines.next()?.strip_prefix(key)?.strip_prefix('=');
    Some(Asked {
        dimension: decimal(value("dim")?)?,
        max_leaf_size: decimal(value("leaf")?)?,
        min_leaf_size: decimal(value("min")?)?,
        leader_fraction: hexadecimal(value("fraction")?, 16)?,
        max_degree: decimal(value("degree")?)?,
        num_hash_bits: decimal(value("bits")?)?,
        final_prune: decimal(value("final")?)?,
        alpha: hexadecimal(value("alpha")?, 8)? as u32,
        ef_search: decimal(value("ef")?)?,
        capacity: decimal(value("cap")?).filter(|&cap| cap as usize <= CAPACITY)?,
    })
}

pub fn run(input: &[u8], all: bool) -> String {
    let input = String::from_utf8_lossy(input);
    let mut lines = input.split_terminator('\n');
    let mut words = vec![0; sizes::words(CAPACITY, DEGREE)];
    let mut floats = vec![0; sizes::floats(CAPACITY, DIMENSION)];
    let mut stores = Stores {
        words: &mut words,
        floats: &mut floats,
    };
    let mut printer = Printer {
        text: String::new(),
        all,
    };
    if let Some(asked) = header(&mut lines) {
        refused(&mut printer, stores.new(&asked));
        while lines
            .next()
            .and_then(|line| call(line, &mut stores, &mut printer))
            .is_some()
        {}
    }
    printer.text
}

/// Prints a refusal, and says whether there was one.
fn refused(printer: &mut Printer, number: u32) -> bool {
    if number != 0 {
        printer.line(format!("refused={number}"));
    }
    number != 0
}

/// One line after the header; none if it cannot be read.
fn call(line: &str, stores: &mut Stores, printer: &mut Printer) -> Option<()> {
    let (key, value) = line.split_once('=')?;
    let mut fields = value.split(',');
    match key {
        "add" => {
            let (doc, vector) = (decimal(fields.next()?)?, components(fields)?);
            add(stores, printer, doc, &vector);
        }
        "build" if value == "1" => build(stores, printer),
        "find" => {
            let (k, ef) = (decimal(fields.next()?)?, decimal(fields.next()?)?);
            find(stores, printer, k, ef, &components(fields)?);
        }
        _ => return None,
    }
    Some(())
}

fn add(stores: &mut Stores, printer: &mut Printer, doc: u32, vector: &[u32]) {
    let node = stores.words[2] as usize;
    if !refused(printer, stores.add(doc, vector)) {
        printer.aside("length", bits(&[trace::take().length]));
        let stored = &stores.floats[node * vector.len()..][..vector.len()];
        printer.aside(
            format!("vector of {node}"),
            stored.iter().map(|x| format!("{x:08x}")),
        );
    }
}

fn build(stores: &mut Stores, printer: &mut Printer) {
    let (number, trace) = stores.build(SCRATCH);
    if !refused(printer, number) {
        if let Some(trace) = trace {
            printer.built(&trace);
        }
        printer.line(format!(
            "entry={} bridges={}",
            stores.entry(),
            stores.bridge_count()
        ));
    }
}

fn find(stores: &Stores, printer: &mut Printer, k: u32, ef: u32, query: &[u32]) {
    let (number, found) = stores.find(SCRATCH, k, ef, (CAPACITY, CAPACITY), query);
    if refused(printer, number) {
        return;
    }
    printer.line(format!("scored={}", found.scored.len()));
    printer.aside("walk", pairs(&found.scored));
    for (place, (doc, distance)) in found.docs.iter().zip(bits(&found.distances)).enumerate() {
        printer.line(format!("rank={} doc={doc} dist={distance}", place + 1));
    }
}
