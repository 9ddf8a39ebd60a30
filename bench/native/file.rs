//! The fields of a file that the benchmarks have. Another keyword, section or type ends the program.

use crate::fail;
use crate::text::Source;

const MOST_NODES: i64 = 100_000;
const MOST_WEIGHT: u64 = 1_000_000_000_000;
const MOST_POTENTIAL: i64 = 1_000_000_000_000_000;
const MOST_DEMAND: i64 = 1_000_000_000;

#[derive(Default)]
pub struct Fields {
    pub kind: String,
    pub count: usize,
    pub capacity: i64,
    pub unit: Option<i64>,
    pub scale: Option<i64>,
    pub weight_type: String,
    pub layout: String,
    pub weights: Vec<i64>,
    pub points: Vec<[i64; 3]>,
    pub demands: Vec<i64>,
    pub depots: Vec<i64>,
    pub tours: Tours,
    pub numbers: Vec<i64>,
    pub rows: Vec<i64>,
    pub columns: Vec<i64>,
    pub families: Vec<i64>,
    pub memories: Vec<i64>,
    pub subset_rows: Vec<i64>,
    pub tree: Vec<i64>,
}

/// The nodes of all tours, and behind which of them each tour ends.
#[derive(Default)]
pub struct Tours {
    pub nodes: Vec<u32>,
    pub ends: Vec<usize>,
}

impl Tours {
    fn read(source: &mut Source) -> Tours {
        let mut tours = Tours::default();
        source.numbers(|word| match word {
            -1 => tours.end(),
            node @ 1..=MOST_NODES => tours.nodes.push(node as u32),
            _ => fail("a node is out of range"),
        });
        tours.end();
        tours
    }

    fn end(&mut self) {
        if self.nodes.len() > self.ends.last().copied().unwrap_or(0) {
            self.ends.push(self.nodes.len());
        }
    }

    pub fn iter(&self) -> impl Iterator<Item = &[u32]> {
        let starts = std::iter::once(0).chain(self.ends.iter().copied());
        starts.zip(&self.ends).map(|(start, end)| &self.nodes[start..*end])
    }
}

fn number(value: &str) -> i64 {
    value.parse().unwrap_or_else(|_| fail(value))
}

/// A section with an entry for each node once, in any order.
fn by_node<T: Clone>(source: &mut Source, count: usize, none: T, read: impl Fn(&mut Source) -> T) -> Vec<T> {
    let (mut entries, mut seen) = (vec![none; count], vec![false; count]);
    for _ in 0..count {
        let place = source.whole().wrapping_sub(1) as usize;
        if place >= count || std::mem::replace(&mut seen[place], true) {
            fail("a node is out of range, or comes twice");
        }
        entries[place] = read(source);
    }
    entries
}

fn point(source: &mut Source, in_space: bool) -> [i64; 3] {
    let (x, y) = (source.decimal(), source.decimal());
    [x, y, if in_space { source.decimal() } else { 0 }]
}

/// The numbers of a section up to the next keyword.
fn listed(source: &mut Source) -> Vec<i64> {
    let mut numbers = Vec::new();
    source.numbers(|number| numbers.push(number));
    numbers
}

fn within(value: i64, low: i64, high: i64) -> i64 {
    if value < low || value > high {
        fail("a number is out of range");
    }
    value
}

impl Fields {
    pub fn read(path: &str) -> Fields {
        let mut source = Source::open(path);
        let mut fields = Fields::default();
        while source.peek() != 0 {
            let (keyword, value) = source.line();
            if keyword == "EOF" {
                break;
            }
            if keyword.ends_with("_SECTION") {
                fields.section(&keyword, &mut source);
            } else {
                fields.keyword(&keyword, value);
            }
        }
        fields
    }

    fn keyword(&mut self, keyword: &str, value: String) {
        match keyword {
            "NAME" | "COMMENT" | "DISPLAY_DATA_TYPE" => (),
            "NODE_COORD_TYPE" if value == "TWOD_COORDS" => (),
            "TYPE" => self.kind = value,
            "DIMENSION" => self.count = within(number(&value), 1, MOST_NODES) as usize,
            "CAPACITY" => self.capacity = number(&value),
            "LOAD_UNIT" => self.unit = Some(number(&value)),
            "SCALE" => self.scale = Some(within(number(&value), 1, 1_000_000)),
            "EDGE_WEIGHT_TYPE" => self.weight_type = value,
            "EDGE_WEIGHT_FORMAT" => self.layout = value,
            _ => fail(keyword),
        }
    }

    fn section(&mut self, keyword: &str, source: &mut Source) {
        let potential = |source: &mut Source| within(source.whole(), -MOST_POTENTIAL, MOST_POTENTIAL);
        let demand = |source: &mut Source| within(source.whole(), 0, MOST_DEMAND);
        let (count, in_space) = (self.count, self.weight_type == "EUC_3D");
        match keyword {
            "NODE_COORD_SECTION" => self.points = by_node(source, count, [0; 3], |it| point(it, in_space)),
            "DEMAND_SECTION" => self.demands = by_node(source, count, 0, demand),
            "NODE_POTENTIAL_SECTION" => self.numbers = by_node(source, count, 0, potential),
            "ROW_POTENTIAL_SECTION" => self.rows = by_node(source, count, 0, potential),
            "COLUMN_POTENTIAL_SECTION" => self.columns = by_node(source, count, 0, potential),
            "TOUR_SECTION" => self.tours = Tours::read(source),
            "COMB_SECTION" => self.families = listed(source),
            "MEMORY_SECTION" => self.memories = listed(source),
            "SUBSET_ROW_SECTION" => self.subset_rows = listed(source),
            "BRANCH_SECTION" => self.tree = listed(source),
            "EDGE_WEIGHT_SECTION" => {
                self.weights = vec![0; self.cells()];
                source.wholes(&mut self.weights, MOST_WEIGHT);
            }
            "DEPOT_SECTION" => {
                self.depots = std::iter::from_fn(|| Some(source.whole())).take_while(|it| *it != -1).collect()
            }
            _ => fail(keyword),
        }
    }

    fn cells(&self) -> usize {
        match self.layout.as_str() {
            "FULL_MATRIX" => self.count * self.count,
            "UPPER_ROW" => self.count * (self.count - 1) / 2,
            _ => fail("the layout"),
        }
    }
}
