//! The two editions: their nodes as the papers list them, their pages as docs/PAGES.md prints them.

use std::collections::HashMap;

const PAGES: &str = include_str!("../../../../docs/PAGES.md");

#[derive(Clone)]
pub struct Row {
    pub must: bool,
    pub is_used: bool,
    pub format: String,
    pub codes: Vec<Vec<u8>>,
}

/// One element: whether the composite itself must stand, and its components.
#[derive(Clone, Default)]
pub struct Element {
    pub must: bool,
    pub rows: Vec<Row>,
}

#[derive(Clone)]
pub struct Page {
    pub tag: String,
    pub elements: Vec<Element>,
}

/// A node with its place in the guide; parent 0 is the root.
pub struct Node {
    pub parent: usize,
    pub counter: u32,
    pub required: bool,
    pub limit: usize,
    pub page: Page,
}

/// The nodes of an edition in order; the first is node 1.
pub struct Guide {
    pub nodes: Vec<Node>,
}

/// Node, parent, counter, required, limit, and the node of 2.0d that has the page.
type Line = (usize, usize, u32, bool, usize, usize);

/// As document 01 lists them.
const LINES_20D: [Line; 26] = [
    (1, 0, 10, true, 1, 1),
    (2, 0, 20, true, 1, 2),
    (3, 0, 30, false, 1, 3),
    (4, 0, 30, true, 1, 4),
    (5, 0, 30, false, 1, 5),
    (6, 0, 60, false, 1, 6),
    (7, 0, 60, false, 1, 7),
    (8, 0, 60, true, 1, 8),
    (9, 0, 90, true, 1, 9),
    (10, 0, 90, true, 1, 10),
    (11, 10, 110, false, 1, 11),
    (12, 10, 150, false, 1, 12),
    (13, 12, 170, true, 5, 13),
    (14, 0, 220, false, 1, 14),
    (15, 0, 590, false, 1, 15),
    (16, 15, 1310, true, 999_999, 16),
    (17, 16, 1330, false, 1, 17),
    (18, 16, 1340, false, 1, 18),
    (19, 16, 1560, false, 100, 19),
    (20, 19, 1600, false, 1, 20),
    (21, 19, 1610, false, 2, 21),
    (22, 0, 590, false, 1, 22),
    (23, 22, 1310, true, 999_999, 23),
    (24, 23, 1560, true, 1, 24),
    (25, 24, 1600, false, 1, 25),
    (26, 0, 2400, true, 1, 26),
];

/// As source 003 lists them.
const LINES_20C: [Line; 24] = [
    (1, 0, 10, true, 1, 1),
    (2, 0, 20, true, 1, 2),
    (3, 0, 30, false, 1, 3),
    (4, 0, 30, true, 1, 4),
    (5, 0, 30, false, 1, 5),
    (6, 0, 60, false, 1, 6),
    (7, 0, 60, true, 1, 8),
    (8, 0, 90, true, 1, 9),
    (9, 0, 90, true, 1, 10),
    (10, 9, 110, false, 1, 11),
    (11, 9, 150, false, 1, 12),
    (12, 11, 170, true, 5, 13),
    (13, 0, 220, false, 1, 14),
    (14, 0, 590, false, 1, 15),
    (15, 14, 1310, true, 999_999, 16),
    (16, 15, 1330, false, 1, 17),
    (17, 15, 1340, false, 1, 18),
    (18, 15, 1560, false, 1, 19),
    (19, 18, 1610, false, 2, 21),
    (20, 0, 590, false, 1, 22),
    (21, 20, 1310, true, 999_999, 23),
    (22, 21, 1560, true, 1, 24),
    (23, 22, 1600, false, 1, 25),
    (24, 0, 2400, true, 1, 26),
];

impl Guide {
    /// The guides of 2.0d and 2.0c.
    pub fn both() -> (Guide, Guide) {
        let pages = read_pages();
        assert_eq!(pages.len(), LINES_20D.len());
        let new = Guide::new(&LINES_20D, &pages);
        let mut old = Guide::new(&LINES_20C, &pages);
        // What 003 prints otherwise: DE0057 and the status of 7008.
        old.row(1, 2, 5).codes = vec![b"2.0c".to_vec()];
        old.row(17, 3, 4).must = true;
        (new, old)
    }

    fn new(lines: &[Line], pages: &HashMap<usize, Page>) -> Guide {
        let node = |(at, line): (usize, &Line)| {
            let &(number, parent, counter, required, limit, page) = line;
            assert_eq!(number, at + 1);
            Node { parent, counter, required, limit, page: pages[&page].clone() }
        };
        Guide { nodes: lines.iter().enumerate().map(node).collect() }
    }

    fn row(&mut self, node: usize, element: usize, component: usize) -> &mut Row {
        &mut self.nodes[node - 1].page.elements[element - 1].rows[component - 1]
    }

    pub fn node(&self, node: usize) -> &Node {
        &self.nodes[node - 1]
    }

    /// The codes of a node that stand under one price together or not at all, each once (item 2).
    pub fn together(&self, node: usize) -> &[Vec<u8>] {
        match self.node(node).page.elements[0].rows[0].codes.as_slice() {
            codes @ [from, to] if from == b"163" && to == b"164" => codes,
            _ => &[],
        }
    }
}

/// The tables of 2.0d: those under the headings `### node tag, name` of the section `## Tables of PRICAT 2.0d`.
fn read_pages() -> HashMap<usize, Page> {
    let mut pages = HashMap::new();
    let mut node = 0;
    let section = PAGES.split("\n## ").find(|section| section.starts_with("Tables of PRICAT 2.0d\n")).expect("the tables");
    for line in section.lines() {
        if let Some(heading) = line.strip_prefix("### ") {
            let mut words = heading.split([' ', ',']);
            node = words.next().unwrap().parse().expect("a node");
            pages.insert(node, Page { tag: words.next().unwrap().into(), elements: Vec::new() });
        } else if node != 0 && line.starts_with("| ") && !line.starts_with("| Element") {
            let cells: Vec<&str> = line.split('|').map(str::trim).collect();
            read_row(pages.get_mut(&node).unwrap(), &cells[1..]);
        }
    }
    pages
}

fn read_row(page: &mut Page, cells: &[&str]) {
    let element: usize = cells[0].parse().expect("an element");
    let must = matches!(cells[4], "M" | "R");
    if page.elements.len() < element {
        assert_eq!(page.elements.len() + 1, element);
        page.elements.push(Element { must, rows: Vec::new() });
    }
    if cells[1].is_empty() {
        return;
    }
    let codes = cells[6].split(", ").filter(|code| !code.is_empty()).map(|code| code.as_bytes().to_vec()).collect();
    page.elements[element - 1].rows.push(Row { must, is_used: cells[4] != "N", format: cells[5].into(), codes });
}
