//! What the program `routes` prints for an input.

use super::{Model, Wrong};
use crate::rules::*;
use std::fmt::Write;

impl Model {
    pub fn sheet(&self, input: &[u8]) -> String {
        if input.len() > LONGEST_INPUT {
            return format!("refused 2 at {MOST_ARCS}\n");
        }
        let mut table = Table::default();
        if let Err(Refusal { number, place }) = self.table_of(input, &mut table) {
            return format!("refused {number} at {place}\n");
        }
        let n = table.n as usize;
        let (mut distances, mut prices) = (vec![0; n], vec![0; n]);
        let (mut tree, mut marks) = (vec![0; n], vec![0; table.tails.len()]);
        let out = PlanBuffers { distances: &mut distances, prices: &mut prices, tree: &mut tree, marks: &mut marks };
        let plan = self.plan_routes(&table, out);
        let mut sheet = String::new();
        if plan.number != 0 {
            writeln!(sheet, "refused {} at {}", plan.number, plan.place).unwrap();
        }
        if plan.number == 0 || plan.number == 8 {
            sheet += &plan_lines(&plan);
            sheet += &node_lines(&distances, &prices, &tree);
            let (paths, marks) = (self.path_lines(&table, &distances, &tree), self.marks_line(&plan, &marks));
            sheet += &if self.has(Wrong::MarksBeforePaths) { marks + &paths } else { paths + &marks };
        }
        sheet
    }

    /// One line for each different wanted node that was reached, by distance, and at equal distances by node number.
    fn path_lines(&self, table: &Table, distances: &[u64], tree: &[u16]) -> String {
        let mut nodes = Vec::new();
        for &node in &table.wanted {
            let repeated = nodes.contains(&node) && !self.has(Wrong::RepeatsPrinted);
            if distances[node as usize] != NO_DISTANCE && !repeated {
                nodes.push(node);
            }
        }
        let distance = |&node: &u16| distances[node as usize];
        match self.wrong {
            Some(Wrong::PathsByNode) => nodes.sort(),
            Some(Wrong::PathTiesTurned) => nodes.sort_by_key(|node| (distance(node), std::cmp::Reverse(*node))),
            Some(Wrong::PathsAsWanted) => {}
            _ => nodes.sort_by_key(|node| (distance(node), *node)),
        }
        nodes.iter().map(|&node| path_line(table, tree, node)).collect()
    }

    /// How many arcs have mark 0, 1, 2 and 3.
    fn marks_line(&self, plan: &Planned, marks: &[u8]) -> String {
        if plan.number == 8 && self.has(Wrong::NoMarksAfterNoRoute) {
            return String::new();
        }
        let order = if self.has(Wrong::MarkCountsExchanged) { [0, 2, 1, 3] } else { [0, 1, 2, 3] };
        let counts = order.map(|mark| marks.iter().filter(|&&given| given == mark).count().to_string());
        format!("marks {}\n", counts.join(" "))
    }
}

fn plan_lines(plan: &Planned) -> String {
    let Planned { reached, horizon, iterations, contractions, extensions, deletions, .. } = plan;
    format!("reached {reached} horizon {horizon} iterations {iterations}\n")
        + &format!("contractions {contractions} extensions {extensions} deletions {deletions}\n")
}

fn node_lines(distances: &[u64], prices: &[u64], tree: &[u16]) -> String {
    let mut lines = String::new();
    for node in (0..distances.len()).filter(|&node| distances[node] != NO_DISTANCE) {
        let arc = if tree[node] == NO_ARC { "-".to_string() } else { tree[node].to_string() };
        writeln!(lines, "node {node} distance {} price {} arc {arc}", distances[node], prices[node]).unwrap();
    }
    lines
}

fn path_line(table: &Table, tree: &[u16], node: u16) -> String {
    let mut nodes = vec![node];
    while nodes.last() != Some(&table.origin) {
        let arc = tree[nodes[nodes.len() - 1] as usize];
        nodes.push(table.tails[arc as usize]);
    }
    let words: Vec<String> = nodes.iter().rev().map(|node| format!(" {node}")).collect();
    format!("path {node}:{}\n", words.concat())
}
