//! Tables with a row for each word size and peer.

use crate::peers::on_words;
use crate::timing::{Rates, Task};

/// What a column shows of the peer of a row.
pub enum Column {
    Rate(&'static str),
    /// The rate of a kind of work, to that of another peer.
    OfPeer(&'static str, &'static str),
    /// The rate of a kind of work by the module, to that of the same calls on the words.
    OfWords(&'static str),
    /// The rate of a kind of work, to that of another kind by the same peer.
    OfWork(&'static str, &'static str),
}

impl Column {
    fn work(&self) -> &'static str {
        match *self {
            Column::Rate(work) | Column::OfWords(work) | Column::OfPeer(work, _) | Column::OfWork(work, _) => work,
        }
    }

    fn heading(&self) -> String {
        match self {
            Column::Rate(work) => work.to_string(),
            Column::OfWords(_) => "of words".to_string(),
            Column::OfPeer(_, other) | Column::OfWork(_, other) => format!("of {other}"),
        }
    }

    fn cell(&self, rates: &Rates, w: usize, peer: &'static str) -> String {
        let work = self.work();
        let task = Task { peer, work };
        match *self {
            Column::Rate(_) => number(rates.rate(w, task), 0),
            Column::OfWords(_) => number(on_words(peer).and_then(|peer| rates.ratio(w, task, Task { peer, work })), 2),
            Column::OfPeer(_, other) => number(rates.ratio(w, task, Task { peer: other, work }), 2),
            Column::OfWork(_, other) => number(rates.ratio(w, task, Task { peer, work: other }), 2),
        }
    }
}

fn number(value: Option<f64>, decimals: usize) -> String {
    value.map_or("-".to_string(), |value| format!("{value:.decimals$}"))
}

/// Prints a table with a row for each peer that the work of the first column was timed with.
pub fn print(title: &str, columns: &[Column], rates: &Rates) {
    let rows: Vec<_> = rates.peers_of(columns[0].work()).collect();
    let peer_width = rows.iter().map(|(_, peer)| peer.len()).max().unwrap_or(0);
    let headings: Vec<String> = columns.iter().map(Column::heading).collect();

    println!("\n{title}:\n");
    print_row(" w", &format!("{:peer_width$}", "peer"), headings.iter().cloned());
    let rules = headings.iter().map(|heading| format!("{:->1$}:", "", heading.len() + 1));
    println!("|---:|:{:->1$}|{2}|", "", peer_width + 1, rules.collect::<Vec<_>>().join("|"));
    for (w, peer) in rows {
        let cells = columns.iter().zip(&headings);
        let cells = cells.map(|(column, heading)| format!("{:>1$}", column.cell(rates, w, peer), heading.len()));
        print_row(&w.to_string(), &format!("{peer:peer_width$}"), cells);
    }
}

fn print_row(w: &str, peer: &str, cells: impl Iterator<Item = String>) {
    println!("| {w} | {peer} | {} |", cells.collect::<Vec<_>>().join(" | "));
}
