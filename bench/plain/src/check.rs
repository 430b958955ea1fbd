//! The least ranks of four strategies. All have a cap of 65,536. `even` has 64 equal weights; `steep` has 64 weights,
//! one of them great, so its ranks are high. `peel_1` cuts one item off the front, so each count has a rank of its own,
//! and `peel_300` cuts 300 off.

use std::error::Error;
use std::fs;
use std::hint::black_box;
use std::path::Path;
use std::time::{Duration, Instant};

enum Act {
    List,
    /// The weights, and their sum.
    Split(Vec<u32>, u32),
    /// How many items are cut off the front.
    Peel(u32),
}

struct Row {
    upto: u32,
    act: Act,
}

struct Table {
    cap: u32,
    rows: Vec<Row>,
}

impl Table {
    /// Lists up to this many items, and cuts more.
    fn new(listed: u32, act: Act) -> Table {
        let cap = 65_536;
        let rows = vec![Row { upto: listed, act: Act::List }, Row { upto: cap, act }];
        Table { cap, rows }
    }

    fn text(&self) -> String {
        let mut text = format!("cap = {}\nlimit = {}\nrounds = 255\n", self.cap, self.rows[0].upto);
        for row in &self.rows {
            let act = match &row.act {
                Act::List => "list = true".to_string(),
                Act::Split(weights, _) => format!("split = {weights:?}"),
                Act::Peel(front) => format!("peel = {front}"),
            };
            text += &format!("[[row]]\nupto = {}\n{act}\n", row.upto);
        }
        text
    }

    /// Whether n is cut, into how many shares, and the greatest share.
    fn cutting(&self, n: u32) -> (bool, usize, u32) {
        let row = &self.rows[self.rows.partition_point(|row| row.upto < n)];
        let (weights, total) = match &row.act {
            Act::List => return (false, 0, 0),
            Act::Peel(front) if n > *front => return (true, 2, (*front).max(n - front)),
            Act::Peel(_) => return (true, usize::from(n > 0), n),
            Act::Split(weights, total) => (weights, total),
        };
        let (mut reached, mut cut, mut count, mut greatest) = (0u32, 0u32, 0, 0);
        for weight in weights {
            reached += weight;
            let next = (u64::from(n) * u64::from(reached) / u64::from(*total)) as u32;
            count += usize::from(next > cut);
            greatest = greatest.max(next - cut);
            cut = next;
        }
        (true, count, greatest)
    }

    /// The staircase of the least ranks, or the least count that is cut into fewer than two shares.
    fn ranks(&self) -> Result<Vec<u32>, u32> {
        let mut steps: Vec<u32> = Vec::new();
        for n in 0..=self.cap {
            let (cuts, count, greatest) = self.cutting(n);
            if cuts && count < 2 {
                return Err(n);
            }
            if count > 0 && steps.partition_point(|step| *step < greatest) == steps.len() {
                steps.push(n - 1);
            }
        }
        steps.push(self.cap);
        Ok(steps)
    }
}

fn split(weights: Vec<u32>) -> Act {
    let total = weights.iter().sum();
    Act::Split(weights, total)
}

fn tables() -> [(&'static str, Table); 4] {
    let mut steep = vec![1; 63];
    steep.push(1_024);
    [
        ("even", Table::new(1, split(vec![1; 64]))),
        ("steep", Table::new(17, split(steep))),
        ("peel_1", Table::new(1, Act::Peel(1))),
        ("peel_300", Table::new(300, Act::Peel(300))),
    ]
}

fn least(rounds: usize, table: &Table) -> Duration {
    (0..rounds)
        .map(|_| {
            let start = Instant::now();
            black_box(black_box(table).ranks()).ok();
            start.elapsed()
        })
        .min()
        .unwrap_or_default()
}

/// Writes `NAME.toml` into the folder for each of them.
pub fn make(folder: &Path) -> Result<(), Box<dyn Error>> {
    for (name, table) in tables() {
        fs::write(folder.join(format!("{name}.toml")), table.text())?;
    }
    Ok(())
}

/// Prints the least time for each in microseconds, and writes `NAME.steps` into the folder.
pub fn run(folder: &Path, rounds: usize) -> Result<(), Box<dyn Error>> {
    for (name, table) in tables() {
        let steps = table.ranks().map_err(|count| format!("{name}: {count} items are not cut"))?;
        let text: String = steps.iter().map(|step| format!("{step}\n")).collect();
        fs::write(folder.join(format!("{name}.steps")), text)?;
        println!("{name} {}", least(rounds, &table).as_micros());
    }
    Ok(())
}
