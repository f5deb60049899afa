//! Marking with revealed pages: the layers in their plain table, t0 in a hash map by page, the cache in two
//! lists without an order; a bundle is found by selection.

use super::layers::Table;
use std::collections::HashMap;

/// The highest bit of a cached page's row, which has the priority below it and the page in its low half. The
/// lesser of two rows goes first. A priority is at most 9 times the number of requests, of which there are at
/// most 65,536.
const MARK: u64 = 1 << 63;

fn row(priority: u64, page: u32) -> u64 {
    MARK | priority << 32 | u64::from(page)
}

/// The policy over a trace.
struct Marking {
    k: u32,
    a: u32,
    table: Table,
    t: u32,
    /// t at a page's last request from L0; for a page that fell back there it is replaced before it is read.
    from_below: HashMap<u32, u32>,
    /// The cached pages, for the search, and their rows at the same places.
    cache: Vec<u32>,
    rows: Vec<u64>,
}

impl Marking {
    /// Moves t and t0 on; the page's priority.
    fn priority(&mut self, page: u32, place: Option<usize>) -> u64 {
        if !place.map_or(false, |place| self.table.is_revealed(place)) {
            self.t += 1;
        }
        let t0 = match place {
            Some(_) => self.from_below[&page],
            None => {
                self.from_below.insert(page, self.t);
                self.t
            }
        };
        9 * u64::from(self.t) - u64::from(t0)
    }

    /// Takes the a pages that go first out of the cache.
    fn evict(&mut self) {
        let a = self.a as usize;
        self.rows.select_nth_unstable(a - 1);
        self.rows.drain(..a);
        self.cache.clear();
        self.cache.extend(self.rows.iter().map(|&row| row as u32));
    }

    /// 0 for a hit, 1 for a load, 2 for a load after a bundle.
    fn request(&mut self, page: u32) -> u32 {
        let place = self.table.find(page);
        let priority = self.priority(page, place);
        if self.table.serve(self.k, self.a, page, place) {
            self.rows.iter_mut().for_each(|row| *row &= !MARK);
        }
        let cached = self.cache.contains(&page);
        if cached {
            let at = self.cache.iter().position(|&other| other == page).unwrap_or(0);
            self.rows[at] = row(priority, page);
            return 0;
        }
        let mut answer = 1;
        if self.cache.len() == self.k as usize {
            self.evict();
            answer = 2;
        }
        self.cache.push(page);
        self.rows.push(row(priority, page));
        answer
    }
}

/// Bundles and loads of a whole trace, the table, and t0 of its pages.
pub fn run(k: u32, a: u32, trace: &[u32]) -> (u32, u32, Table, Vec<u32>) {
    let mut marking = Marking {
        k,
        a,
        table: Table::default(),
        t: 0,
        from_below: HashMap::new(),
        cache: Vec::with_capacity(k as usize),
        rows: Vec::with_capacity(k as usize),
    };
    let (mut bundles, mut loads) = (0, 0);
    for &page in trace {
        let answer = marking.request(page);
        bundles += u32::from(answer == 2);
        loads += u32::from(answer != 0);
    }
    let times = marking.table.pages.iter().map(|page| marking.from_below[page]).collect();
    (bundles, loads, marking.table, times)
}
