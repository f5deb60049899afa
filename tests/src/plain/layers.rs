//! The layers in a table of two lists, ordered by layer and page: found by a scan, joined in place.

/// The used places of a table.
#[derive(Clone, Debug, Default, PartialEq, Eq)]
pub struct Table {
    pub pages: Vec<u32>,
    pub numbers: Vec<u32>,
    pub s: u32,
}

impl Table {
    /// Rule 1b: layers k-a to k become layer k-a.
    fn join_top(&mut self, k: u32, a: u32) {
        let low = k - a;
        if low == 0 {
            self.pages.clear();
            self.numbers.clear();
        } else {
            let start = self.numbers.partition_point(|&n| n < low);
            let single = self.numbers.partition_point(|&n| n <= low);
            for place in single..self.pages.len() {
                let page = self.pages[place];
                let at = start + self.pages[start..place].partition_point(|&other| other < page);
                self.pages.copy_within(at..place, at + 1);
                self.pages[at] = page;
            }
            self.numbers[single..].fill(low);
        }
        self.s = low;
    }

    /// Rule 1c: the rest of the page's layer joins the one below.
    fn lift(&mut self, place: usize) {
        let number = self.numbers[place];
        self.pages.remove(place);
        self.numbers.remove(place);
        let start = self.numbers.partition_point(|&n| n < number);
        let end = self.numbers.partition_point(|&n| n <= number);
        self.numbers[start..].iter_mut().for_each(|n| *n -= 1);
        if number == 1 {
            self.pages.drain(..end);
            self.numbers.drain(..end);
        } else if start < end {
            let below = self.numbers.partition_point(|&n| n < number - 1);
            self.pages[below..end].sort();
        }
        self.s -= 1;
    }

    /// The place of a page.
    #[inline]
    pub fn find(&self, page: u32) -> Option<usize> {
        // A look at the whole list first: it is quicker than the search for the place.
        let held = self.pages.contains(&page);
        if held {
            self.pages.iter().position(|&other| other == page)
        } else {
            None
        }
    }

    /// Whether the page of a place is revealed: from it on there are as many pages as layers, so each layer
    /// has one, and no other page of its own layer stands before it.
    #[inline]
    pub fn is_revealed(&self, place: usize) -> bool {
        let number = self.numbers[place];
        let from_here = self.pages.len() - place;
        from_here == (self.s - number) as usize + 1 && (place == 0 || self.numbers[place - 1] < number)
    }

    /// One request with no check of the state; true if a bundle is counted.
    pub fn request(&mut self, k: u32, a: u32, page: u32) -> bool {
        let place = self.find(page);
        self.serve(k, a, page, place)
    }

    /// The same for a page that was found at this place or not at all.
    #[inline]
    pub fn serve(&mut self, k: u32, a: u32, page: u32, place: Option<usize>) -> bool {
        let counted = place.is_none() && self.s == k;
        match place {
            Some(place) => self.lift(place),
            None if counted => self.join_top(k, a),
            None => {}
        }
        self.s += 1;
        self.pages.push(page);
        self.numbers.push(self.s);
        counted
    }

    /// How many layers at the top end are single.
    pub fn revealed(&self) -> u32 {
        let size =
            |n: u32| self.numbers.partition_point(|&m| m <= n) - self.numbers.partition_point(|&m| m < n);
        (1..=self.s).rev().take_while(|&n| size(n) == 1).count() as u32
    }
}

/// Bundles of a whole trace, and the table.
pub fn run(k: u32, a: u32, trace: &[u32]) -> (u32, Table) {
    let mut table = Table::default();
    let bundles = trace.iter().map(|&page| u32::from(table.request(k, a, page))).sum();
    (bundles, table)
}
