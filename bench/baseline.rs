// Seats the lists of twelve of the program `timings` by trying orders one after the other, for
// comparison. Each stay in turn is put at its window's first position, and the others follow it in every
// order, each at the least time that its window and the one before it allow. A beginning of an order is
// given up as soon as some stay that is still to come would lie more than a ring after the first one.
// After LIMIT beginnings the answer is left open.
use std::time::Instant;

const LIMIT: u64 = 4_000_000_000;

struct Stay {
    from: u64,
    width: u64,
    lead: u64,
    trail: u64,
}

impl Stay {
    // The least time not before `low` that lies in the window.
    fn earliest(&self, ring: u64, low: u64) -> u64 {
        let past = (low + ring - self.from) % ring;
        if past <= self.width { low } else { low + ring - past }
    }
}

enum Answer {
    Fits,
    Fails,
    Open,
}

struct Orders<'a> {
    ring: u64,
    stays: &'a [Stay],
    used: Vec<bool>,
    first: usize,
    begun: u64,
}

impl Orders<'_> {
    fn end(&self) -> u64 {
        self.stays[self.first].from + self.ring
    }

    fn time_of(&self, next: usize, free: u64) -> u64 {
        let stay = &self.stays[next];
        stay.earliest(self.ring, free + stay.lead)
    }

    fn is_dead_end(&self, free: u64) -> bool {
        (0..self.stays.len()).any(|i| !self.used[i] && self.time_of(i, free) > self.end())
    }

    // Goes through the orders that go on from here, where the time is taken up to `free`.
    fn go_on(&mut self, left: usize, free: u64) -> Answer {
        self.begun += 1;
        if self.begun > LIMIT {
            return Answer::Open;
        }
        if left == 0 {
            let closes = free + self.stays[self.first].lead <= self.end();
            return if closes { Answer::Fits } else { Answer::Fails };
        }
        if self.is_dead_end(free) {
            return Answer::Fails;
        }
        for next in 0..self.stays.len() {
            if self.used[next] {
                continue;
            }
            self.used[next] = true;
            let answer = self.go_on(left - 1, self.time_of(next, free) + self.stays[next].trail);
            self.used[next] = false;
            match answer {
                Answer::Fails => {}
                found_or_open => return found_or_open,
            }
        }
        Answer::Fails
    }
}

fn try_orders(ring: u64, stays: &[Stay]) -> Answer {
    let mut orders = Orders {
        ring,
        stays,
        used: vec![false; stays.len()],
        first: 0,
        begun: 0,
    };
    for (first, stay) in stays.iter().enumerate() {
        orders.first = first;
        orders.used[first] = true;
        let answer = orders.go_on(stays.len() - 1, stay.from + stay.trail);
        orders.used[first] = false;
        match answer {
            Answer::Fails => {}
            found_or_open => return found_or_open,
        }
    }
    Answer::Fails
}

// The whole ring for a window, and lengths of 90, 91, 92 and so on.
fn whole_ring(ring: u64, count: u64) -> Vec<Stay> {
    (0..count)
        .map(|i| Stay { from: i, width: ring - 1, lead: 20, trail: 70 + i })
        .collect()
}

fn main() {
    for (name, ring) in [("12 that just fit", 1_146), ("12 one tick short", 1_145)] {
        let stays = whole_ring(ring, 12);
        let start = Instant::now();
        let answer = try_orders(ring, &stays);
        let took = start.elapsed().as_nanos() as f64 / 1_000.0;
        let answer = match answer {
            Answer::Fits => "fits".to_string(),
            Answer::Fails => "does not fit".to_string(),
            Answer::Open => format!("stopped after {LIMIT} beginnings of orders"),
        };
        println!("{name}: {answer}, {took:.1} us");
    }
}
