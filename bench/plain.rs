// A plain program for the print of `desk`: a second opinion on what is printed, and the opponent when `desk` is timed. It shares
// no code with the crates, and nothing is proved of it; its method is theirs, one search for each call and each way home.
use std::fmt::Write as _;
use std::fs::File;
use std::io::{self, Read, Write as _};
use std::os::fd::AsFd;

const PLACES: usize = 64;
const CRANES: usize = 16;
const CALLS: usize = 256;
const LONGEST_LEG: u32 = 1_000_000;
const RECORD: usize = 12;
const LONGEST_FILE: usize = RECORD * (PLACES * (PLACES - 1) / 2 + CRANES + CALLS);

type Row = [u32; PLACES];

// The number of the broken rule, and the index of the record that breaks it.
struct Refusal(u32, usize);

// A day as its file has it. `next_leg` is the leg that the order of legs wants next, as its first and second place.
struct Day {
    table: [Row; PLACES],
    next_leg: (usize, usize),
    starts: Vec<u8>,
    calls: Vec<u8>,
}

impl Day {
    fn read(file: &[u8]) -> Result<Day, Refusal> {
        if file.len() % RECORD != 0 || file.len() > LONGEST_FILE {
            return Err(Refusal(1, 0));
        }
        let mut day = Day {
            table: [[0; PLACES]; PLACES],
            next_leg: (0, 1),
            starts: Vec::with_capacity(CRANES),
            calls: Vec::with_capacity(CALLS),
        };
        let records = file.chunks_exact(RECORD);
        let count = records.len();
        for (index, record) in records.enumerate() {
            day.take(record).map_err(|number| Refusal(number, index))?;
        }
        if day.legs_missing() {
            return Err(Refusal(3, count));
        }
        if day.starts.is_empty() {
            return Err(Refusal(6, count));
        }
        if !day.triangles_hold() {
            return Err(Refusal(8, 0));
        }
        Ok(day)
    }

    // Tests one record and takes it into the day.
    fn take(&mut self, record: &[u8]) -> Result<(), u32> {
        let first = u16::from_le_bytes([record[2], record[3]]) as usize;
        let second = u16::from_le_bytes([record[4], record[5]]) as usize;
        let metres = u32::from_le_bytes([record[8], record[9], record[10], record[11]]);
        let leg = record[0] == 1;
        let spare = [record[1], record[6], record[7]] != [0; 3];
        if spare || (!leg && (second != 0 || metres != 0)) {
            return Err(2);
        }
        match record[0] {
            1 => self.take_leg(first, second, metres),
            2 => self.take_crane(first),
            3 => self.take_call(first),
            _ => Err(2),
        }
    }

    fn take_leg(&mut self, first: usize, second: usize, metres: u32) -> Result<(), u32> {
        let late = !self.starts.is_empty() || !self.calls.is_empty();
        if late || (first, second) != self.next_leg || second >= PLACES {
            return Err(3);
        }
        if metres > LONGEST_LEG {
            return Err(4);
        }
        self.table[first][second] = metres;
        self.table[second][first] = metres;
        self.next_leg = if first + 1 < second {
            (first + 1, second)
        } else {
            (0, second + 1)
        };
        Ok(())
    }

    fn take_crane(&mut self, place: usize) -> Result<(), u32> {
        if !self.calls.is_empty() || self.legs_missing() {
            return Err(3);
        }
        if place >= self.places() {
            return Err(5);
        }
        if self.starts.len() == CRANES {
            return Err(6);
        }
        self.starts.push(place as u8);
        Ok(())
    }

    fn take_call(&mut self, place: usize) -> Result<(), u32> {
        if self.legs_missing() {
            return Err(3);
        }
        if place >= self.places() {
            return Err(5);
        }
        if self.starts.is_empty() {
            return Err(6);
        }
        if self.calls.len() == CALLS {
            return Err(7);
        }
        self.calls.push(place as u8);
        Ok(())
    }

    fn legs_missing(&self) -> bool {
        self.next_leg.0 != 0
    }

    // The number of places, once no legs are missing.
    fn places(&self) -> usize {
        self.next_leg.1
    }

    // Whether no way over a third place is shorter than a leg.
    fn triangles_hold(&self) -> bool {
        let rows = &self.table[..self.places()];
        let shortest = |u: &[u32], w: &[u32]| u.iter().zip(w).map(|(a, b)| a + b).min();
        (1..rows.len()).all(|w| {
            (0..w).all(|u| {
                shortest(&rows[u][..rows.len()], &rows[w][..rows.len()]) >= Some(rows[u][w])
            })
        })
    }
}

// A stop that a search has not settled. Its key is the cost of the cheapest chain found to it, which comes over the stop `via`,
// less the stop's head: the leg to its follower less the follower's weight.
struct Open {
    stop: u16,
    via: u16,
    place: u8,
    head: i64,
    key: i64,
}

// A cheapest plan. Stops are the starts, then the calls; followers are the ends, then the calls, so that a call has one number
// as both. A follower's row has its metres from every place. The weights show that the plan is cheapest: of all that may
// follow a stop, none has fewer metres less weight than the stop's own follower.
struct Plan<'a> {
    cranes: usize,
    places: Vec<u8>,
    rows: Vec<&'a Row>,
    follower: Vec<usize>,
    weight: Vec<i64>,
    via: Vec<usize>,
    open: Vec<Open>,
}

impl<'a> Plan<'a> {
    // The plan without calls: each start followed by its own end, at no cost.
    fn new(starts: &[u8], ends: Vec<&'a Row>) -> Plan<'a> {
        Plan {
            cranes: starts.len(),
            places: starts.to_vec(),
            rows: ends,
            follower: (0..starts.len()).collect(),
            weight: vec![0; starts.len()],
            via: vec![0; starts.len()],
            open: Vec::new(),
        }
    }

    // Metres from a stop to its follower.
    fn leg(&self, stop: usize) -> u32 {
        self.rows[self.follower[stop]][self.places[stop] as usize]
    }

    fn cost(&self) -> u64 {
        (0..self.places.len())
            .map(|stop| self.leg(stop) as u64)
            .sum()
    }

    // Takes in a call, followed by the end for which chain and way from the call come cheapest together; among equals the
    // shortest way, then the lowest number. That end is then at the call. Answers the end and the way.
    fn insert(&mut self, place: u8, row: &'a Row) -> (usize, u32) {
        self.search(row);
        let way = |end: usize| self.rows[end][place as usize];
        let rank = |&end: &usize| (way(end) as i64 - self.weight[end], way(end));
        let end = (0..self.cranes).min_by_key(rank).unwrap();
        let metres = way(end);
        self.flip(end, place, row);
        (end, metres)
    }

    // The cheapest cost once every end is at its place of a list: each takes in a call there. The calls cost nothing more, because all
    // may go there at once and stay.
    fn cost_at(&mut self, ends: &[u8], table: &'a [Row]) -> u64 {
        for (end, &place) in ends.iter().enumerate() {
            let row = &table[place as usize];
            self.search(row);
            self.flip(end, place, row);
        }
        self.cost()
    }

    // Takes in a call for an end, along the chain that the search has left; the end is then at the call.
    fn flip(&mut self, end: usize, place: u8, row: &'a Row) {
        let mut stop = self.follower.iter().position(|&b| b == end).unwrap();
        let new = self.places.len();
        self.places.push(place);
        self.rows.push(row);
        self.follower.push(new);
        self.weight.push(0);
        self.via.push(new);
        while stop != new {
            self.follower.swap(stop, self.via[stop]);
            stop = self.via[stop];
        }
        self.rows[end] = row;
        self.weight[end] = 0;
    }

    // Dijkstra's search over chains of changes: the first stop of a chain takes the new follower, each further one the follower
    // that the stop before it gave up. Leaves in `via` the cheapest chain to each stop, and as the weight of the stop's
    // follower what giving it up costs by that chain, negated.
    fn search(&mut self, row: &Row) {
        let new = self.places.len();
        self.open.clear();
        for stop in 0..new {
            let place = self.places[stop];
            let head = self.leg(stop) as i64 - self.weight[self.follower[stop]];
            let key = row[place as usize] as i64 - head;
            self.open.push(Open {
                stop: stop as u16,
                via: new as u16,
                place,
                head,
                key,
            });
        }
        for _ in 0..new {
            let nearest = self.nearest();
            self.settle(nearest);
        }
    }

    // Where in the list of open stops the least key is.
    fn nearest(&self) -> usize {
        let mut nearest = 0;
        let mut least = i64::MAX;
        for (at, open) in self.open.iter().enumerate() {
            if open.key < least {
                nearest = at;
                least = open.key;
            }
        }
        nearest
    }

    // Settles one of the open stops, and takes its chain on to those that its follower may follow as well. The list is in the
    // order of the stops, so that these are its first ones: all for an end, the earlier ones for a call.
    fn settle(&mut self, at: usize) {
        let Open { stop, via, key, .. } = self.open.remove(at);
        self.via[stop as usize] = via as usize;
        let follower = self.follower[stop as usize];
        self.weight[follower] -= key;
        let row = self.rows[follower];
        let change = -self.weight[follower];
        let limit = if follower < self.cranes {
            self.places.len()
        } else {
            follower
        };
        let reached = self
            .open
            .partition_point(|open| (open.stop as usize) < limit);
        for open in &mut self.open[..reached] {
            let key = change + row[open.place as usize % PLACES] as i64 - open.head;
            if key < open.key {
                open.key = key;
                open.via = stop;
            }
        }
    }
}

// The lines of a served day.
fn serve(day: &Day) -> String {
    let row = |place: &u8| &day.table[*place as usize];
    let mut text = String::with_capacity(64 * (day.calls.len() + 1));
    let mut plan = Plan::new(&day.starts, day.starts.iter().map(row).collect());
    let mut stands = day.starts.clone();
    let mut driven = 0;
    for (call, place) in day.calls.iter().enumerate() {
        let (crane, metres) = plan.insert(*place, row(place));
        stands[crane] = *place;
        driven += metres;
        writeln!(
            text,
            "call {call} crane {crane} metres {metres} least {}",
            plan.cost()
        )
        .unwrap();
    }
    let mut ways = Plan::new(&stands, stands.iter().map(row).collect());
    let home = ways.cost_at(&day.starts, &day.table);
    let floor = plan.cost_at(&day.starts, &day.table);
    writeln!(text, "driven {driven} home {home} floor {floor}").unwrap();
    text
}

fn main() -> io::Result<()> {
    // A handle of its own, because the standard one would read ahead.
    let input = File::from(io::stdin().as_fd().try_clone_to_owned()?);
    let mut file = Vec::with_capacity(LONGEST_FILE + 1);
    input.take(LONGEST_FILE as u64 + 1).read_to_end(&mut file)?;
    let text = match Day::read(&file) {
        Ok(day) => serve(&day),
        Err(Refusal(number, record)) => format!("refused {number} record {record}\n"),
    };
    io::stdout().write_all(text.as_bytes())
}
