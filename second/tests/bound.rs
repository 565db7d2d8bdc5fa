//! Demand 3 on random histories from an emptied store. After every call the reversals of accepted
//! links, times D+1-2d, are at most the accepted links and the changes of direction, times D+1; and
//! no link is refused with 9 where the links with it can be directed with half of D outward.
//!
//! A history keeps a choice of directions for its standing links, at most d outward at a run, draws
//! only links that fit it, and changes it now and then.
//! `cargo test --release --test bound -- --nocapture` prints how close the two sides came.

mod common;

use std::collections::{BTreeMap, BTreeSet, VecDeque};

use common::{done, emptied, table};
use second::call::Call;
use second::caller::Caller;
use second::make::Random;
use second::run::Run;
use second::table::Table;

type Pair = (Run, Run);

fn pair(a: Run, b: Run) -> Pair {
    (a.min(b), a.max(b))
}

fn other_end(pair: Pair, run: Run) -> Run {
    if pair.0 == run {
        pair.1
    } else {
        pair.0
    }
}

/// A direction for each standing link: the run at which it goes outward.
struct Choice {
    most: usize,
    from: BTreeMap<Pair, Run>,
}

impl Choice {
    /// A choice for all these links with at most `most` outward at a run, if there is one.
    fn of(links: &BTreeSet<Pair>, most: usize) -> Option<Choice> {
        let mut choice = Choice { most, from: BTreeMap::new() };
        for link in links {
            let (from, way) = choice.room_for(link.0, link.1)?;
            way.iter().for_each(|link| choice.turn_about(*link));
            choice.from.insert(*link, from);
        }
        Some(choice)
    }

    fn outward(&self, run: Run) -> impl Iterator<Item = Pair> + '_ {
        self.from.iter().filter(move |(_, from)| **from == run).map(|(pair, _)| *pair)
    }

    fn has_room(&self, run: Run) -> bool {
        self.outward(run).count() < self.most
    }

    fn turn_about(&mut self, pair: Pair) {
        let from = self.from.get_mut(&pair).expect("only standing links are turned about");
        *from = other_end(pair, *from);
    }

    /// At which of two runs a new link of them can go outward, the first if it can, and the links
    /// to turn about for that. There is none only where no choice has room for the link.
    fn room_for(&self, first: Run, second: Run) -> Option<(Run, Vec<Pair>)> {
        [first, second].iter().find_map(|run| self.way_to_room(*run).map(|way| (*run, way)))
    }

    /// A way along outward links to the nearest run that has room.
    fn way_to_room(&self, run: Run) -> Option<Vec<Pair>> {
        let mut came_by: BTreeMap<Run, Option<Pair>> = BTreeMap::from([(run, None)]);
        let mut next = VecDeque::from([run]);
        while let Some(at) = next.pop_front() {
            if self.has_room(at) {
                return Some(way_back(&came_by, at));
            }
            for link in self.outward(at) {
                let to = other_end(link, at);
                came_by.entry(to).or_insert_with(|| {
                    next.push_back(to);
                    Some(link)
                });
            }
        }
        None
    }
}

fn way_back(came_by: &BTreeMap<Run, Option<Pair>>, end: Run) -> Vec<Pair> {
    let mut way = Vec::new();
    let mut at = end;
    while let Some(link) = came_by[&at] {
        way.push(link);
        at = other_end(link, at);
    }
    way
}

/// What histories came to: k, r, the reversals, the largest left side over right side, and the same
/// with the changes left out of the right side.
#[derive(Clone, Copy, Debug, Default)]
struct Sums {
    accepted: u64,
    changes: u64,
    reversals: u64,
    closest: f64,
    closest_without_changes: f64,
}

impl Sums {
    fn add(self, more: Sums) -> Sums {
        Sums {
            accepted: self.accepted + more.accepted,
            changes: self.changes + more.changes,
            reversals: self.reversals + more.reversals,
            closest: self.closest.max(more.closest),
            closest_without_changes: self.closest_without_changes.max(more.closest_without_changes),
        }
    }
}

struct History {
    caller: Caller,
    choice: Choice,
    sums: Sums,
}

impl History {
    fn new(n: u64, limit: u64, most: u64) -> History {
        assert!(2 * most <= limit);
        let choice = Choice { most: most as usize, from: BTreeMap::new() };
        History { caller: emptied(n, n * limit, limit), choice, sums: Sums::default() }
    }

    /// The bound, with the choice as it is after the call.
    fn check(&mut self) {
        let sums = &mut self.sums;
        let (above, twice) = (self.caller.sizes.d + 1, 2 * self.choice.most as u64);
        let left = sums.reversals * (above - twice);
        let right = (sums.accepted + sums.changes) * above;
        assert!(left <= right, "{} > {} with {:?}", left, right, sums);
        let over = |right: u64| left as f64 / right.max(1) as f64;
        sums.closest = sums.closest.max(over(right));
        let without_changes = over(sums.accepted * above);
        sums.closest_without_changes = sums.closest_without_changes.max(without_changes);
    }

    fn open(&mut self, run: Run) {
        self.caller.call(&Call::Open(run));
        self.check();
    }

    fn close(&mut self, run: Run) {
        self.caller.call(&Call::Close(run));
        self.check();
    }

    /// Links two runs if the choice has room for the link, outward at `first` if it can be.
    fn link(&mut self, a: Run, b: Run, first: Run) {
        let room = self.choice.room_for(first, other_end((a, b), first));
        if let Some((from, way)) = room {
            let outcome = self.caller.call(&Call::Link(a, b));
            assert!(outcome.refusal != 9, "{:?} has room for {:?}", self.choice.from, (a, b));
            if outcome.refusal == 0 {
                self.sums.accepted += 1;
                self.sums.reversals += outcome.number;
                self.turn_about(&way);
                self.choice.from.insert(pair(a, b), from);
            }
            self.check();
        }
    }

    fn unlink(&mut self, a: Run, b: Run) {
        if self.caller.call(&Call::Unlink(a, b)) == done(0) {
            self.choice.from.remove(&pair(a, b));
        }
        self.check();
    }

    /// A call that changes nothing, and with it a standing link is turned about.
    fn change(&mut self, link: Pair) {
        assert_eq!(self.caller.call(&Call::Ask(link.0, link.1)), done(1));
        let to = other_end(link, self.choice.from[&link]);
        if let Some(mut way) = self.choice.way_to_room(to) {
            way.push(link);
            self.turn_about(&way);
        }
        self.check();
    }

    /// Each of these links stood before the call and stands after it.
    fn turn_about(&mut self, links: &[Pair]) {
        links.iter().for_each(|link| self.choice.turn_about(*link));
        self.sums.changes += links.len() as u64;
    }

    /// The choice is one: a direction for each standing link, at most d outward at a run.
    fn assert_directed(&self) {
        assert!(self.choice.from.keys().eq(standing(&self.caller).iter()));
        for (link, from) in &self.choice.from {
            assert!(link.0 == *from || link.1 == *from);
            assert!(self.choice.outward(*from).count() <= self.choice.most);
        }
    }
}

/// The standing links, each with the run in whose list it stands first.
fn held(table: &Table) -> impl Iterator<Item = Pair> + '_ {
    let run = move |place: usize| table.runs()[place].expect("the ends of a link are open");
    table
        .lists()
        .iter()
        .enumerate()
        .flat_map(move |(place, list)| list.iter().map(move |cell| (run(place), run(cell.target))))
}

fn standing(caller: &Caller) -> BTreeSet<Pair> {
    held(&table(caller)).map(|(a, b)| pair(a, b)).collect()
}

/// Two open runs, the first with a full list if it can be.
fn any_two(random: &mut Random, caller: &Caller) -> Option<Pair> {
    let table = table(caller);
    let is_full = |place: &usize| table.lists()[*place].len() as u64 == caller.sizes.d;
    let full: Vec<usize> = (0..table.lists().len()).filter(is_full).collect();
    let full: Vec<Run> = full.iter().filter_map(|place| table.runs()[*place]).collect();
    let open: Vec<Run> = table.runs().iter().copied().flatten().collect();
    let favoured = if random.chance(75) && !full.is_empty() { &full } else { &open };
    random.pick_any(favoured).zip(random.pick_any(&open)).filter(|two| two.0 != two.1)
}

/// A standing link, in the list of the run it goes outward at if it can be.
fn any_link(random: &mut Random, history: &History) -> Option<Pair> {
    let table = table(&history.caller);
    let links: Vec<Pair> = held(&table).collect();
    let agrees = |link: &Pair| history.choice.from[&pair(link.0, link.1)] == link.0;
    let agreeing: Vec<Pair> = links.iter().copied().filter(agrees).collect();
    let favoured = if random.chance(80) { &agreeing } else { &links };
    random.pick_any(favoured)
}

/// Few trip numbers on few lines, so that runs differ in one of the two only.
fn named(i: u64) -> Run {
    Run::new(1 + i as u32 % 3, i as u32 / 3)
}

/// A history of any calls. New links favour full lists and go outward at the other end, and those
/// that stand where they go outward are unlinked first: so much has to be turned, and less is paid
/// in vain.
fn scattered(seed: u64) -> Sums {
    let mut random = Random::new(seed);
    let limit = random.between(2, 8);
    let most = if random.chance(60) { limit / 2 } else { random.between(1, limit / 2) };
    let dense = random.chance(60);
    let n = if dense { 2 * most + random.between(1, 4) } else { random.between(8, 24) };
    let mut history = History::new(n, limit, most);
    (0..n).for_each(|i| history.open(named(i)));
    for step in 0..120 {
        let run = named(random.below(n));
        match random.below(20) {
            0 => history.close(run),
            1 | 2 => history.open(run),
            3 => any_link(&mut random, &history)
                .into_iter()
                .for_each(|link| history.change(pair(link.0, link.1))),
            4..=7 => any_link(&mut random, &history)
                .into_iter()
                .for_each(|link| history.unlink(link.1, link.0)),
            _ => any_two(&mut random, &history.caller)
                .into_iter()
                .for_each(|two| history.link(two.0, two.1, two.1)),
        }
        if step % 16 == 0 {
            history.assert_directed();
        }
    }
    history.sums
}

/// Layers of d runs, each linked with every run of the next. A list has d links that go outward at
/// it, and as many side links that don't as fill it once the layer before has been turned. One link
/// more at the first layer then turns layer after layer, and hardly anything is paid in vain.
struct Layers {
    width: u32,
    depth: u32,
    sides: u32,
}

impl Layers {
    fn main(&self, layer: u32, i: u32) -> Run {
        Run::new(1 + layer, i)
    }

    fn side(&self, layer: u32, i: u32, k: u32) -> Run {
        Run::new(1 + layer, self.width + i * (self.sides + self.width) + k)
    }

    /// The first layer has no layer before it, and more sides instead.
    fn sides_of(&self, layer: u32) -> u32 {
        self.sides + if layer == 0 { self.width } else { 0 }
    }

    /// The links of a layer with the next.
    fn down(&self, layer: u32) -> Vec<Pair> {
        let ends = |i| (0..self.width).map(move |j| (self.main(layer, i), self.main(layer + 1, j)));
        (0..self.width).flat_map(ends).collect()
    }

    fn aside(&self, layer: u32) -> Vec<Pair> {
        let side = |i, k| (self.main(layer, i), self.side(layer, i, k));
        let ends = |i| (0..self.sides_of(layer)).map(move |k| side(i, k));
        (0..self.width).flat_map(ends).collect()
    }

    fn runs(&self) -> BTreeSet<Run> {
        let links =
            (0..self.depth).flat_map(|layer| [self.down(layer), self.aside(layer)].concat());
        links.flat_map(|link| [link.0, link.1]).collect()
    }
}

fn layered(seed: u64) -> Sums {
    let mut random = Random::new(seed);
    let limit = random.between(2, 8);
    let most = random.between(1, limit / 2);
    let layers = Layers {
        width: most as u32,
        depth: random.between(3, 40 / most) as u32,
        sides: (limit + 1 - 2 * most) as u32,
    };
    let runs = layers.runs();
    let mut history = History::new(runs.len() as u64, limit, most);
    runs.iter().for_each(|run| history.open(*run));
    for layer in 0..layers.depth {
        layers.down(layer).iter().for_each(|link| history.link(link.0, link.1, link.0));
    }
    for _ in 0..random.between(2, 12) {
        let mut links: Vec<Pair> =
            (1..layers.depth).flat_map(|layer| layers.aside(layer)).collect();
        random.shuffle(&mut links);
        links.extend(layers.aside(0));
        for (main, side) in links {
            history.unlink(main, side);
            history.link(main, side, side);
        }
        for (main, last) in layers.down(layers.depth - 1) {
            history.unlink(main, last);
            history.link(main, last, main);
        }
    }
    history.assert_directed();
    history.sums
}

/// Of all new links that a choice has room for, one that turns most, after its reversals.
fn most_turning(random: &mut Random, caller: &Caller, most: usize) -> Option<(u64, Pair)> {
    let standing = standing(caller);
    let choice = Choice::of(&standing, most).expect("a history has a choice");
    let open: Vec<Run> = table(caller).runs().iter().copied().flatten().collect();
    let with = |a: Run| open.iter().map(move |b| (a, *b));
    let mut links: Vec<Pair> = open.iter().flat_map(|a| with(*a)).collect();
    links.retain(|two| two.0 != two.1 && !standing.contains(&pair(two.0, two.1)));
    links.retain(|two| choice.room_for(two.1, two.0).is_some());
    random.shuffle(&mut links);
    let reversals = |two: &Pair| caller.clone().call(&Call::Link(two.0, two.1)).number;
    links.into_iter().map(|two| (reversals(&two), two)).max_by_key(|best| best.0)
}

/// As many links as the choice has room for. Of these the one is unlinked after which a new link
/// turns most, again and again, so that the choice must be changed all the time.
fn greedy(seed: u64) -> Sums {
    let mut random = Random::new(seed);
    let (n, limit, most) = (random.between(5, 6), 2, 1);
    let mut history = History::new(n, limit, most);
    (0..n).for_each(|i| history.open(named(i)));
    for _ in 0..80 {
        let mut links: Vec<Pair> = standing(&history.caller).into_iter().collect();
        // Half of the histories break ties at random, which changes the choice more often.
        if seed % 2 == 0 {
            random.shuffle(&mut links);
        }
        if links.len() as u64 == n * most {
            let mut reversals = |link: &Pair| {
                let mut trial = history.caller.clone();
                trial.call(&Call::Unlink(link.0, link.1));
                most_turning(&mut random, &trial, most as usize).map(|best| best.0)
            };
            let best = links.into_iter().max_by_key(|link| reversals(link));
            best.into_iter().for_each(|link| history.unlink(link.0, link.1));
        }
        if let Some((_, two)) = most_turning(&mut random, &history.caller, most as usize) {
            history.link(two.0, two.1, two.1);
        }
    }
    history.assert_directed();
    history.sums
}

/// Refusals 9, and how many of them would be wrong if half of D were rounded up.
#[derive(Clone, Copy, Debug, Default)]
struct Dense {
    refused: u64,
    rounded_up: u64,
}

/// A history without a choice, in and out of the range where links are too dense.
fn crowded(seed: u64) -> Dense {
    let mut random = Random::new(seed);
    let limit = random.between(2, 5);
    let n = limit + random.between(2, 4);
    let mut caller = emptied(n, n * limit, limit);
    (0..n).for_each(|i| assert_eq!(caller.call(&Call::Open(named(i))), done(i)));
    let mut dense = Dense::default();
    for step in 0..150 {
        let links: Vec<Pair> = held(&table(&caller)).collect();
        if step % 50 > 35 || random.chance(20) {
            let some = random.pick_any(&links);
            some.iter().for_each(|(a, b)| assert_eq!(caller.call(&Call::Unlink(*b, *a)), done(0)));
        } else if let Some((a, b)) = any_two(&mut random, &caller) {
            if caller.call(&Call::Link(a, b)).refusal == 9 {
                let mut with_it = standing(&caller);
                with_it.insert(pair(a, b));
                let half = limit as usize / 2;
                assert!(Choice::of(&with_it, half).is_none(), "{:?} can be directed", with_it);
                dense.refused += 1;
                dense.rounded_up +=
                    u64::from(Choice::of(&with_it, limit as usize - half).is_some());
            }
        }
    }
    dense
}

// The numbers asked for below are a little under what the seeds reach, so that histories in which
// nothing happens are not taken for a proof.

#[test]
fn scattered_histories_keep_the_bound() {
    let sums = (0..2_400).map(scattered).fold(Sums::default(), Sums::add);
    println!("scattered: {:?}", sums);
    assert!(sums.accepted > 70_000 && sums.changes > 40_000 && sums.reversals > 14_000);
    assert!(sums.closest > 0.6);
}

#[test]
fn layered_histories_come_close_to_the_bound() {
    let sums = (0..40).map(layered).fold(Sums::default(), Sums::add);
    println!("layered: {:?}", sums);
    assert!(sums.accepted > 20_000 && sums.reversals > 35_000);
    assert!(sums.closest > 0.97);
}

#[test]
fn greedy_histories_need_the_changes_in_the_bound() {
    let sums = (0..40).map(greedy).fold(Sums::default(), Sums::add);
    println!("greedy: {:?}", sums);
    assert!(sums.accepted > 3_000 && sums.changes > 1_000 && sums.reversals > 9_000);
    assert!(sums.closest > 0.9 && sums.closest_without_changes > 1.0);
}

#[test]
fn a_link_that_is_too_dense_cannot_be_directed() {
    let all: Vec<Dense> = (0..600).map(crowded).collect();
    let refused: u64 = all.iter().map(|dense| dense.refused).sum();
    let rounded_up: u64 = all.iter().map(|dense| dense.rounded_up).sum();
    println!("crowded: {} refused, {} of them fit half of D rounded up", refused, rounded_up);
    assert!(refused > 500 && rounded_up > 10);
}
