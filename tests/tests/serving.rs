//! Turns at the cutter (document 02, k), against the model: the lists of one tracing, of several and of none, states that the library gave
//! and states of another make, what a refusal leaves, how long an outline waits, and how lent lists are read.

use std::collections::{BTreeMap, BTreeSet};
use tests::calls::{self, agrees, answer};
use tests::cases::Cases;
use tests::cutter::{any_lists, any_state};
use tests::damage::Parts;
use tests::expected::{opened, queue, state, turned, Model};
use tests::model::blocks::quadtree;
use tests::model::outlines::Outlines;
use tests::model::restoring::Given;
use tests::model::serving::{Cutter, Lists, Queue};
use tests::nettlestair::{self, OpenOutline, State, Turned};
use tests::random::Random;
use tests::rasters;
use tests::traced::outlines;

/// Opens an outline: the answer is as the model says. Gives its number.
fn open(now: &mut State, cycle: u32, count: u32) -> u32 {
    let found = nettlestair::open(*now, cycle, count);
    agrees(format_args!("cycle {cycle} of {count} opened in {now:?}"), answer(opened(*now, cycle, count), found));
    *now = found.state;
    found.number
}

/// Serves a turn: the answer is as the model says.
fn turn(random: &mut Random, now: &mut State, lists: &Lists) -> Turned {
    let found = calls::turn(random, *now, lists);
    agrees(format_args!("a turn of {now:?} with {lists}"), answer(turned(*now, lists), found));
    *now = found.state;
    found
}

/// A turn of the library beside one of a queue that is carried along: the same cycle and corners.
fn turn_beside(random: &mut Random, now: &mut State, beside: &mut Queue, lists: &Lists) -> Turned {
    let found = turn(random, now, lists);
    assert_eq!(beside.turn(lists), found.served.then(|| (found.cycle, handed_out(&found).to_vec())));
    found
}

/// The cycles that are open.
fn cycles(now: &State) -> Vec<u32> {
    queue(now).open.iter().map(|(cycle, _)| *cycle).collect()
}

/// The corners that a turn handed out.
fn handed_out(turned: &Turned) -> &[u32] {
    &turned.places[..turned.count as usize]
}

/// The state with these outlines open.
fn with_open(open: impl IntoIterator<Item = (u32, u32)>) -> State {
    state(&Queue { open: open.into_iter().map(|(cycle, handed)| (cycle, handed as usize..)).collect() })
}

/// The outlines of a raster as the library traces them, with garbage behind them or without, and as the separate tracer does.
fn tracing(random: &mut Random, n: u32, raster: &[u16]) -> (Lists, Outlines) {
    let blocks = quadtree(n, raster);
    let mut given = outlines(random, n, &blocks);
    if random.below(2) == 0 {
        given = given.counted().expect("a tracing has what it counts");
    }
    let Given { corners, ends, cycles: count, .. } = given;
    (Lists { corners, ends, count }, Model::of(n, &blocks).outlines().clone())
}

/// One tracing at the cutter, from the fresh state: the library's answers beside the model's queue of iterators.
struct Watched<'a> {
    lists: &'a Lists,
    outlines: &'a Outlines,
    cutter: Cutter<'a>,
    state: State,
    /// Of each open outline the corners handed out so far, and the turns since it was opened or served.
    open: BTreeMap<u32, (Vec<u32>, u32)>,
    longest_wait: u32,
    /// How many outlines were closed.
    closed: u32,
}

impl<'a> Watched<'a> {
    fn of((lists, outlines): &'a (Lists, Outlines)) -> Watched<'a> {
        let (cutter, state, open) = (Cutter::of(outlines), State::default(), BTreeMap::new());
        Watched { lists, outlines, cutter, state, open, longest_wait: 0, closed: 0 }
    }

    fn open(&mut self, cycle: u32) -> u32 {
        let number = open(&mut self.state, cycle, self.lists.count);
        assert_eq!(number, self.cutter.open(cycle), "cycle {cycle}, and {:?} are open", self.open.keys());
        if number == 0 {
            self.open.insert(cycle, (vec![], 0));
        }
        number
    }

    /// A turn with the lists between guards. Says whether an outline was served.
    fn turn(&mut self, random: &mut Random) -> bool {
        let found = turn(random, &mut self.state, self.lists);
        self.watch(&found)
    }

    /// A turn with the lists as they lie, for large ones.
    fn turn_in_place(&mut self) -> bool {
        let Lists { corners, ends, count } = self.lists;
        let found = nettlestair::turn(self.state, corners, ends, *count);
        agrees(format_args!("a turn of {:?}", self.state), answer(turned(self.state, self.lists), found));
        self.state = found.state;
        self.watch(&found)
    }

    /// The cycle and the corners are those of the iterators. "Every open outline gets corners within eight turns"; it closes exactly in the
    /// turn that hands out its last corner, and from its opening on it got all of them in order.
    fn watch(&mut self, found: &Turned) -> bool {
        let handed_out = found.served.then(|| (found.cycle, handed_out(found).to_vec()));
        assert_eq!(handed_out, self.cutter.turn());
        assert_eq!(found.served, !self.open.is_empty(), "\"None open\" is said exactly when none is");
        let Some((cycle, corners)) = handed_out else { return false };
        assert!((1..=16).contains(&corners.len()), "{} corners", corners.len());
        self.open.values_mut().for_each(|(_, waited)| *waited += 1);
        let (so_far, waited) = self.open.get_mut(&cycle).expect("an open outline is served");
        self.longest_wait = self.longest_wait.max(*waited);
        *waited = 0;
        so_far.extend(corners);
        let whole = self.outlines.cycle(cycle as usize);
        assert_eq!(so_far[..], whole[..so_far.len()], "corners of cycle {cycle}");
        if so_far.len() == whole.len() {
            self.open.remove(&cycle);
            self.closed += 1;
        }
        assert!(
            self.open.values().all(|&(_, waited)| waited < 8),
            "one got no corners in eight turns: {:?}",
            self.open
        );
        let open: BTreeSet<u32> = cycles(&self.state).into_iter().collect();
        assert!(open.iter().eq(self.open.keys()), "open are {open:?}, and not {:?}", self.open.keys());
        true
    }

    /// The cycles, those with the most corners first.
    fn longest(&self) -> Vec<u32> {
        let mut cycles: Vec<u32> = (0..self.lists.count).collect();
        cycles.sort_by_key(|&cycle| std::cmp::Reverse(self.outlines.cycle(cycle as usize).len()));
        cycles
    }
}

/// Random openings and turns over the lists of one tracing: as many open as there is room for, or some. Small images of every kind.
#[test]
fn one_tracing() {
    let mut cases = Cases::of("turns over one tracing");
    let mut random = Random::of("turns over one tracing");
    let (mut numbers, mut longest_wait) = (BTreeSet::new(), 0);
    for n in 0..=5 {
        let mut images = rasters::with_structured(&mut random, n);
        for _ in 0..10 {
            images.extend([rasters::frames(&mut random, n), rasters::any(&mut random, n)]);
        }
        for raster in images {
            let tracing = tracing(&mut random, n, &raster);
            let count = tracing.0.count;
            for openings in [1, 4, 9] {
                let mut watched = Watched::of(&tracing);
                let longest = watched.longest();
                for _ in 0..80 {
                    if random.below(10) < openings {
                        let cycle = match random.below(10) {
                            0 => [count, count + 1, u32::MAX, random.word()][random.below(4)],
                            1..=4 => longest[random.below(longest.len().min(9))],
                            _ => random.below(count as usize) as u32,
                        };
                        numbers.insert(watched.open(cycle));
                    } else {
                        watched.turn(&mut random);
                    }
                    cases.ran();
                }
                while watched.turn(&mut random) {
                    cases.ran();
                }
                assert!(!watched.turn(&mut random));
                assert_eq!(watched.state, State::default(), "with none open every place serves again");
                longest_wait = longest_wait.max(watched.longest_wait);
            }
        }
    }
    assert_eq!(numbers, BTreeSet::from([0, 22, 23, 24]));
    assert_eq!(longest_wait, 8, "the longest that an outline waited");
    cases.end();
}

/// Every run of up to 8 openings and turns over stretches of 4, 17 and 33 corners.
#[test]
fn every_short_run() {
    let mut cases = Cases::of("short runs at the cutter");
    let mut random = Random::of("short runs at the cutter");
    let lists = Lists::of_lengths(&[4, 17, 33]);
    go_on(&mut random, &lists, 8, State::default(), &mut cases);
    cases.end();
}

/// Every run of so many more steps from a state: the opening of each cycle, of one that there is not, or a turn.
fn go_on(random: &mut Random, lists: &Lists, more: u32, now: State, cases: &mut Cases) {
    if more == 0 {
        return;
    }
    for step in 0..=lists.count + 1 {
        let mut next = now;
        if step <= lists.count {
            open(&mut next, step, lists.count);
        } else {
            turn(random, &mut next, lists);
        }
        cases.ran();
        go_on(random, lists, more - 1, next, cases);
    }
}

/// Lists of several tracings by turns: what is due is judged by the lists lent for the turn. Outlines close with zero, and early, and late.
#[test]
fn several_tracings() {
    let mut cases = Cases::of("turns over several tracings");
    let mut random = Random::of("turns over several tracings");
    let (mut with_zero, mut longer, mut shorter) = (0, 0, 0);
    for round in 0..250 {
        let all: Vec<Lists> = (0..2 + random.below(3))
            .map(|_| {
                let n = 1 + random.below(if round % 10 == 0 { 5 } else { 4 }) as u32;
                let raster = match random.below(3) {
                    0 => rasters::frames(&mut random, n),
                    1 => {
                        let mut images = rasters::structured(&mut random, n);
                        images.swap_remove(random.below(images.len())).1
                    }
                    _ => rasters::any(&mut random, n),
                };
                tracing(&mut random, n, &raster).0
            })
            .collect();
        let (mut now, mut beside) = (State::default(), Queue::default());
        for _ in 0..100 {
            let lists = &all[random.below(all.len())];
            if random.below(2) == 0 {
                let cycle = random.below(lists.count.min(12) as usize + 1) as u32;
                assert_eq!(open(&mut now, cycle, lists.count), beside.open(cycle, lists.count));
            } else {
                let handed = now.outlines[0].handed;
                let found = turn_beside(&mut random, &mut now, &mut beside, lists);
                with_zero += u32::from(found.served && found.count == 0);
                let lengths = all.iter().map(|lists| lists.cycle(found.cycle).len() as u32);
                let (least, most) = (lengths.clone().min().unwrap_or(0), lengths.max().unwrap_or(0));
                let after = handed + found.count;
                longer += u32::from(found.served && found.count > 0 && after > least);
                shorter += u32::from(found.served && found.count < 16 && after < most);
            }
            cases.ran();
        }
    }
    println!("{with_zero} closed with zero, {longer} got more and {shorter} got fewer corners than with other lists");
    assert!(with_zero.min(longer).min(shorter) > 100);
    cases.end();
}

/// Faulty lists, another in each turn, and states of any make: each answer is as the model says, and so are those that follow from it.
#[test]
fn faulty_lists() {
    let mut cases = Cases::of("turns over faulty lists");
    let mut random = Random::of("turns over faulty lists");
    for _ in 0..40_000 {
        let mut now = if random.below(4) == 0 { State::default() } else { any_state(&mut random) };
        let mut beside = queue(&now);
        for _ in 0..1 + random.below(12) {
            let lists = any_lists(&mut random);
            if random.below(3) == 0 {
                let cycle = if random.below(9) == 0 { random.word() } else { random.below(12) as u32 };
                assert_eq!(open(&mut now, cycle, lists.count), beside.open(cycle, lists.count));
            } else {
                turn_beside(&mut random, &mut now, &mut beside, &lists);
            }
            cases.ran();
        }
    }
    cases.end();
}

/// Each way in which there is no stretch: a cycle not below the count or the length of the ends, a stretch that begins after its end, one that
/// ends after the corners. The outline closes with zero, whatever was handed out. Beside them lists that have a stretch, if only just.
#[test]
fn no_stretch() {
    let mut cases = Cases::of("turns without a stretch");
    let mut random = Random::of("turns without a stretch");
    let of = |corners: u32, ends: &[u32], count: u32| {
        let corners = (1..=corners).map(|corner| corner.wrapping_mul(77)).collect();
        Lists { corners, ends: ends.to_vec(), count }
    };
    let rows = [
        ("as it should be", of(60, &[20, 60], 2), 1, 40),
        ("a count above the ends", of(60, &[20, 60], u32::MAX), 1, 40),
        ("corners behind", of(61, &[20, 60], 2), 1, 40),
        ("the first", of(60, &[20, 60], 2), 0, 20),
        ("the first, with a smaller end behind", of(60, &[20, 10], 2), 0, 20),
        ("the first, with an end far behind", of(60, &[20, u32::MAX], 2), 0, 20),
        ("the second, after an empty one", of(60, &[0, 60], 2), 1, 60),
        ("not below the count", of(60, &[20, 60], 1), 1, 0),
        ("no count", of(60, &[20, 60], 0), 0, 0),
        ("not below the length of the ends", of(60, &[20], 2), 1, 0),
        ("no ends", of(60, &[], 2), 0, 0),
        ("a cycle of 2^32 - 1", of(60, &[20, 60], u32::MAX), u32::MAX, 0),
        ("an end past the corners", of(59, &[20, 60], 2), 1, 0),
        ("an end far past the corners", of(60, &[20, u32::MAX], 2), 1, 0),
        ("no corners", of(0, &[20, 60], 2), 1, 0),
        ("a begin after the end", of(60, &[21, 20], 2), 1, 0),
        ("a begin far after the end", of(60, &[u32::MAX, 20], 2), 1, 0),
        ("both past the corners", of(60, &[61, 61], 2), 1, 0),
        ("a begin and an end alike", of(60, &[20, 20], 2), 1, 0),
        ("nothing at all", Lists::default(), 0, 0),
    ];
    for (what, lists, cycle, length) in rows {
        assert_eq!(lists.cycle(cycle).len(), length, "the model: {what}");
        for handed in [0, 1, 16, 39, 40, 41, u32::MAX] {
            for others in 0..8 {
                let behind = (0..others).map(|k| (100 + k, 3 * k));
                let mut now = with_open([(cycle, handed)].into_iter().chain(behind));
                let found = turn(&mut random, &mut now, &lists);
                let due = length.saturating_sub(handed as usize);
                assert_eq!((found.count as usize, found.cycle), (due.min(16), cycle), "{what}, {handed} handed out");
                assert_eq!(now.length, others + u32::from(due > 16), "{what}, {handed} handed out");
                cases.ran();
            }
        }
    }
    cases.end();
}

/// Every length of a stretch up to 50, every number handed out up to two more and some of the largest, every number of open outlines.
#[test]
fn every_length_and_number() {
    let mut cases = Cases::of("lengths and numbers handed out");
    let mut random = Random::of("lengths and numbers handed out");
    for length in 0..=50 {
        for (cycle, lists) in [(0, Lists::of_lengths(&[length, 20])), (1, Lists::of_lengths(&[20, length, 20]))] {
            for handed in (0..=length as u32 + 2).chain(u32::MAX - 17..=u32::MAX) {
                for others in 0..8 {
                    let behind = (0..others).map(|k| (2 + k, 7 * k));
                    let mut now = with_open([(cycle, handed)].into_iter().chain(behind.clone()));
                    let found = turn(&mut random, &mut now, &lists);
                    let due = (length as u32).saturating_sub(handed);
                    let corners: Vec<u32> = lists.cycle(cycle).iter().skip(handed as usize).copied().collect();
                    assert_eq!(handed_out(&found), &corners[..due.min(16) as usize]);
                    assert!(found.places[found.count as usize..].iter().all(|&place| place == 0));
                    let after = behind.chain((due > 16).then_some((cycle, handed.wrapping_add(16))));
                    assert_eq!(now, with_open(after), "{length} corners, {handed} handed out");
                    cases.ran();
                }
            }
        }
    }
    cases.end();
}

/// The steps of a staircase one pixel wide each: with k of them it has 2k + 2 corners.
fn staircase(n: u32, steps: u32) -> Vec<u16> {
    (0..1 << (2 * n)).map(|i| (i & ((1 << n) - 1), i >> n)).map(|(x, y)| u16::from(x <= y && y < steps)).collect()
}

/// A stretch takes as many turns as 16 goes into it, with one more for what is left over: after the last full turn there is no empty one.
/// Stretches of every length up to 100, and staircases of 4 to 66 corners; alone, and beside a longer and a shorter one.
#[test]
fn turns_of_a_stretch() {
    let mut cases = Cases::of("turns of a stretch");
    let mut random = Random::of("turns of a stretch");
    let made_up = (1..=100).map(|length| (Lists::of_lengths(&[length, 200, 3]), length));
    let staircases: Vec<(Lists, usize)> = (1..=32)
        .map(|steps| {
            let (lists, outlines) = tracing(&mut random, 5, &staircase(5, steps));
            let length = 2 * steps as usize + 2;
            assert_eq!(outlines.cycle(0).len(), length, "a staircase of {steps} steps");
            (lists, length)
        })
        .collect();
    for (lists, length) in made_up.chain(staircases) {
        let whole = lists.cycle(0).to_vec();
        assert_eq!(whole.len(), length);
        for others in [&[][..], &[1], &[1, 2], &[2, 1]] {
            for first in [true, false] {
                let mut now = State::default();
                let order = if first { [&[0], others].concat() } else { [others, &[0]].concat() };
                order.into_iter().filter(|&cycle| cycle < lists.count).for_each(|cycle| {
                    assert_eq!(open(&mut now, cycle, lists.count), 0);
                });
                let (mut so_far, mut turns): (Vec<u32>, Vec<usize>) = (vec![], vec![]);
                while cycles(&now).contains(&0) {
                    let found = turn(&mut random, &mut now, &lists);
                    if found.cycle == 0 {
                        so_far.extend(handed_out(&found));
                        turns.push(found.count as usize);
                    }
                }
                assert_eq!(so_far, whole);
                let expected: Vec<usize> = whole.chunks(16).map(<[u32]>::len).collect();
                assert_eq!(turns, expected, "a stretch of {length} corners");
                cases.ran();
            }
        }
    }
    cases.end();
}

/// Eight long outlines wait eight turns each, again and again; a ninth has no place, and an outline that is opened behind seven others waits
/// for the eighth turn.
#[test]
fn eight_turns_are_reached() {
    let mut cases = Cases::of("eight turns");
    let mut random = Random::of("eight turns");
    // combs of 32 teeth, one below the other
    let side = 64;
    let combs: Vec<u16> = (0..side * side)
        .map(|i| (i % side, i / side))
        .map(|(x, y)| if y % 8 == 0 || (x % 2 == 0 && y % 8 < 7) { 1 + y / 8 } else { 0 })
        .collect();
    let tracing = tracing(&mut random, 6, &combs);
    let mut watched = Watched::of(&tracing);
    let longest = watched.longest();
    let long = &longest[..8];
    assert!(long.iter().all(|&cycle| watched.outlines.cycle(cycle as usize).len() > 112), "more than seven turns each");
    for &cycle in long {
        assert_eq!(watched.open(cycle), 0);
    }
    for turns in 0..56 {
        assert_eq!(watched.open(longest[8 + turns % 8]), 24);
        assert_eq!(watched.open(long[turns % 8]), 23);
        assert!(watched.turn(&mut random));
        assert_eq!(watched.longest_wait, 8.min(turns as u32 + 1));
        assert_eq!(cycles(&watched.state)[7], long[turns % 8], "the one that was served is at the back");
        cases.ran();
    }
    // the first closes; in its place another one joins at the back, and gets its first corners in the eighth turn
    while cycles(&watched.state).len() == 8 {
        watched.turn(&mut random);
    }
    assert_eq!(watched.open(longest[8]), 0);
    for turns in 1..=8 {
        assert!(watched.open[&longest[8]].0.is_empty(), "nothing before turn {turns}");
        assert!(watched.turn(&mut random));
        // another one is opened in each place that comes free meanwhile
        if turns < 8 {
            assert_eq!(watched.open(longest[8 + turns]), 0);
        }
        cases.ran();
    }
    assert_eq!(watched.open[&longest[8]].0.len(), 16, "the eighth turn");
    cases.end();
}

/// A long rim and short outlines, of which a new one is opened in each place that comes free: the rim is served in each eighth turn, neither
/// earlier nor later, and holds none of them up.
#[test]
fn one_long_rim() {
    let mut cases = Cases::of("one long rim");
    let mut random = Random::of("one long rim");
    for (rim, short) in [(1000, 1), (1000, 16), (4000, 4), (161, 7)] {
        for place in 0..8 {
            let lists = Lists::of_lengths(&[&[rim][..], &vec![short; 3000]].concat());
            let mut now = State::default();
            let mut next = 1;
            let mut join = |now: &mut State, cycle: Option<u32>| {
                let cycle = cycle.unwrap_or(next);
                next += u32::from(cycle == next);
                assert_eq!(open(now, cycle, lists.count), 0);
            };
            (0..8).for_each(|at| join(&mut now, (at == place).then_some(0)));
            let (mut served, mut shorts) = (vec![], 1..);
            for turns in 0.. {
                let found = turn(&mut random, &mut now, &lists);
                if found.cycle == 0 {
                    served.push(turns);
                } else {
                    let next = shorts.next().expect("a short one");
                    assert_eq!((found.cycle, found.count as usize), (next, short), "none of them is held up");
                }
                if now.length < 8 {
                    join(&mut now, None);
                }
                assert_eq!(now.length, 8, "as many as there is room for");
                if !cycles(&now).contains(&0) {
                    break;
                }
                cases.ran();
            }
            let expected: Vec<usize> = (0..rim.div_ceil(16)).map(|k| place + 8 * k).collect();
            assert_eq!(served, expected, "the turns of a rim of {rim} corners");
        }
    }
    cases.end();
}

/// Images of 256 by 256: the outline with the most corners beside seven others, then all outlines, each opened as soon as there is room and
/// handed out whole.
#[test]
fn largest_images() {
    let mut cases = Cases::of("turns over the largest images");
    let mut random = Random::of("turns over the largest images");
    let names =
        ["noise of 2 colours", "blobs", "comb joined in the east", "spiral", "nested triangles", "checkerboard"];
    let images = rasters::structured(&mut random, 8).into_iter().filter(|(name, _)| names.contains(name));
    let images: Vec<_> = images.collect();
    assert_eq!(images.len(), names.len(), "an image of each name");
    for (name, raster) in images {
        let tracing = tracing(&mut random, 8, &raster);
        let before = tracing.0.clone();
        let mut watched = Watched::of(&tracing);
        let longest = watched.longest();
        for &cycle in &longest[..longest.len().min(8)] {
            assert_eq!(watched.open(cycle), 0, "{name}");
        }
        let most = watched.outlines.cycle(longest[0] as usize).len();
        let mut turns = 0;
        while watched.open.contains_key(&longest[0]) {
            watched.turn_in_place();
            turns += 1;
            cases.ran();
        }
        assert!(turns <= 8 * most.div_ceil(16), "{name}: {turns} turns for {most} corners");
        println!("{name}: the longest of {} outlines has {most} corners, and closes in turn {turns}", longest.len());
        while watched.turn_in_place() {}
        let closed = watched.closed;
        for next in (0..watched.lists.count).map(Some).chain([None]) {
            while next.map_or(!watched.open.is_empty(), |cycle| watched.open(cycle) != 0) {
                assert!(watched.turn_in_place());
                cases.ran();
            }
        }
        assert_eq!(watched.closed - closed, watched.lists.count, "{name}: every outline is handed out");
        assert_eq!(tracing.0, before, "{name}: the lists are only read");
    }
    cases.end();
}

/// A state goes through a refusal, and through a turn with none open, as it was, whatever it holds. After anything else its unused places
/// are 0.
#[test]
fn states_left_and_cleared() {
    let mut cases = Cases::of("states left and cleared");
    let mut random = Random::of("states left and cleared");
    let mut numbers = BTreeSet::new();
    let cleared = |now: &State| {
        now.length <= 8 && now.outlines[now.length as usize..].iter().all(|place| *place == OpenOutline::default())
    };
    for _ in 0..60_000 {
        let before = any_state(&mut random);
        let cycle = match random.below(4) {
            0 => random.word(),
            1 => before.outlines[random.below(8)].cycle,
            _ => random.below(14) as u32,
        };
        let count = [0, 5, 14, cycle, cycle.wrapping_add(1), u32::MAX][random.below(6)];
        let mut now = before;
        match open(&mut now, cycle, count) {
            0 => assert!(cleared(&now), "{before:?} and cycle {cycle} give {now:?}"),
            number => {
                assert_eq!(now, before, "{number}");
                numbers.insert(number);
            }
        }
        let lists = any_lists(&mut random);
        let none = State { length: 0, ..before };
        let found = calls::turn(&mut random, none, &lists);
        assert_eq!(found, Turned { served: false, count: 0, cycle: 0, places: [0; 16], state: none });
        let some = State { length: before.length.max(1), ..before };
        let found = calls::turn(&mut random, some, &lists);
        assert!(found.served && cleared(&found.state), "{some:?} gives {found:?}");
        assert_eq!(found.cycle, some.outlines[0].cycle);
        cases.ran();
    }
    assert_eq!(numbers, BTreeSet::from([22, 23, 24]));
    cases.end();
}

/// A closed outline is opened again and begins with its first corner, at once or after others, as often as one likes; one that is open is not
/// opened again, however much of it was handed out.
#[test]
fn opened_again() {
    let mut cases = Cases::of("opened again");
    let mut random = Random::of("opened again");
    let images = [(3, rasters::structured(&mut random, 3)), (4, rasters::structured(&mut random, 4))];
    for (n, (_, raster)) in images.into_iter().flat_map(|(n, all)| all.into_iter().map(move |image| (n, image))) {
        let tracing = tracing(&mut random, n, &raster);
        for others in [0, 1, 7] {
            let mut watched = Watched::of(&tracing);
            let longest = watched.longest();
            for &cycle in longest.iter().skip(1).take(others) {
                assert_eq!(watched.open(cycle), 0);
            }
            for _ in 0..3 {
                let cycle = longest[0];
                let closed = watched.closed;
                assert_eq!(watched.open(cycle), 0);
                while watched.open.contains_key(&cycle) {
                    assert_eq!(watched.open(cycle), 23);
                    assert!(watched.turn(&mut random));
                    cases.ran();
                }
                assert!(watched.closed > closed);
            }
        }
    }
    cases.end();
}

/// Lists that are parts of longer ones, in which ends and corners go on in front and behind: nothing outside the parts is looked at.
#[test]
fn parts_of_lists() {
    let mut cases = Cases::of("turns over parts of lists");
    let whole = Lists::of_lengths(&[5, 20, 17, 3, 40]);
    let parts = |cuts: &[usize]| -> Vec<(usize, usize)> {
        cuts.iter().flat_map(|&from| cuts.iter().filter(move |&&to| from <= to).map(move |&to| (from, to))).collect()
    };
    let corner_cuts: Vec<usize> =
        whole.ends.iter().flat_map(|&end| [end as usize - 1, end as usize]).chain([0]).collect();
    for &(from, to) in &parts(&[0, 1, 2, 3, 4, 5]) {
        let ends = &whole.ends[from..to];
        for &(first, last) in &parts(&corner_cuts) {
            let corners = &whole.corners[first..last];
            for count in [ends.len() as u32, 5, u32::MAX] {
                let lists = Lists { corners: corners.to_vec(), ends: ends.to_vec(), count };
                for cycle in 0..=5 {
                    for handed in [0, 2, 16, 19, u32::MAX] {
                        let now = with_open([(cycle, handed), (9, 9)]);
                        let found = nettlestair::turn(now, corners, ends, count);
                        agrees(format_args!("{now:?} with {lists}"), answer(turned(now, &lists), found));
                        cases.ran();
                    }
                }
            }
        }
    }
    assert_eq!(whole, Lists::of_lengths(&[5, 20, 17, 3, 40]), "the lists are only read");
    cases.end();
}

/// Stretches and cycle numbers of more than 16 binary digits. Cycles are told apart by all 32 digits.
#[test]
fn large_numbers() {
    let mut cases = Cases::of("turns with large numbers");
    let mut random = Random::of("turns with large numbers");
    let lists = Lists::of_lengths(&[3, 200_000, 70_000]);
    let mut now = State::default();
    let mut so_far: [Vec<u32>; 3] = Default::default();
    for cycle in [1, 2, 0] {
        assert_eq!(open(&mut now, cycle, lists.count), 0);
    }
    while now.length > 0 {
        let found = nettlestair::turn(now, &lists.corners, &lists.ends, lists.count);
        agrees(format_args!("a turn of {now:?}"), answer(turned(now, &lists), found));
        so_far[found.cycle as usize].extend(handed_out(&found));
        now = found.state;
        cases.ran();
    }
    for (cycle, corners) in (0..).zip(so_far) {
        assert!(corners == lists.cycle(cycle), "the corners of cycle {cycle}");
    }

    let lists = Lists::of_lengths(&vec![2; 140_000]);
    let far = [5, 65_541, 131_077, 65_536, 0, 139_999, 131_072];
    for cycle in far {
        assert_eq!(open(&mut now, cycle, lists.count), 0);
    }
    for cycle in far {
        assert_eq!(open(&mut now, cycle, lists.count), 23);
        let found = turn(&mut random, &mut now, &lists);
        assert_eq!((found.cycle, handed_out(&found)), (cycle, lists.cycle(cycle)));
        cases.ran();
    }

    for digit in 0..32 {
        for cycle in [0, random.word(), u32::MAX >> 1] {
            let mut now = State::default();
            assert_eq!(open(&mut now, cycle, u32::MAX), 0);
            let other = cycle ^ 1 << digit;
            assert_eq!(open(&mut now, other, u32::MAX), if other == u32::MAX { 22 } else { 0 });
            assert_eq!(open(&mut now, cycle, u32::MAX), 23);
            cases.ran();
        }
    }
    cases.end();
}

/// The comparison can fail: with one binary digit of an answer changed, in any of its parts, it says so.
#[test]
fn damage_is_seen() {
    let mut cases = Cases::of("damage of openings and turns");
    let mut random = Random::of("damage of openings and turns");
    for _ in 0..40 {
        let before = any_state(&mut random);
        let lists = any_lists(&mut random);
        let cycle = random.below(14) as u32;
        let expected = opened(before, cycle, lists.count);
        let found = nettlestair::open(before, cycle, lists.count);
        each_part(&mut cases, found, |found| answer(expected, *found));
        let expected = turned(before, &lists);
        let found = calls::turn(&mut random, before, &lists);
        each_part(&mut cases, found, |found| answer(expected, *found));
        let other = Turned { served: !found.served, ..found };
        assert!(answer(expected, other).is_some(), "the other `served` in {other:?}");
        cases.ran();
    }
    cases.end();
}

/// Changes each binary digit of an answer by turns: the difference is reported, and none without the change.
fn each_part<A: Parts>(cases: &mut Cases, mut found: A, difference: impl Fn(&A) -> Option<String>) {
    for part in 0..found.parts().len() {
        for digit in 0..32 {
            assert_eq!(difference(&found), None);
            *found.parts()[part] ^= 1 << digit;
            assert!(difference(&found).is_some(), "digit {digit} of part {part}");
            *found.parts()[part] ^= 1 << digit;
            cases.ran();
        }
    }
}
