//! What steps would change, in plain Rust with no proofs: what `tt_moves::change` is measured against. The same tables of counts,
//! the same differences, and the steps in the same order as in steps/src.
//!
//! Usage: steps INSTANCE SOLUTION. The files are taken as they are: faults panic.

use std::collections::HashMap;
use std::time::Instant;
use std::{env, fs};

/// How often the moves in order are gone through, and how often the swaps.
const ROUNDS: (u32, u32) = (20, 40);

/// How many steps of each kind are drawn.
const DRAWS: u32 = 3_000_000;

#[derive(Clone, Copy)]
struct Entry {
    course: usize,
    room: usize,
    day: usize,
    period: usize,
}

struct Course {
    min_days: u32,
    students: u32,
    curricula: Vec<usize>,
    opponents: Vec<usize>,
}

/// The instance, and the counts of a timetable's entries.
struct Tables {
    days: usize,
    periods: usize,
    slots: usize,
    courses: Vec<Course>,
    capacities: Vec<u32>,
    members: Vec<Vec<bool>>,
    conflicts: Vec<Vec<bool>>,
    unavailable: Vec<Vec<bool>>,
    entries: Vec<Entry>,
    in_room: Vec<u16>,
    of_course: Vec<u16>,
    of_curriculum: Vec<u16>,
    opposing: Vec<u16>,
    on_day: Vec<u16>,
    days_used: Vec<u16>,
    course_in_room: Vec<u16>,
    rooms_used: Vec<u16>,
}

fn number(token: Option<&str>) -> usize {
    token.expect("a number").parse().expect("digits")
}

fn read(text: &str, solution: &str) -> Tables {
    let mut tokens = text.split_ascii_whitespace().skip_while(|t| *t != "Courses:");
    let mut counts = [0; 6];
    for count in &mut counts {
        tokens.next();
        *count = number(tokens.next());
    }
    let [n, rooms, days, periods, curricula, bars] = counts;
    tokens.next();
    let (mut names, mut teachers, mut courses) = (HashMap::new(), Vec::new(), Vec::new());
    for i in 0..n {
        names.insert(tokens.next().expect("a course"), i);
        teachers.push(tokens.next().expect("a teacher"));
        tokens.next();
        let (min_days, students) = (number(tokens.next()) as u32, number(tokens.next()) as u32);
        courses.push(Course { min_days, students, curricula: Vec::new(), opponents: Vec::new() });
    }
    tokens.next();
    let (mut room_names, mut capacities) = (HashMap::new(), Vec::new());
    for i in 0..rooms {
        room_names.insert(tokens.next().expect("a room"), i);
        capacities.push(number(tokens.next()) as u32);
    }
    tokens.next();
    let mut members = vec![vec![false; n]; curricula];
    for row in &mut members {
        tokens.next();
        for _ in 0..number(tokens.next()) {
            row[names[tokens.next().expect("a member")]] = true;
        }
    }
    tokens.next();
    let slots = days * periods;
    let mut unavailable = vec![vec![false; slots]; n];
    for _ in 0..bars {
        let course = names[tokens.next().expect("a course")];
        unavailable[course][number(tokens.next()) * periods + number(tokens.next())] = true;
    }
    let excludes = |a: usize, b: usize| a != b && (teachers[a] == teachers[b] || members.iter().any(|row| row[a] && row[b]));
    let conflicts: Vec<Vec<bool>> = (0..n).map(|a| (0..n).map(|b| excludes(a, b)).collect()).collect();
    for (i, course) in courses.iter_mut().enumerate() {
        course.curricula = (0..curricula).filter(|q| members[*q][i]).collect();
        course.opponents = (0..n).filter(|other| conflicts[i][*other]).collect();
    }
    let tokens: Vec<&str> = solution.split_ascii_whitespace().collect();
    let entries: Vec<Entry> = tokens
        .chunks(4)
        .map(|t| Entry { course: names[t[0]], room: room_names[t[1]], day: number(Some(t[2])), period: number(Some(t[3])) })
        .collect();
    let mut tables = Tables {
        days,
        periods,
        slots,
        courses,
        capacities,
        members,
        conflicts,
        unavailable,
        entries: entries.clone(),
        in_room: vec![0; rooms * slots],
        of_course: vec![0; n * slots],
        of_curriculum: vec![0; curricula * slots],
        opposing: vec![0; n * slots],
        on_day: vec![0; n * days],
        days_used: vec![0; n],
        course_in_room: vec![0; n * rooms],
        rooms_used: vec![0; n],
    };
    for entry in entries {
        tables.count(entry);
    }
    tables
}

/// A timetable less the entry `gone`, once the entry `from` stands at `to`.
struct Rest<'a> {
    tables: &'a Tables,
    from: Entry,
    to: Entry,
    gone: Entry,
}

/// Another entry in the place of the one that a rest leaves out.
struct Exchange<'a> {
    rest: Rest<'a>,
    new: Entry,
}

struct Cost {
    rise: i64,
    fall: i64,
}

#[derive(Clone, Copy)]
struct Change {
    hard: i64,
    cost: i64,
}

impl Tables {
    fn slot(&self, day: usize, period: usize) -> usize {
        day * self.periods + period
    }

    /// Counts one entry more.
    fn count(&mut self, entry: Entry) {
        let (slots, slot) = (self.slots, self.slot(entry.day, entry.period));
        self.in_room[entry.room * slots + slot] += 1;
        self.of_course[entry.course * slots + slot] += 1;
        for curriculum in &self.courses[entry.course].curricula {
            self.of_curriculum[curriculum * slots + slot] += 1;
        }
        for other in &self.courses[entry.course].opponents {
            self.opposing[other * slots + slot] += 1;
        }
        let day = &mut self.on_day[entry.course * self.days + entry.day];
        *day += 1;
        self.days_used[entry.course] += u16::from(*day == 1);
        let room = &mut self.course_in_room[entry.course * self.capacities.len() + entry.room];
        *room += 1;
        self.rooms_used[entry.course] += u16::from(*room == 1);
    }

    fn exchange(&self, from: Entry, to: Entry, gone: Entry, new: Entry) -> Exchange<'_> {
        Exchange { rest: Rest { tables: self, from, to, gone }, new }
    }

    fn exchange_of_move(&self, entry: usize, room: usize, day: usize, period: usize) -> Exchange<'_> {
        let from = self.entries[entry];
        self.exchange(from, from, from, Entry { room, day, period, ..from })
    }

    fn exchanges_of_swap(&self, first: usize, second: usize) -> Option<(Exchange<'_>, Exchange<'_>)> {
        let (one, other) = (self.entries[first], self.entries[second]);
        if one.course == other.course {
            return None;
        }
        let there = Entry { course: one.course, ..other };
        let here = Entry { course: other.course, ..one };
        Some((self.exchange(one, one, one, there), self.exchange(one, there, other, here)))
    }

    fn move_change(&self, entry: usize, room: usize, day: usize, period: usize) -> Change {
        self.exchange_of_move(entry, room, day, period).change()
    }

    fn swap_change(&self, first: usize, second: usize) -> Change {
        match self.exchanges_of_swap(first, second) {
            None => Change { hard: 0, cost: 0 },
            Some((a, b)) => {
                let (a, b) = (a.change(), b.change());
                Change { hard: a.hard + b.hard, cost: a.cost + b.cost }
            }
        }
    }

    /// A move's change, where it breaks no more hard rules than the timetable.
    fn move_within(&self, entry: usize, room: usize, day: usize, period: usize) -> Option<Change> {
        let exchange = self.exchange_of_move(entry, room, day, period);
        let hard = exchange.hard();
        (hard <= 0).then(|| Change { hard, cost: exchange.cost() })
    }

    /// The same of a swap.
    fn swap_within(&self, first: usize, second: usize) -> Option<Change> {
        match self.exchanges_of_swap(first, second) {
            None => Some(Change { hard: 0, cost: 0 }),
            Some((a, b)) => {
                let hard = a.hard() + b.hard();
                (hard <= 0).then(|| Change { hard, cost: a.cost() + b.cost() })
            }
        }
    }
}

impl Exchange<'_> {
    fn hard(&self) -> i64 {
        self.rest.hard(self.new) - self.rest.hard(self.rest.gone)
    }

    fn cost(&self) -> i64 {
        let (before, after) = (self.rest.cost(self.rest.gone), self.rest.cost(self.new));
        after.rise + before.fall - before.rise - after.fall
    }

    fn change(&self) -> Change {
        Change { hard: self.hard(), cost: self.cost() }
    }
}

fn stands_at(entry: Entry, day: usize, period: usize) -> bool {
    entry.day == day && entry.period == period
}

fn used_anew(used: u16, at_old: u16, at_new: u16, is_same: bool) -> u32 {
    u32::from(used) - u32::from(at_old == 1) + u32::from(at_new == u16::from(is_same))
}

impl Rest<'_> {
    /// A count over all entries, as one over the rest.
    fn adjusted(&self, count: u16, counts: impl Fn(Entry) -> bool) -> u32 {
        u32::from(count) + u32::from(counts(self.to)) - u32::from(counts(self.from)) - u32::from(counts(self.gone))
    }

    fn standing(&self, curriculum: usize, other: bool, day: usize, period: usize) -> u32 {
        let tables = self.tables;
        if period >= tables.periods {
            return 0;
        }
        let count = tables.of_curriculum[curriculum * tables.slots + tables.slot(day, period)];
        u32::from(count) + u32::from(other && stands_at(self.to, day, period))
            - u32::from(other && stands_at(self.from, day, period))
            - u32::from(stands_at(self.gone, day, period))
    }

    /// The curricula in which an entry would be isolated, and the isolated entries that it would join.
    fn gaps(&self, entry: Entry) -> (u32, u32) {
        let (mut alone, mut joined) = (0, 0);
        for curriculum in &self.tables.courses[self.gone.course].curricula {
            let other = self.tables.members[*curriculum][self.from.course];
            let before = |by: usize| if by <= entry.period { self.standing(*curriculum, other, entry.day, entry.period - by) } else { 0 };
            let after = |by: usize| self.standing(*curriculum, other, entry.day, entry.period + by);
            let (two_before, before, here, after, two_after) = (before(2), before(1), after(0), after(1), after(2));
            alone += u32::from(before == 0 && after == 0);
            if here == 0 {
                joined += if two_before == 0 { before } else { 0 } + if two_after == 0 { after } else { 0 };
            }
        }
        (alone, joined)
    }

    fn hard(&self, entry: Entry) -> i64 {
        let tables = self.tables;
        let slot = entry.course * tables.slots + tables.slot(entry.day, entry.period);
        let repeats = u32::from(tables.of_course[slot]) > u32::from(stands_at(self.gone, entry.day, entry.period));
        let against = self.adjusted(tables.opposing[slot], |e| {
            tables.conflicts[entry.course][e.course] && stands_at(e, entry.day, entry.period)
        });
        let barred = tables.unavailable[entry.course][tables.slot(entry.day, entry.period)];
        let in_room = tables.in_room[entry.room * tables.slots + tables.slot(entry.day, entry.period)];
        let shares = self.adjusted(in_room, |e| e.room == entry.room && stands_at(e, entry.day, entry.period));
        i64::from(u32::from(repeats) + against + u32::from(barred) + u32::from(shares > 0))
    }

    fn cost(&self, entry: Entry) -> Cost {
        let tables = self.tables;
        let course = &tables.courses[entry.course];
        let excess = course.students.saturating_sub(tables.capacities[entry.room]);
        let days_row = &tables.on_day[entry.course * tables.days..][..tables.days];
        let days = used_anew(tables.days_used[entry.course], days_row[self.gone.day], days_row[entry.day], self.gone.day == entry.day);
        let rooms = tables.capacities.len();
        let rooms_row = &tables.course_in_room[entry.course * rooms..][..rooms];
        let rooms = used_anew(tables.rooms_used[entry.course], rooms_row[self.gone.room], rooms_row[entry.room], self.gone.room == entry.room);
        let (alone, joined) = self.gaps(entry);
        let rise = excess + 5 * course.min_days.saturating_sub(days) + rooms.saturating_sub(1) + 2 * alone;
        Cost { rise: i64::from(rise), fall: i64::from(2 * joined) }
    }
}

#[derive(Default)]
struct Tally {
    steps: u64,
    hard: i64,
    cost: i64,
}

impl Tally {
    fn add(&mut self, change: Change) {
        self.steps += 1;
        self.hard += change.hard;
        self.cost += change.cost;
    }

    /// One step more, whose change counts only where there is one.
    fn add_within(&mut self, change: Option<Change>) {
        match change {
            Some(change) => self.add(change),
            None => self.steps += 1,
        }
    }
}

/// A linear congruential generator.
struct Draws {
    state: u64,
}

impl Draws {
    fn below(&mut self, bound: usize) -> usize {
        self.state = self.state.wrapping_mul(6_364_136_223_846_793_005).wrapping_add(1_442_695_040_888_963_407);
        ((self.state >> 33) as u32 % bound as u32) as usize
    }
}

fn moves_in_order(tables: &Tables) -> Tally {
    let mut tally = Tally::default();
    for _ in 0..ROUNDS.0 {
        for entry in 0..tables.entries.len() {
            for room in 0..tables.capacities.len() {
                for day in 0..tables.days {
                    for period in 0..tables.periods {
                        tally.add(tables.move_change(entry, room, day, period));
                    }
                }
            }
        }
    }
    tally
}

fn swaps_in_order(tables: &Tables) -> Tally {
    let mut tally = Tally::default();
    for _ in 0..ROUNDS.1 {
        for first in 0..tables.entries.len() {
            for second in first + 1..tables.entries.len() {
                tally.add(tables.swap_change(first, second));
            }
        }
    }
    tally
}

fn moves_drawn(tables: &Tables) -> Tally {
    let (mut tally, mut draws) = (Tally::default(), Draws { state: 1 });
    for _ in 0..DRAWS {
        let entry = draws.below(tables.entries.len());
        let room = draws.below(tables.capacities.len());
        let day = draws.below(tables.days);
        let period = draws.below(tables.periods);
        tally.add(tables.move_change(entry, room, day, period));
    }
    tally
}

fn swaps_drawn(tables: &Tables) -> Tally {
    let (mut tally, mut draws) = (Tally::default(), Draws { state: 1 });
    for _ in 0..DRAWS {
        let first = draws.below(tables.entries.len());
        let second = draws.below(tables.entries.len());
        tally.add(tables.swap_change(first, second));
    }
    tally
}

fn moves_within(tables: &Tables) -> Tally {
    let (mut tally, mut draws) = (Tally::default(), Draws { state: 1 });
    for _ in 0..DRAWS {
        let entry = draws.below(tables.entries.len());
        let room = draws.below(tables.capacities.len());
        let day = draws.below(tables.days);
        let period = draws.below(tables.periods);
        tally.add_within(tables.move_within(entry, room, day, period));
    }
    tally
}

fn swaps_within(tables: &Tables) -> Tally {
    let (mut tally, mut draws) = (Tally::default(), Draws { state: 1 });
    for _ in 0..DRAWS {
        let first = draws.below(tables.entries.len());
        let second = draws.below(tables.entries.len());
        tally.add_within(tables.swap_within(first, second));
    }
    tally
}

fn measure(name: &str, way: fn(&Tables) -> Tally, tables: &Tables) {
    let start = Instant::now();
    let tally = way(tables);
    let taken = start.elapsed();
    println!("{name} {} {} {} {}", tally.steps, tally.hard, tally.cost, taken.as_nanos());
}

fn main() {
    let paths: Vec<String> = env::args().skip(1).collect();
    let text = fs::read_to_string(&paths[0]).expect("an instance");
    let solution = fs::read_to_string(&paths[1]).expect("a solution");
    let tables = read(&text, &solution);
    measure("moves-in-order", moves_in_order, &tables);
    measure("swaps-in-order", swaps_in_order, &tables);
    measure("moves-drawn", moves_drawn, &tables);
    measure("swaps-drawn", swaps_drawn, &tables);
    measure("moves-drawn-within", moves_within, &tables);
    measure("swaps-drawn-within", swaps_within, &tables);
}
