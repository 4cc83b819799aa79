//! Checks a proof of a lower bound with leaves `B`, as plain Rust over words of live rooms: what bench/facts.py runs beside `tt bound`.
//! At most 64 rooms; the faults of a proof are panics. With `claims` in the place of a proof it finds the best claims of a drawn path,
//! many times over: what bench/claims.py runs beside `best_claims`.

use std::env;
use std::fs;
use std::hint::black_box;
use std::time::Instant;

const NONE: u32 = u32::MAX;

struct Instance {
    days: usize,
    periods: usize,
    lectures: Vec<u64>,
    min_days: Vec<u64>,
    students: Vec<u64>,
    /// Seats by falling number; a room's bit is its place here.
    seats: Vec<u64>,
    bit_of: Vec<u32>,
    conflicts: Vec<Vec<usize>>,
    conflict: Vec<bool>,
    members: Vec<Vec<usize>>,
    curricula: Vec<Vec<usize>>,
    bars: Vec<(usize, usize)>,
}

fn number(text: &str) -> usize {
    text.parse().unwrap()
}

impl Instance {
    fn read(text: &str) -> Instance {
        let words: Vec<&str> = text.split_whitespace().collect();
        let after = |name: &str| words.iter().position(|it| *it == name).unwrap() + 1;
        let field = |name: &str| number(words[after(name)]);
        let (days, periods) = (field("Days:"), field("Periods_per_day:"));
        let (courses, rooms) = (field("Courses:"), field("Rooms:"));
        let rows: Vec<&[&str]> = words[after("COURSES:")..].chunks(5).take(courses).collect();
        let place = |id: &str| rows.iter().position(|row| row[0] == id).unwrap();
        let mut conflict = vec![false; courses * courses];
        for (i, a) in rows.iter().enumerate() {
            for (j, b) in rows.iter().enumerate() {
                conflict[i * courses + j] = i != j && a[1] == b[1];
            }
        }
        let capacities: Vec<u64> = words[after("ROOMS:")..].chunks(2).take(rooms).map(|row| number(row[1]) as u64).collect();
        let mut order: Vec<usize> = (0..rooms).collect();
        order.sort_by_key(|room| std::cmp::Reverse(capacities[*room]));
        let mut bit_of = vec![0; rooms];
        for (bit, room) in order.iter().enumerate() {
            bit_of[*room] = bit as u32;
        }
        let (mut members, mut curricula) = (Vec::new(), vec![Vec::new(); courses]);
        let mut at = after("CURRICULA:");
        for q in 0..field("Curricula:") {
            let size = number(words[at + 1]);
            let all: Vec<usize> = words[at + 2..at + 2 + size].iter().map(|id| place(id)).collect();
            at += 2 + size;
            for &a in &all {
                curricula[a].push(q);
                for &b in &all {
                    conflict[a * courses + b] |= a != b;
                }
            }
            members.push(all);
        }
        let bars = words[after("UNAVAILABILITY_CONSTRAINTS:")..].chunks(3).take(field("Constraints:"));
        Instance {
            days,
            periods,
            lectures: rows.iter().map(|row| number(row[2]) as u64).collect(),
            min_days: rows.iter().map(|row| number(row[3]) as u64).collect(),
            students: rows.iter().map(|row| number(row[4]) as u64).collect(),
            seats: order.iter().map(|room| capacities[*room]).collect(),
            bit_of,
            conflicts: (0..courses).map(|i| (0..courses).filter(|j| conflict[i * courses + j]).collect()).collect(),
            conflict,
            members,
            curricula,
            bars: bars.map(|row| (place(row[0]), number(row[1]) * periods + number(row[2]))).collect(),
        }
    }

    fn courses(&self) -> usize {
        self.lectures.len()
    }

    fn slots(&self) -> usize {
        self.days * self.periods
    }
}

#[derive(Clone, Copy, PartialEq)]
enum Who {
    Course(usize),
    Curriculum(usize),
}

#[derive(Clone, Copy)]
struct Pattern {
    who: Who,
    room: u32,
    day: u32,
    period: u32,
}

/// Words that are written back: free and live rooms by course and slot, pinned periods by row and day, pinned rooms, and a flag.
struct Path<'a> {
    instance: &'a Instance,
    words: Vec<u64>,
    trail: Vec<(u32, u64)>,
    facts: Vec<(Pattern, bool, u32)>,
    /// The yes-facts by course and slot; those of curricula in the last row, and in each row those that give no slot in the last place.
    shelves: Vec<Vec<Pattern>>,
    live: usize,
    pinned: usize,
    rooms: usize,
}

impl<'a> Path<'a> {
    fn new(instance: &'a Instance) -> Path<'a> {
        let table = instance.courses() * instance.slots();
        let all = if instance.seats.len() == 64 { u64::MAX } else { (1 << instance.seats.len()) - 1 };
        let mut words = vec![all; 2 * table];
        for (course, slot) in &instance.bars {
            words[course * instance.slots() + slot] = 0;
            words[table + course * instance.slots() + slot] = 0;
        }
        let pinned = words.len();
        let rooms = pinned + (instance.courses() + instance.members.len()) * instance.days;
        words.resize(rooms + instance.courses() + 1, 0);
        Path {
            instance,
            words,
            trail: Vec::new(),
            facts: Vec::new(),
            shelves: vec![Vec::new(); (instance.courses() + 1) * (instance.slots() + 1)],
            live: table,
            pinned,
            rooms,
        }
    }

    fn set(&mut self, place: usize, word: u64) {
        let old = self.words[place];
        if old != word {
            self.trail.push((place as u32, old));
            self.words[place] = word;
        }
    }

    fn mask(&self, room: u32) -> u64 {
        if room == NONE { u64::MAX } else { 1 << self.instance.bit_of[room as usize] }
    }

    fn is_in_force(&self) -> bool {
        self.words[self.words.len() - 1] == 0
    }

    fn slots_of(&self, pattern: &Pattern) -> impl Iterator<Item = usize> {
        let (days, periods) = (self.instance.days, self.instance.periods);
        let bounds = |given: u32, count: usize| if given == NONE { 0..count } else { given as usize..given as usize + 1 };
        let hours = bounds(pattern.period, periods);
        bounds(pattern.day, days).flat_map(move |day| hours.clone().map(move |period| day * periods + period))
    }

    /// Takes from the live cells what a yes-fact excludes.
    fn settle(&mut self, pattern: Pattern) {
        let slots = self.instance.slots();
        let mask = self.mask(pattern.room);
        let members: &[usize] = match &pattern.who {
            Who::Course(course) => std::slice::from_ref(course),
            Who::Curriculum(q) => &self.instance.members[*q],
        };
        let mut only = None;
        for slot in self.slots_of(&pattern) {
            if members.iter().any(|course| self.words[course * slots + slot] & mask != 0) {
                if only.is_some() {
                    return;
                }
                only = Some(slot);
            }
        }
        let Some(slot) = only else {
            self.set(self.words.len() - 1, 1);
            return;
        };
        if let [course] = members {
            let left = self.words[course * slots + slot] & mask;
            let instance = self.instance;
            for other in &instance.conflicts[*course] {
                self.set(self.live + other * slots + slot, 0);
            }
            let own = self.live + course * slots + slot;
            self.set(own, self.words[own] & left);
            if left.is_power_of_two() {
                for other in (0..instance.courses()).filter(|other| other != course) {
                    let place = self.live + other * slots + slot;
                    self.set(place, self.words[place] & !left);
                }
            }
            return;
        }
        let courses = self.instance.courses();
        for other in 0..courses {
            let place = self.live + other * slots + slot;
            let mut lost = u64::MAX;
            if members.contains(&other) {
                lost = !(self.words[other * slots + slot] & mask);
            } else {
                for course in members {
                    let left = self.words[course * slots + slot] & mask;
                    if left != 0 && !self.instance.conflict[course * courses + other] {
                        lost &= if left.is_power_of_two() { left } else { 0 };
                    }
                }
            }
            self.set(place, self.words[place] & !lost);
        }
    }

    fn pin(&mut self, pattern: &Pattern) {
        let (days, courses) = (self.instance.days, self.instance.courses());
        let instance = self.instance;
        if pattern.day != NONE && pattern.period != NONE {
            let mut put = |row: usize| {
                let place = self.pinned + row * days + pattern.day as usize;
                self.set(place, self.words[place] | 1 << pattern.period);
            };
            match pattern.who {
                Who::Course(course) => {
                    put(course);
                    instance.curricula[course].iter().for_each(|q| put(courses + q));
                }
                Who::Curriculum(q) => put(courses + q),
            }
        }
        if let (Who::Course(course), true) = (pattern.who, pattern.room != NONE) {
            let place = self.rooms + course;
            self.set(place, self.words[place] | 1 << pattern.room);
        }
    }

    fn may_touch(&self, a: &Pattern, b: &Pattern) -> bool {
        let agree = |x: u32, y: u32| x == NONE || y == NONE || x == y;
        let share = match (a.who, b.who) {
            (Who::Course(x), Who::Course(y)) => x == y,
            (Who::Course(c), Who::Curriculum(q)) | (Who::Curriculum(q), Who::Course(c)) => self.instance.curricula[c].contains(&q),
            _ => true,
        };
        share && agree(a.room, b.room) && agree(a.day, b.day) && agree(a.period, b.period)
    }

    fn push(&mut self, pattern: Pattern, holds: bool) {
        self.facts.push((pattern, holds, self.trail.len() as u32));
        if holds {
            self.settle(pattern);
            self.pin(&pattern);
            let shelf = self.shelf_of(&pattern);
            self.shelves[shelf].push(pattern);
            return;
        }
        let slots = self.instance.slots();
        let mask = !self.mask(pattern.room);
        let who = pattern.who;
        for slot in self.slots_of(&pattern) {
            let members: &[usize] = match &who {
                Who::Course(course) => std::slice::from_ref(course),
                Who::Curriculum(q) => &self.instance.members[*q],
            };
            for course in members {
                for place in [course * slots + slot, self.live + course * slots + slot] {
                    self.set(place, self.words[place] & mask);
                }
            }
        }
        let members: &[usize] = match &who {
            Who::Course(course) => std::slice::from_ref(course),
            Who::Curriculum(q) => &self.instance.members[*q],
        };
        for row in members.iter().copied().chain([self.instance.courses()]) {
            for column in self.slots_of(&pattern).chain([slots]) {
                self.settle_shelf(row * (slots + 1) + column, &pattern);
            }
        }
    }

    /// The shelf of a yes-fact.
    fn shelf_of(&self, pattern: &Pattern) -> usize {
        let slots = self.instance.slots();
        let row = match pattern.who {
            Who::Course(course) => course,
            Who::Curriculum(_) => self.instance.courses(),
        };
        let is_placed = pattern.day != NONE && pattern.period != NONE;
        let column = if is_placed { pattern.day as usize * self.instance.periods + pattern.period as usize } else { slots };
        row * (slots + 1) + column
    }

    /// Looks at the yes-facts on a shelf again, after a no-fact of this pattern.
    fn settle_shelf(&mut self, shelf: usize, pattern: &Pattern) {
        for i in 0..self.shelves[shelf].len() {
            let older = self.shelves[shelf][i];
            if self.may_touch(&older, pattern) {
                self.settle(older);
            }
        }
    }

    fn pop(&mut self) {
        let (pattern, holds, mark) = self.facts.pop().unwrap();
        while self.trail.len() > mark as usize {
            let (place, old) = self.trail.pop().unwrap();
            self.words[place as usize] = old;
        }
        if holds {
            let shelf = self.shelf_of(&pattern);
            self.shelves[shelf].pop();
        }
    }

    fn live_periods(&self, course: usize, day: usize) -> u64 {
        if !self.is_in_force() {
            return 0;
        }
        let first = self.live + course * self.instance.slots() + day * self.instance.periods;
        let mut word = 0;
        for (period, rooms) in self.words[first..first + self.instance.periods].iter().enumerate() {
            word |= u64::from(*rooms != 0) << period;
        }
        word
    }

    fn capacity(&self, course: usize, price: u64) -> u64 {
        let (instance, slots) = (self.instance, self.instance.slots());
        let mut discounts = 0;
        if self.is_in_force() {
            for rooms in &self.words[self.live + course * slots..self.live + (course + 1) * slots] {
                if *rooms != 0 {
                    discounts += price.saturating_sub(instance.students[course].saturating_sub(instance.seats[rooms.trailing_zeros() as usize]));
                }
            }
        }
        (instance.lectures[course] * price).saturating_sub(discounts)
    }

    fn days(&self, course: usize) -> u64 {
        let live = (0..self.instance.days).filter(|day| self.live_periods(course, *day) != 0).count() as u64;
        5 * self.instance.min_days[course].saturating_sub(live.min(self.instance.lectures[course]))
    }

    fn compact(&self, q: usize) -> u64 {
        let mut alone = 0;
        for day in 0..self.instance.days {
            let pinned = self.words[self.pinned + (self.instance.courses() + q) * self.instance.days + day];
            if pinned != 0 {
                let live = self.instance.members[q].iter().fold(0, |word, course| word | self.live_periods(*course, day));
                alone += (pinned & !(live << 1) & !(live >> 1)).count_ones() as u64;
            }
        }
        2 * alone
    }

    fn stable(&self, course: usize) -> u64 {
        u64::from(self.words[self.rooms + course].count_ones()).saturating_sub(1)
    }
}

/// The tokens of the proof.
struct Tokens<'t> {
    bytes: &'t [u8],
}

impl<'t> Tokens<'t> {
    fn next(&mut self) -> &'t [u8] {
        let start = self.bytes.iter().position(|byte| !byte.is_ascii_whitespace()).unwrap();
        let rest = &self.bytes[start..];
        let end = rest.iter().position(|byte| byte.is_ascii_whitespace()).unwrap_or(rest.len());
        self.bytes = &rest[end..];
        &rest[..end]
    }

    fn number(&mut self, letter: u8) -> u32 {
        let token = self.next();
        if token == b"*" {
            return NONE;
        }
        assert_eq!(token[0], letter);
        digits(&token[1..])
    }
}

fn digits(bytes: &[u8]) -> u32 {
    bytes.iter().fold(0, |number, byte| {
        assert!(byte.is_ascii_digit());
        number * 10 + u32::from(byte - b'0')
    })
}

fn pattern(tokens: &mut Tokens) -> Pattern {
    let token = tokens.next();
    let who = digits(&token[1..]) as usize;
    Pattern {
        who: if token[0] == b'c' { Who::Course(who) } else { Who::Curriculum(who) },
        room: tokens.number(b'r'),
        day: tokens.number(b'd'),
        period: tokens.number(b'p'),
    }
}

/// The claims of a leaf come to the bound, and no target is claimed twice.
fn leaf(path: &Path, tokens: &mut Tokens, met: &mut [u32], stamp: u32, bound: u64) {
    let mut total = 0;
    loop {
        let kind = tokens.next();
        if kind == b";" {
            break;
        }
        let number = digits(&tokens.next()[1..]) as usize;
        let (target, value) = match kind {
            b"C" => (4 * number, path.capacity(number, u64::from(digits(tokens.next())))),
            b"D" => (4 * number + 1, path.days(number)),
            b"Q" => (4 * number + 2, path.compact(number)),
            b"R" => (4 * number + 3, path.stable(number)),
            _ => panic!("a claim of another kind"),
        };
        assert!(met[target] != stamp, "claimed twice");
        met[target] = stamp;
        total += value;
    }
    assert!(total >= bound, "too cheap");
}

/// The price of a course's seats: the l-th smallest of the least excesses of its live periods, l being its lectures, or the greatest.
fn price(path: &Path, course: usize, excesses: &mut Vec<u64>) -> u64 {
    let (instance, slots) = (path.instance, path.instance.slots());
    excesses.clear();
    let lectures = instance.lectures[course] as usize;
    let mut seated = 0;
    if path.is_in_force() {
        for rooms in &path.words[path.live + course * slots..path.live + (course + 1) * slots] {
            if *rooms != 0 {
                let excess = instance.students[course].saturating_sub(instance.seats[rooms.trailing_zeros() as usize]);
                seated += usize::from(excess == 0);
                if seated >= lectures {
                    return 0;
                }
                excesses.push(excess);
            }
        }
    }
    excesses.sort_unstable();
    let place = lectures.min(excesses.len());
    if place == 0 { 0 } else { excesses[place - 1] }
}

/// Finds the best claims: how many there are, and the sum of their prices.
fn best_claims(path: &Path, excesses: &mut Vec<u64>, claims: &mut Vec<(u8, usize, u64)>) -> (usize, u64) {
    let instance = path.instance;
    claims.clear();
    for course in 0..instance.courses() {
        let price = price(path, course, excesses);
        if price > 0 && path.capacity(course, price) > 0 {
            claims.push((b'C', course, price));
        }
    }
    claims.extend((0..instance.courses()).filter(|course| path.days(*course) > 0).map(|course| (b'D', course, 0)));
    claims.extend((0..instance.members.len()).filter(|q| path.compact(*q) > 0).map(|q| (b'Q', q, 0)));
    claims.extend((0..instance.courses()).filter(|course| path.stable(*course) > 0).map(|course| (b'R', course, 0)));
    (claims.len(), claims.iter().map(|claim| claim.2).sum())
}

/// Draws sixteen facts, and finds the best claims of their path.
fn find_claims(instance: &Instance) {
    const ROUNDS: u32 = 20_000;
    let mut path = Path::new(instance);
    let mut state: u64 = 1;
    let mut below = |bound: usize| {
        state = state.wrapping_mul(6_364_136_223_846_793_005).wrapping_add(1_442_695_040_888_963_407);
        ((state >> 33) % bound as u64) as usize
    };
    for _ in 0..16 {
        let (course, day, period) = (below(instance.courses()), below(instance.days), below(instance.periods));
        if path.live_periods(course, day) >> period & 1 != 0 {
            path.push(Pattern { who: Who::Course(course), room: NONE, day: day as u32, period: period as u32 }, true);
        }
    }
    let (mut excesses, mut claims, mut found) = (Vec::new(), Vec::new(), (0, 0));
    let start = Instant::now();
    for _ in 0..ROUNDS {
        found = best_claims(black_box(&path), &mut excesses, &mut claims);
    }
    let taken = start.elapsed().as_nanos() / u128::from(ROUNDS);
    println!("{} {} {} {taken}", path.facts.len(), found.0, found.1);
}

fn main() {
    let files: Vec<String> = env::args().skip(1).collect();
    let instance = Instance::read(&fs::read_to_string(&files[0]).unwrap());
    if files[1] == "claims" {
        return find_claims(&instance);
    }
    let proof = fs::read(&files[1]).unwrap();
    let mut tokens = Tokens { bytes: &proof };
    let head: Vec<&[u8]> = (0..4).map(|_| tokens.next()).collect();
    let bound = u64::from(digits(head[3]));
    let mut path = Path::new(&instance);
    let mut met = vec![0; 4 * instance.courses().max(instance.members.len())];
    let mut stamp = 0;
    loop {
        match tokens.next() {
            b"S" => {
                let split = pattern(&mut tokens);
                path.push(split, true);
                continue;
            }
            b"B" => {
                stamp += 1;
                leaf(&path, &mut tokens, &mut met, stamp, bound);
            }
            _ => panic!("a node of another kind"),
        }
        while let Some((split, holds, _)) = path.facts.last().copied() {
            path.pop();
            if holds {
                path.push(split, false);
                break;
            }
        }
        if path.facts.is_empty() {
            break;
        }
    }
    assert_eq!(tokens.next(), b"end");
    println!("bound {bound}");
}
