//! Simulated annealing in plain Rust, with no proofs: what `tt improve` is compared with.
//!
//! Usage: anneal INSTANCE SOLUTION SEED SECONDS. Begins with a solution that breaks no hard rule, draws a lecture, a room and a period,
//! changes places with whoever is there, and accepts what costs d more with the probability 2^(-d/T); T falls by powers from 4 to 0.1 points.
//! Prints the least cost on the way. The files are taken as they are: faults panic.

use std::collections::HashMap;
use std::time::Instant;
use std::{env, fs};

const WARMEST: f64 = 4.0;
const COLDEST: f64 = 0.1;
const NOBODY: usize = usize::MAX;

struct Course {
    teacher: usize,
    min_days: usize,
    students: i64,
    curricula: Vec<usize>,
}

struct Week {
    periods: usize,
    days: usize,
    courses: Vec<Course>,
    capacities: Vec<i64>,
    members: Vec<Vec<usize>>,
    barred: Vec<Vec<bool>>,
    conflicts: Vec<Vec<bool>>,
}

struct Plan<'w> {
    week: &'w Week,
    /// The course, room and slot of each lecture.
    lectures: Vec<(usize, usize, usize)>,
    of_course: Vec<Vec<usize>>,
    /// The lecture in each slot and room.
    cells: Vec<Vec<usize>>,
    /// The lecture of each course in each slot.
    held: Vec<Vec<usize>>,
}

struct Random(u64);

impl Random {
    fn next(&mut self) -> u64 {
        self.0 ^= self.0 << 13;
        self.0 ^= self.0 >> 7;
        self.0 ^= self.0 << 17;
        self.0.wrapping_mul(0x2545_f491_4f6c_dd1d)
    }

    fn below(&mut self, bound: usize) -> usize {
        ((self.next() >> 32) * bound as u64 >> 32) as usize
    }

    fn share(&mut self) -> f64 {
        ((self.next() >> 11) + 1) as f64 / (1u64 << 53) as f64
    }
}

fn number(word: &str) -> usize {
    word.parse().expect("a number")
}

fn read_week(text: &str) -> (Week, HashMap<&str, usize>, HashMap<&str, usize>) {
    let (mut names, mut rooms, mut teachers) = (HashMap::new(), HashMap::new(), HashMap::new());
    let mut week = Week { periods: 0, days: 0, courses: vec![], capacities: vec![], members: vec![], barred: vec![], conflicts: vec![] };
    let mut part = "";
    for line in text.lines() {
        let words: Vec<&str> = line.split_whitespace().collect();
        match (words.first().copied().unwrap_or(""), part) {
            ("", _) => {}
            ("Days:", _) => week.days = number(words[1]),
            ("Periods_per_day:", _) => week.periods = number(words[1]),
            (word, _) if words.len() == 1 => part = word,
            (name, "COURSES:") => {
                names.insert(name, week.courses.len());
                let count = teachers.len();
                let teacher = *teachers.entry(words[1]).or_insert(count);
                let (min_days, students) = (number(words[3]), number(words[4]) as i64);
                week.courses.push(Course { teacher, min_days, students, curricula: vec![] });
                week.barred.push(vec![false; week.days * week.periods]);
            }
            (name, "ROOMS:") => {
                rooms.insert(name, week.capacities.len());
                week.capacities.push(number(words[1]) as i64);
            }
            (_, "CURRICULA:") => {
                let mut members: Vec<usize> = words[2..].iter().map(|name| names[name]).collect();
                members.sort_unstable();
                members.dedup();
                members.iter().for_each(|&course| week.courses[course].curricula.push(week.members.len()));
                week.members.push(members);
            }
            (name, "UNAVAILABILITY_CONSTRAINTS:") => {
                week.barred[names[name]][number(words[1]) * week.periods + number(words[2])] = true;
            }
            _ => {}
        }
    }
    let count = week.courses.len();
    let shares = |a: usize, b: usize| {
        let (a, b) = (&week.courses[a], &week.courses[b]);
        a.teacher == b.teacher || a.curricula.iter().any(|q| b.curricula.contains(q))
    };
    week.conflicts = (0..count).map(|a| (0..count).map(|b| a == b || shares(a, b)).collect()).collect();
    (week, names, rooms)
}

impl<'w> Plan<'w> {
    fn new(week: &'w Week, lectures: Vec<(usize, usize, usize)>) -> Self {
        let slots = week.days * week.periods;
        let mut plan = Plan {
            week,
            of_course: vec![vec![]; week.courses.len()],
            cells: vec![vec![NOBODY; week.capacities.len()]; slots],
            held: vec![vec![NOBODY; slots]; week.courses.len()],
            lectures,
        };
        for (k, &(course, room, slot)) in plan.lectures.iter().enumerate() {
            plan.of_course[course].push(k);
            plan.cells[slot][room] = k;
            plan.held[course][slot] = k;
        }
        plan
    }

    fn course_cost(&self, course: usize) -> i64 {
        let (mut days, mut rooms, mut seats) = (0u64, 0u128, 0);
        for &k in &self.of_course[course] {
            let (_, room, slot) = self.lectures[k];
            days |= 1 << (slot / self.week.periods);
            rooms |= 1 << room;
            seats += (self.week.courses[course].students - self.week.capacities[room]).max(0);
        }
        let missing = (self.week.courses[course].min_days as i64 - i64::from(days.count_ones())).max(0);
        seats + 5 * missing + (i64::from(rooms.count_ones()) - 1).max(0)
    }

    fn is_taught(&self, curriculum: usize, slot: usize) -> bool {
        self.week.members[curriculum].iter().any(|&course| self.held[course][slot] != NOBODY)
    }

    fn isolated(&self, curriculum: usize, day: usize) -> i64 {
        let mut taught = 0u64;
        for period in 0..self.week.periods {
            if self.is_taught(curriculum, day * self.week.periods + period) {
                taught |= 2 << period;
            }
        }
        2 * i64::from((taught & !(taught << 1) & !(taught >> 1)).count_ones())
    }

    fn cost(&self) -> i64 {
        let days = |q: usize| (0..self.week.days).map(move |day| self.isolated(q, day)).sum::<i64>();
        (0..self.week.courses.len()).map(|c| self.course_cost(c)).sum::<i64>() + (0..self.week.members.len()).map(days).sum::<i64>()
    }

    /// The cost of one or two lectures' courses, and of their curricula on the days of two slots.
    fn cost_around(&self, moved: &[usize], slots: [usize; 2]) -> i64 {
        let mut courses: Vec<usize> = moved.iter().map(|&k| self.lectures[k].0).collect();
        courses.dedup();
        let mut curricula: Vec<usize> = courses.iter().flat_map(|&c| self.week.courses[c].curricula.iter().copied()).collect();
        curricula.sort_unstable();
        curricula.dedup();
        let mut days = slots.map(|slot| slot / self.week.periods).to_vec();
        days.dedup();
        let isolated = curricula.iter().map(|&q| days.iter().map(|&day| self.isolated(q, day)).sum::<i64>()).sum::<i64>();
        isolated + courses.iter().map(|&course| self.course_cost(course)).sum::<i64>()
    }

    fn is_free(&self, lecture: usize, slot: usize, other: usize) -> bool {
        let course = self.lectures[lecture].0;
        !self.week.barred[course][slot]
            && self.cells[slot].iter().all(|&k| k == NOBODY || k == lecture || k == other || !self.week.conflicts[course][self.lectures[k].0])
    }

    fn lift(&mut self, lecture: usize) {
        let (course, room, slot) = self.lectures[lecture];
        self.cells[slot][room] = NOBODY;
        self.held[course][slot] = NOBODY;
    }

    fn put(&mut self, lecture: usize, room: usize, slot: usize) {
        let course = self.lectures[lecture].0;
        self.lectures[lecture] = (course, room, slot);
        self.cells[slot][room] = lecture;
        self.held[course][slot] = lecture;
    }

    fn exchange(&mut self, moved: &[usize], places: &[(usize, usize)]) {
        moved.iter().for_each(|&k| self.lift(k));
        moved.iter().zip(places).for_each(|(&k, &(room, slot))| self.put(k, room, slot));
    }

    /// Draws a step, and makes it if it is accepted. Returns the change of the cost.
    fn draw(&mut self, random: &mut Random, temperature: f64) -> i64 {
        let lecture = random.below(self.lectures.len());
        let (_, room, slot) = self.lectures[lecture];
        let (to_room, to_slot) = match random.below(3) {
            0 => (random.below(self.week.capacities.len()), slot),
            1 => (room, random.below(self.cells.len())),
            _ => (random.below(self.week.capacities.len()), random.below(self.cells.len())),
        };
        let other = self.cells[to_slot][to_room];
        if other == lecture || (slot != to_slot && !self.is_free(lecture, to_slot, other)) {
            return 0;
        }
        if other != NOBODY && slot != to_slot && !self.is_free(other, slot, lecture) {
            return 0;
        }
        let (moved, places, back) = ([lecture, other], [(to_room, to_slot), (room, slot)], [(room, slot), (to_room, to_slot)]);
        let count = if other == NOBODY { 1 } else { 2 };
        let before = self.cost_around(&moved[..count], [slot, to_slot]);
        self.exchange(&moved[..count], &places[..count]);
        let change = self.cost_around(&moved[..count], [slot, to_slot]) - before;
        if change > 0 && random.share() >= (-(change as f64) / temperature).exp2() {
            self.exchange(&moved[..count], &back[..count]);
            return 0;
        }
        change
    }
}

fn main() {
    let words: Vec<String> = env::args().collect();
    let (instance, solution) = (fs::read_to_string(&words[1]).unwrap(), fs::read_to_string(&words[2]).unwrap());
    let (week, names, rooms) = read_week(&instance);
    let entries = solution.lines().filter(|line| !line.trim().is_empty()).map(|line| {
        let words: Vec<&str> = line.split_whitespace().collect();
        (names[words[0]], rooms[words[1]], number(words[2]) * week.periods + number(words[3]))
    });
    let mut plan = Plan::new(&week, entries.collect());
    let mut random = Random(number(&words[3]) as u64 * 2 + 1);
    let seconds: f64 = words[4].parse().unwrap();
    let mut cost = plan.cost();
    let (mut best, mut temperature, begin) = (cost, WARMEST, Instant::now());
    for draw in 0u64.. {
        if draw % 1_024 == 0 {
            let gone = begin.elapsed().as_secs_f64() / seconds;
            if gone >= 1.0 {
                println!("cost {best} draws {draw}");
                assert_eq!(cost, plan.cost());
                return;
            }
            temperature = WARMEST * (COLDEST / WARMEST).powf(gone);
        }
        cost += plan.draw(&mut random, temperature);
        best = best.min(cost);
    }
}
