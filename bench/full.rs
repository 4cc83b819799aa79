//! Simulated annealing in plain Rust with broken hard rules as the cost, with no proofs: what `tt solve` is compared with on full weeks.
//!
//! Usage: full INSTANCE SEED STEPS. Draws a lecture, and a period for it or a lecture to change periods with, and accepts what breaks d more rules
//! with the probability e^(-d/T); T falls by powers from 0.25 to 0.1. Rooms are only counted. Prints the least number of rules that were broken,
//! and ends at none. The file is taken as it is: faults panic.

use std::collections::HashMap;
use std::{env, fs};

const WARMEST: f64 = 0.25;
const COLDEST: f64 = 0.1;

struct Random(u64);

impl Random {
    fn next(&mut self) -> u64 {
        self.0 ^= self.0 << 13;
        self.0 ^= self.0 >> 7;
        self.0 ^= self.0 << 17;
        self.0.wrapping_mul(0x2545_f491_4f6c_dd1d)
    }

    fn below(&mut self, bound: usize) -> usize {
        ((self.next() >> 32) * bound as u64 >> 32) as usize
    }

    fn share(&mut self) -> f64 {
        ((self.next() >> 11) + 1) as f64 / (1u64 << 53) as f64
    }
}

#[derive(Default)]
struct Week {
    slots: usize,
    periods: usize,
    rooms: i32,
    /// The number of lectures of each course.
    lectures: Vec<usize>,
    barred: Vec<Vec<bool>>,
    conflicts: Vec<Vec<bool>>,
}

impl Week {
    fn read(text: &str) -> Week {
        let mut words = text.split_whitespace();
        let head: HashMap<&str, &str> = (0..7).map(|_| (words.next().unwrap(), words.next().unwrap())).collect();
        let number = |name: &str| head[name].parse::<usize>().unwrap();
        let (courses, slots) = (number("Courses:"), number("Days:") * number("Periods_per_day:"));
        let mut week = Week {
            slots,
            periods: number("Periods_per_day:"),
            rooms: number("Rooms:") as i32,
            barred: vec![vec![false; slots]; courses],
            conflicts: vec![vec![false; courses]; courses],
            ..Week::default()
        };
        let mut word = || words.next().unwrap();
        word();
        let (mut numbers, mut taught) = (HashMap::new(), HashMap::<&str, Vec<usize>>::new());
        for course in 0..courses {
            numbers.insert(word(), course);
            taught.entry(word()).or_default().push(course);
            week.lectures.push(word().parse().unwrap());
            (word(), word());
        }
        for _ in 0..2 * number("Rooms:") + 2 {
            word();
        }
        let mut groups: Vec<Vec<usize>> = taught.into_values().collect();
        for _ in 0..number("Curricula:") {
            word();
            let count: usize = word().parse().unwrap();
            groups.push((0..count).map(|_| numbers[word()]).collect());
        }
        word();
        for _ in 0..number("Constraints:") {
            let course = numbers[word()];
            let slot = word().parse::<usize>().unwrap() * week.periods + word().parse::<usize>().unwrap();
            week.barred[course][slot] = true;
        }
        for group in groups {
            for &one in &group {
                group.iter().filter(|&&other| other != one).for_each(|&other| week.conflicts[one][other] = true);
            }
        }
        week
    }
}

struct Plan<'w> {
    week: &'w Week,
    opponents: Vec<Vec<usize>>,
    /// The course and the slot of each lecture.
    lectures: Vec<(usize, usize)>,
    /// The number of lectures in each slot that conflict with each course, its own among them.
    against: Vec<Vec<i32>>,
    sizes: Vec<i32>,
    broken: i32,
}

impl<'w> Plan<'w> {
    fn new(week: &'w Week, random: &mut Random) -> Plan<'w> {
        let courses = week.lectures.len();
        let opponents = week.conflicts.iter().map(|row| (0..courses).filter(|&other| row[other]).collect()).collect();
        let (against, sizes) = (vec![vec![0; week.slots]; courses], vec![0; week.slots]);
        let mut plan = Plan { week, opponents, lectures: vec![], against, sizes, broken: 0 };
        for course in 0..courses {
            let open: Vec<usize> = (0..week.slots).filter(|&slot| !week.barred[course][slot]).collect();
            for _ in 0..week.lectures[course] {
                let slot = open[random.below(open.len())];
                plan.broken += plan.against[course][slot] + i32::from(plan.sizes[slot] >= week.rooms);
                plan.count(course, slot, 1);
                plan.lectures.push((course, slot));
            }
        }
        plan
    }

    fn count(&mut self, course: usize, slot: usize, more: i32) {
        self.against[course][slot] += more;
        for opponent in &self.opponents[course] {
            self.against[*opponent][slot] += more;
        }
        self.sizes[slot] += more;
    }

    fn put(&mut self, lecture: usize, slot: usize) {
        let (course, old) = self.lectures[lecture];
        self.count(course, old, -1);
        self.count(course, slot, 1);
        self.lectures[lecture].1 = slot;
    }

    fn step(&mut self, random: &mut Random, limit: f64) {
        let lecture = random.below(self.lectures.len());
        let (course, slot) = self.lectures[lecture];
        let left = self.against[course][slot] - 1;
        if random.below(2) == 0 {
            let next = random.below(self.week.slots);
            let rooms = i32::from(self.sizes[next] >= self.week.rooms) - i32::from(self.sizes[slot] > self.week.rooms);
            let more = self.against[course][next] - left + rooms;
            if next != slot && !self.week.barred[course][next] && f64::from(more) <= limit {
                self.put(lecture, next);
                self.broken += more;
            }
            return;
        }
        let other = random.below(self.lectures.len());
        let (rival, next) = self.lectures[other];
        if next == slot || rival == course || self.week.barred[course][next] || self.week.barred[rival][slot] {
            return;
        }
        let both = 2 * i32::from(self.week.conflicts[course][rival]);
        let more = self.against[course][next] - left + self.against[rival][slot] - (self.against[rival][next] - 1) - both;
        if f64::from(more) <= limit {
            self.put(lecture, next);
            self.put(other, slot);
            self.broken += more;
        }
    }
}

fn main() {
    let words: Vec<String> = env::args().collect();
    let week = Week::read(&fs::read_to_string(&words[1]).unwrap());
    let mut random = Random(words[2].parse::<u64>().unwrap().wrapping_mul(0x9e37_79b9_7f4a_7c15) | 1);
    let steps: u64 = words[3].parse().unwrap();
    let mut plan = Plan::new(&week, &mut random);
    let mut least = plan.broken;
    for step in 0..steps {
        if least == 0 {
            break;
        }
        let heat = WARMEST * (COLDEST / WARMEST).powf(step as f64 / steps as f64);
        let limit = -heat * random.share().ln();
        plan.step(&mut random, limit);
        least = least.min(plan.broken);
    }
    println!("{least}");
}
