//! The eight counts in plain Rust, with no proofs: what `tt validate` is measured against.
//!
//! Usage: plain INSTANCE SOLUTION. The files are taken as they are: faults panic.

use std::collections::{HashMap, HashSet};
use std::{env, fs};

struct Course<'a> {
    teacher: &'a str,
    lectures: usize,
    min_days: usize,
    students: u64,
}

struct Entry {
    course: usize,
    room: usize,
    day: usize,
    period: usize,
}

struct Instance<'a> {
    periods: usize,
    days: usize,
    courses: Vec<Course<'a>>,
    names: HashMap<&'a str, usize>,
    capacities: Vec<u64>,
    rooms: HashMap<&'a str, usize>,
    curricula: Vec<Vec<usize>>,
    unavailable: HashSet<(usize, usize, usize)>,
}

fn number(token: Option<&str>) -> usize {
    token.expect("a number").parse().expect("digits")
}

fn read(text: &str) -> Instance<'_> {
    let mut tokens = text.split_ascii_whitespace().skip_while(|t| *t != "Courses:").peekable();
    let mut counts = [0; 6];
    for count in &mut counts {
        tokens.next();
        *count = number(tokens.next());
    }
    let [courses, rooms, days, periods, curricula, bars] = counts;
    let mut instance = Instance {
        periods,
        days,
        courses: Vec::new(),
        names: HashMap::new(),
        capacities: Vec::new(),
        rooms: HashMap::new(),
        curricula: Vec::new(),
        unavailable: HashSet::new(),
    };
    tokens.next();
    for i in 0..courses {
        instance.names.insert(tokens.next().expect("a course"), i);
        instance.courses.push(Course {
            teacher: tokens.next().expect("a teacher"),
            lectures: number(tokens.next()),
            min_days: number(tokens.next()),
            students: number(tokens.next()) as u64,
        });
    }
    tokens.next();
    for i in 0..rooms {
        instance.rooms.insert(tokens.next().expect("a room"), i);
        instance.capacities.push(number(tokens.next()) as u64);
    }
    tokens.next();
    for _ in 0..curricula {
        tokens.next();
        let members = number(tokens.next());
        let courses = (0..members).map(|_| instance.names[tokens.next().expect("a member")]);
        instance.curricula.push(courses.collect());
    }
    tokens.next();
    for _ in 0..bars {
        let course = instance.names[tokens.next().expect("a course")];
        instance.unavailable.insert((course, number(tokens.next()), number(tokens.next())));
    }
    instance
}

fn entries(instance: &Instance, text: &str) -> Vec<Entry> {
    let tokens: Vec<&str> = text.split_ascii_whitespace().collect();
    let groups = tokens.chunks(4).map(|t| Entry {
        course: instance.names[t[0]],
        room: instance.rooms[t[1]],
        day: t[2].parse().expect("a day"),
        period: t[3].parse().expect("a period"),
    });
    groups.collect()
}

fn conflicts(instance: &Instance) -> Vec<bool> {
    let n = instance.courses.len();
    let mut rows = vec![false; n * n];
    let mut teachers: HashMap<&str, Vec<usize>> = HashMap::new();
    for (i, course) in instance.courses.iter().enumerate() {
        teachers.entry(course.teacher).or_default().push(i);
    }
    for group in teachers.values().chain(&instance.curricula) {
        for a in group {
            for b in group {
                rows[a * n + b] = a != b;
            }
        }
    }
    rows
}

fn main() {
    let paths: Vec<String> = env::args().skip(1).collect();
    let text = fs::read_to_string(&paths[0]).expect("an instance");
    let instance = read(&text);
    let solution = fs::read_to_string(&paths[1]).expect("a solution");
    let table = entries(&instance, &solution);
    let (n, slots) = (instance.courses.len(), instance.days * instance.periods);
    let rows = conflicts(&instance);
    let slot = |e: &Entry| e.day * instance.periods + e.period;

    let mut in_slot: Vec<Vec<usize>> = vec![Vec::new(); slots];
    let mut at: Vec<Vec<u32>> = vec![vec![0; slots]; n];
    let mut rooms: Vec<HashSet<usize>> = vec![HashSet::new(); n];
    let (mut availability, mut capacity, mut taken, mut occupancy) = (0, 0, HashSet::new(), 0);
    for e in &table {
        in_slot[slot(e)].push(e.course);
        at[e.course][slot(e)] += 1;
        rooms[e.course].insert(e.room);
        availability += usize::from(instance.unavailable.contains(&(e.course, e.day, e.period)));
        capacity += instance.courses[e.course].students.saturating_sub(instance.capacities[e.room]);
        occupancy += usize::from(!taken.insert((e.room, slot(e))));
    }
    let (mut lectures, mut days_lacking, mut stability) = (0, 0, 0);
    for (i, course) in instance.courses.iter().enumerate() {
        let placed: usize = at[i].iter().map(|k| *k as usize).sum();
        lectures += placed.abs_diff(course.lectures) + at[i].iter().map(|k| k.saturating_sub(1) as usize).sum::<usize>();
        let days = at[i].chunks(instance.periods).filter(|day| day.iter().any(|k| *k > 0)).count();
        days_lacking += course.min_days.saturating_sub(days);
        stability += rooms[i].len().saturating_sub(1);
    }
    let mut clashes = 0;
    for courses in &in_slot {
        for (k, a) in courses.iter().enumerate() {
            clashes += courses[k + 1..].iter().filter(|b| rows[a * n + **b]).count();
        }
    }
    let mut isolated = 0;
    for members in &instance.curricula {
        let busy: Vec<u32> = (0..slots).map(|s| members.iter().map(|c| at[*c][s]).sum()).collect();
        for day in busy.chunks(instance.periods) {
            for (p, k) in day.iter().enumerate() {
                let beside = (p > 0 && day[p - 1] > 0) || day.get(p + 1).is_some_and(|k| *k > 0);
                isolated += if beside { 0 } else { *k as usize };
            }
        }
    }
    println!("lectures {lectures}\nconflicts {clashes}\navailability {availability}\nroom_occupancy {occupancy}");
    println!("room_capacity {capacity}\nmin_working_days {}\ncompactness {}\nroom_stability {stability}", days_lacking * 5, isolated * 2);
    let hard = lectures + clashes + availability + occupancy;
    println!("hard {hard}\ncost {}", capacity as usize + days_lacking * 5 + isolated * 2 + stability);
}
