"""The files that hold the program longest for their size, of those that were looked for: each with its seconds, and its seconds a MB.

A row is slow if it takes twice what is aimed at: 20 seconds and a second for each MB of the file that is tried, beside what the same
command takes on the same instance with a file of one line.
A run that passes the row's limit is stopped and counts as slow."""

from itertools import cycle

from largest import ROOMS, STOPPED, course
from samples import MINI

AIM_SECONDS, AIM_SECONDS_A_MB, TIMES = 20, 1, 2
MOST_COURSES = 2_048
MB = 1_000_000
EASY = b"CTTP 1 bound 0 B ; end\n"


def instance_of(courses, rooms, days, periods, curricula, teachers=None):
    """An instance whose courses have one lecture and one student each; each curriculum is a list of numbers of courses."""
    lines = ["Name: Slow", f"Courses: {courses}", f"Rooms: {rooms}", f"Days: {days}", f"Periods_per_day: {periods}"]
    lines += [f"Curricula: {len(curricula)}", "Constraints: 0", "COURSES:"]
    lines += [f"{course(it)} t{it if teachers is None else it % teachers} 1 1 1" for it in range(courses)]
    lines += ["ROOMS:", *(f"R{it} 1" for it in range(rooms)), "CURRICULA:"]
    lines += [f"q{number} {len(members)} " + " ".join(course(it) for it in members) for number, members in enumerate(curricula)]
    return "\n".join([*lines, "UNAVAILABILITY_CONSTRAINTS:", "END.\n"]).encode()


def comb(patterns, version=1):
    """A proof that splits by each pattern in turn; the second child of each split is a leaf that claims nothing."""
    return b"CTTP %d bound 0 " % version + b" ".join(b"S " + it for it in patterns) + b" B ;" * (len(patterns) + 1) + b" end\n"


def timed(table, words, size, wanted):
    """What a command takes beside what it takes on an easy file, in words; a slow row is a failure."""
    easy = table.run(words.replace("hard", "easy"))
    most = TIMES * (AIM_SECONDS + AIM_SECONDS_A_MB * size / MB) + easy.seconds
    hard = table.run(words, seconds=most)
    taken = hard.seconds - easy.seconds
    said = f"{size} bytes, {taken:.2f} s, {taken / size * MB:.1f} s a MB, {hard.peak:.0f} MiB"
    assert hard.status != STOPPED, f"slow, stopped: {said}"
    assert hard.status in wanted, f"{hard.told()}"
    return said


def proofs(table, instance, hard):
    """What the checker takes for a proof beside one of a single leaf."""
    table.put(instance=instance, hard=hard, easy=EASY)
    return timed(table, "bound instance hard", len(hard), (0,))


def splits_of_one_pattern(table):
    """As many splits as a branch may have, all by one pattern."""
    return proofs(table, MINI, comb([b"c0 * d0 p0"] * 65_536))


def wide_facts_of_a_large_curriculum(table):
    """A curriculum of all courses, and facts that it meets at all."""
    return proofs(table, instance_of(MOST_COURSES, ROOMS, 64, 8, [range(MOST_COURSES)]), comb([b"q0 * * *"] * 128))


def tree(pattern_of, depth):
    """A tree of splits in which each leaf is below this many, and claims nothing."""
    return b"S %s %s" % (pattern_of(), tree(pattern_of, depth - 1) * 2) if depth else b"B ; "


def small_tree(table, pattern_of):
    """Splits about a curriculum of all courses, each of which is undone soon."""
    instance = instance_of(MOST_COURSES, ROOMS, 64, 8, [range(MOST_COURSES)])
    return proofs(table, instance, b"CTTP 1 bound 0 " + tree(pattern_of, 9) + b"end\n")


def splits_of_a_large_curriculum(table):
    return small_tree(table, lambda: b"q0 * * *")


def splits_of_a_large_curriculum_and_a_period(table):
    periods = cycle(range(8))
    return small_tree(table, lambda: b"q0 * * p%d" % next(periods))


def leaves_without_a_place(table):
    """Five hundred leaves that say that a curriculum of all courses has no place left."""
    instance = instance_of(MOST_COURSES, ROOMS, 64, 8, [range(MOST_COURSES)] * 2)
    return proofs(table, instance, b"CTTP 1 bound 0 S q1 * * * B ; " + b"S q0 * * * E q0 * * * " * 500 + b"B ; end\n")


def claims_of_a_large_curriculum(table):
    """Two hundred leaves that claim the isolated lectures of a curriculum of all courses, below a fact for each day."""
    instance = instance_of(MOST_COURSES, ROOMS, 64, 8, [range(MOST_COURSES)])
    pins = b"".join(b"S q0 * d%d p0 " % day for day in range(64))
    leaves = b"".join(b"S c%d r1 d0 p1 B Q q0 ; " % it for it in range(200))
    return proofs(table, instance, b"CTTP 1 bound 0 " + pins + leaves + b"B Q q0 ; " + b"B ; " * 64 + b"end\n")


def facts_of_a_period(table):
    """A curriculum of all courses, and as many facts about it as about one course in the same period."""
    patterns = [b"q0 * d0 p0"] * 128 + [b"c0 * d0 p0"] * 128
    return proofs(table, instance_of(MOST_COURSES, 1, 1, 1, [range(MOST_COURSES)]), comb(patterns))


def wide_facts(table):
    """Facts about a room, a day or a period of each course of a week of a faculty's size."""
    patterns = [b"c%d %s %s %s" % (it % 80, b"r%d" % (it % 18) if it % 3 == 0 else b"*", b"d%d" % (it % 5) if it % 3 == 1 else b"*",
                                   b"p%d" % (it % 5) if it % 3 == 2 else b"*") for it in range(20_000)]
    return proofs(table, instance_of(80, 18, 5, 5, [range(4 * it, 4 * it + 4) for it in range(20)]), comb(patterns))


def prices_of_all(table):
    """Claims about the seats of all courses with a price for each room."""
    claim = b"P " + b" ".join(b"c%d 0" % it for it in range(MOST_COURSES)) + b" " + b" ".join(b"r%d 0" % it for it in range(512)) + b" / "
    return proofs(table, instance_of(MOST_COURSES, 512, 32, 1, []), b"CTTP 2 bound 0 B " + claim + b"; end\n")


def prices_of_dead_cells(table):
    """Fifty claims about the seats of all courses, on paths on which no cell of them is live."""
    instance = instance_of(MOST_COURSES, 64, 64, 8, [range(MOST_COURSES)])
    claim = b"P " + b" ".join(b"c%d 1" % it for it in range(MOST_COURSES)) + b" " + b" ".join(b"r%d 1" % it for it in range(64)) + b" / "
    return proofs(table, instance, b"CTTP 2 bound 0" + b" S q0 * * *" * 50 + b" B ;" + (b" B " + claim + b";") * 50 + b" end\n")


def clique_of_all(table):
    """A clique of all courses, eleven times."""
    leaf = b" K " + b" ".join(b"c%d" % it for it in range(MOST_COURSES)) + b" ;"
    hard = b"CTTP 1 bound none" + b" S c0 * d0 p0" * 10 + leaf * 11 + b" end\n"
    return proofs(table, instance_of(MOST_COURSES, 1, 1, 8, [], teachers=1), hard)


def groups(table, instance, value, count, targets=None):
    """What the checker takes for groups of one curriculum each, which all pay the same, until the allowed work is used up or all are checked."""
    lines = "".join(f"G {value} {it if targets is None else targets(it)} / ;\n" for it in (range(count) if targets else (f"q{n}" for n in range(count))))
    hard = f"CTTG 1 bound {value * count}\n{lines}end\n".encode()
    table.put(instance=instance, hard=hard, easy=b"CTTG 1 bound 0 end\n")
    return timed(table, "sum instance hard", len(hard), (0, 2))


def unavailable(instance, slots):
    """The same instance, in which courses can't meet in some periods: pairs of a course's number and a day, of days with one period."""
    lines = "".join(f"{course(it)} {day} 0\n" for it, day in slots)
    return instance.replace(b"Constraints: 0", b"Constraints: %d" % len(slots)).replace(b"END.", lines.encode() + b"END.")


def lectures_of(instance, lectures):
    """The same instance, with this many lectures of each course."""
    return instance.replace(b" 1 1 1\n", b" %d 1 1\n" % lectures)


def large_tables(table):
    """Ten courses of three lectures, one period a day: each week has 4^10 states, and all lectures are isolated, so each group pays 60."""
    week = lectures_of(instance_of(10, 1, 64, 1, [range(10)] * 8_192), 3)
    return groups(table, week, 60, 8_192)


def large_tables_of_rare_days(table):
    """The same, where each course can meet on three of the first 30 days only, so that the other days add nothing but the tables' size."""
    week = lectures_of(instance_of(10, 1, 64, 1, [range(10)] * 8_192), 3)
    closed = [(it, day) for it in range(10) for day in range(64) if day >= 30 or day % 10 != it]
    return groups(table, unavailable(week, closed), 60, 8_192)


def many_sets(table):
    """Twelve courses that never conflict, each alone in a curriculum, and eight periods a day: 4,096 sets are tried in each period."""
    week = instance_of(12, 12, 64, 8, [[it % 12] for it in range(8_184)])
    return groups(table, week, 24, 682, lambda it: " ".join(f"q{12 * it + k}" for k in range(12)))


def prices(table, instance, items, claim="periods", scale=1):
    """What the checker takes for a file of groups with prices."""
    header = f"CTTG 2 bound 0 scale {scale} {claim}\n"
    hard = "".join([header, *(f"{it} ;\n" for it in items), "end\n"]).encode()
    table.put(instance=instance, hard=hard, easy=f"{header}end\n".encode())
    return timed(table, "sum instance hard", len(hard), (0, 2))


def large_tables_with_prices(table):
    """The weeks of large_tables, with a price for each course."""
    week = lectures_of(instance_of(10, 1, 64, 1, [range(10)] * 8_192), 3)
    return prices(table, week, (f"G q{it} / / / / c{it % 10} +1 x63" for it in range(8_192)))


def many_sets_with_prices(table):
    """Twelve courses that never conflict, and eight periods a day."""
    week = instance_of(12, 12, 64, 8, [[it % 12] for it in range(8_184)])
    return prices(table, week, (f"G {' '.join(f'q{12 * it + k}' for k in range(12))} / / / / c0 +1" for it in range(682)))


def many_sets_of_uncounted_courses(table):
    """The same of courses whose lectures aren't counted, so that only the last two periods tell two mornings apart."""
    week = instance_of(8, 12, 64, 8, [[it % 8] for it in range(8_192)])
    listed = " ".join(f"c{it}" for it in range(8))
    return prices(table, week, (f"G {' '.join(f'q{8 * it + k}' for k in range(8))} / / / {listed} / c0 -1 x511" for it in range(1_024)))


def rents_of_all_rooms(table):
    """The most cells that an instance may have, each with a rent."""
    instance = instance_of(MOST_COURSES, 512, 8, 8, [])
    return prices(table, instance, (f"R r{it} +{it} x63" for it in range(512)), "rooms", 1_000)


def weeks(table, words, curricula, entries, wanted=(0, 1)):
    """Each curriculum has one course, which has all entries, in one period."""
    instance, entry = instance_of(1, 1, 1, 1, [[0]] * curricula), f"{course(0)} R0 0 0\n".encode()
    table.put(instance=instance, hard=entry * entries, easy=entry)
    return timed(table, words, len(instance) + len(entry) * entries, wanted)


def instances(table, hard):
    """What an instance takes beside a small one."""
    table.put(hard=hard, easy=MINI, solution=b"")
    return timed(table, "validate hard solution", len(hard), (0, 1))


def curricula_of_all_courses(table):
    """A hundred curricula of all courses, each two of which conflict."""
    return instances(table, instance_of(MOST_COURSES, 1, 1, 1, [range(MOST_COURSES)] * 100))


def names_that_begin_alike(table):
    """A thousand names of 8,000 bytes that differ at their ends, and as many members."""
    names = {it: f"{'x' * 8_000}{it}" for it in range(1_000)}
    lines = ["Name: Slow", "Courses: 1000", "Rooms: 1", "Days: 1", "Periods_per_day: 1", "Curricula: 1", "Constraints: 0", "COURSES:"]
    lines += [f"{name} t{it} 1 1 1" for it, name in names.items()] + ["ROOMS:", "R0 1", "CURRICULA:", "q0 1000 " + " ".join(names.values())]
    return instances(table, "\n".join([*lines, "UNAVAILABILITY_CONSTRAINTS:", "END.\n"]).encode())


def validate_of_many_entries(table):
    return weeks(table, "validate instance hard", 8_192, 16_384)


def report_of_many_entries(table):
    return weeks(table, "report instance hard --by curriculum", 8_192, 4_096)


def page_that_is_too_large(table):
    """A page of 313 MB, which is refused once its text passes the limit."""
    return weeks(table, "page instance hard out", 1_024, 1_024, (2,))


ROWS = [
    ("65,536 splits of one pattern", splits_of_one_pattern),
    ("128 facts about all cells of a curriculum of all courses", wide_facts_of_a_large_curriculum),
    ("511 splits about a curriculum of all courses, in a small tree", splits_of_a_large_curriculum),
    ("511 splits about a curriculum of all courses in one period of each day, in a small tree", splits_of_a_large_curriculum_and_a_period),
    ("500 leaves E about a curriculum of all courses", leaves_without_a_place),
    ("200 claims about a curriculum of all courses", claims_of_a_large_curriculum),
    ("facts about one period of a curriculum of all courses", facts_of_a_period),
    ("20,000 facts about rooms, days and periods", wide_facts),
    ("prices of all courses and rooms", prices_of_all),
    ("50 prices of all courses whose cells are dead", prices_of_dead_cells),
    ("a clique of all courses, eleven times", clique_of_all),
    ("groups: 8,192 tables of a million states", large_tables),
    ("groups: 8,192 tables of a million states and days on which nothing meets", large_tables_of_rare_days),
    ("groups: 682 with 4,096 sets of courses each", many_sets),
    ("prices: 8,192 tables of a million states", large_tables_with_prices),
    ("prices: 682 groups with 4,096 sets of courses each", many_sets_with_prices),
    ("prices: 1,024 groups with 256 sets of uncounted courses each", many_sets_of_uncounted_courses),
    ("prices: rents of 512 rooms for 2,048 courses", rents_of_all_rooms),
    ("validate: 100 curricula of all courses", curricula_of_all_courses),
    ("validate: 1,000 names of 8,000 bytes that begin alike, and as many members", names_that_begin_alike),
    ("validate: 8,192 curricula, 16,384 entries in one period", validate_of_many_entries),
    ("report: 8,192 curricula, 4,096 entries in one period", report_of_many_entries),
    ("page: 1,024 curricula, 1,024 entries in one period, too large", page_that_is_too_large),
]
