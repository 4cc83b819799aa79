"""Instances, solutions and proofs whose answers are known."""

MINI = b"""Name: Mini
Courses: 2
Rooms: 1
Days: 1
Periods_per_day: 3
Curricula: 1
Constraints: 0

COURSES:
a t1 1 1 10
b t2 1 1 12

ROOMS:
R 11

CURRICULA:
q 2 a b

UNAVAILABILITY_CONSTRAINTS:

END.
"""

# Mini, where no course has a lecture in the middle period.
GAP = (
    MINI.replace(b"Mini", b"Gap")
    .replace(b"Constraints: 0", b"Constraints: 2")
    .replace(b"CONSTRAINTS:\n", b"CONSTRAINTS:\na 0 1\nb 0 1\n")
)

# Mini with a seat for each student, so that a timetable may cost nothing.
FREE = MINI.replace(b"Mini", b"Free").replace(b"R 11", b"R 12")

# In Gap each of the two lectures is alone on its day: what the curriculum costs, whatever the rooms.
GAP_GROUPS = b"CTTG 1 bound 4\nG 4 q0 / c0 ;\nend\n"
GAP_PRICES = b"CTTG 2 bound 5 scale 10 rooms\nG q0 / c0 / / / c0 +5 -1 x1 ;\nR r0 +7 +0 +7 ;\nend\n"

# Two courses of one teacher, and one period.
SAME = b"""Name: Same
Courses: 2
Rooms: 2
Days: 1
Periods_per_day: 1
Curricula: 0
Constraints: 0

COURSES:
x t 1 1 1
y t 1 1 1

ROOMS:
A 10
B 10

CURRICULA:

UNAVAILABILITY_CONSTRAINTS:

END.
"""

# As many lectures of one course as there may be, and a room without a seat.
CROWDED = b"""Name: Crowded
Courses: 1
Rooms: 1
Days: 1
Periods_per_day: 1
Curricula: 0
Constraints: 0

COURSES:
x t 4096 1 1000000

ROOMS:
A 0

CURRICULA:

UNAVAILABILITY_CONSTRAINTS:

END.
"""

NEXT_TO_EACH_OTHER = b"a R 0 0\nb R 0 1\n"
APART = b"a R 0 0\nb R 0 2\n"

# Gap costs at least 5: whichever periods its courses take.
GAP_PROOF = b"""CTTP 1 bound 5
S c0 * d0 p0
S c1 * d0 p2
B C c1 1 Q q0 ;
K c1 ;
S c0 * d0 p2
S c1 * d0 p0
B C c1 1 Q q0 ;
K c1 ;
K c0 ;
end
"""
GAP_UPGRADED = GAP_PROOF.replace(b"CTTP 1", b"CTTP 2")

MINI_COUNTS = b"""lectures 0
conflicts 0
availability 0
room_occupancy 0
room_capacity 1
min_working_days 0
compactness 4
room_stability 0
hard 0
cost 5
"""

assert len(MINI) == 188 and len(GAP_PROOF) == 124
