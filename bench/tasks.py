"""Planning tasks that grow: each function makes the bytes of a domain file and of a problem file."""

from measure import lines


def wide_actions(count):
    """Actions of twenty atoms each."""
    predicates = lines(b"(p%d)" % i for i in range(40))
    bodies = lines(
        b"(:action a%d :precondition (and " % i + b" ".join(b"(p%d)" % ((i + k) % 40) for k in range(20)) + b") :effect (p%d))" % (i % 40)
        for i in range(count)
    )
    start = b" ".join(b"(p%d)" % i for i in range(40))
    return (
        b"(define (domain d) (:predicates " + predicates + b")\n" + bodies + b")",
        b"(define (problem p) (:domain d) (:init " + start + b") (:goal (p0)))",
    )


def many_objects(count):
    """Objects of three types, and an action over the smallest of them."""
    named = lines(b"o%d - %s" % (i, b"small" if i < 10 else b"middle" if i % 2 else b"large") for i in range(count))
    return (
        b"(define (domain d) (:types small middle - large large) (:predicates (p ?x - small) (q ?x - large))\n"
        b"(:action go :parameters (?x ?y - small) :precondition (p ?x) :effect (and (not (p ?x)) (p ?y))))",
        b"(define (problem p) (:domain d) (:objects " + named + b") (:init (p o0)) (:goal (p o1)))",
    )


def stated_atoms(count):
    """Static atoms and values over objects, a tenth as many, of which an action asks for one."""
    objects = count // 10
    named = lines(b"o%d" % i for i in range(objects))
    atoms = lines(b"(linked o%d o%d)" % (i % objects, (i + i // objects) % objects) for i in range(count))
    values = lines(b"(= (price o%d) %d)" % (i, i) for i in range(objects))
    return (
        b"(define (domain d) (:constants start) (:predicates (linked ?x ?y) (at ?x)) (:functions (total-cost) (price ?x))\n"
        b"(:action go :parameters (?y) :precondition (and (at start) (linked start ?y))\n"
        b" :effect (and (at ?y) (increase (total-cost) (price ?y)))))",
        b"(define (problem p) (:domain d) (:objects " + named + b") (:init (at start) (linked start o1) " + atoms + values + b") (:goal (at o1)) (:metric minimize (total-cost)))",
    )


def many_parts(count):
    """A precondition of as many parts."""
    return (
        b"(define (domain d) (:predicates (on) (off)) (:action flip :precondition (or " + b" (off)" * count + b") :effect (and (on) (not (off)))))",
        b"(define (problem p) (:domain d) (:init (off)) (:goal (on)))",
    )


def many_parameters(count):
    """An action with many parameters, each of them asked for and over one object, beside as many other objects."""
    names = [b"?x%d" % i for i in range(count)]
    asked = lines(b"(p %s)" % name for name in names)
    return (
        b"(define (domain d) (:types one other) (:predicates (never) (p ?x - one))\n(:action a :parameters (" + lines(names)
        + b" - one) :precondition (and (never) " + asked + b") :effect (p ?x0)))",
        b"(define (problem p) (:domain d) (:objects o - one " + lines(b"o%d" % i for i in range(count)) + b" - other) (:init) (:goal (p o)))",
    )


def untyped_gripper(balls):
    """The same with a static predicate in place of each type, so that every parameter ranges over all objects."""
    numbers = range(1, balls + 1)
    return (
        b"""(define (domain gripper-strips)
(:predicates (room ?r) (ball ?b) (gripper ?g) (at-robby ?r) (at ?b ?r) (free ?g) (carry ?o ?g))
(:action move :parameters (?from ?to) :precondition (and (room ?from) (room ?to) (at-robby ?from))
 :effect (and (at-robby ?to) (not (at-robby ?from))))
(:action pick :parameters (?b ?r ?g) :precondition (and (ball ?b) (room ?r) (gripper ?g) (at ?b ?r) (at-robby ?r) (free ?g))
 :effect (and (carry ?b ?g) (not (at ?b ?r)) (not (free ?g))))
(:action drop :parameters (?b ?r ?g) :precondition (and (ball ?b) (room ?r) (gripper ?g) (carry ?b ?g) (at-robby ?r))
 :effect (and (at ?b ?r) (free ?g) (not (carry ?b ?g)))))""",
        b"(define (problem made) (:domain gripper-strips) (:objects rooma roomb left right " + b" ".join(b"ball%d" % i for i in numbers) + b")\n"
        b"(:init (room rooma) (room roomb) (gripper left) (gripper right) (at-robby rooma) (free left) (free right) "
        + b" ".join(b"(ball ball%d) (at ball%d rooma)" % (i, i) for i in numbers) + b")\n"
        b"(:goal (and " + b" ".join(b"(at ball%d roomb)" % i for i in numbers) + b")))",
    )


def gripper(balls):
    named = b" ".join(b"ball%d" % i for i in range(1, balls + 1))
    return (
        b"""(define (domain gripper) (:requirements :strips :typing) (:types room ball gripper)
(:predicates (at-robby ?r - room) (at ?b - ball ?r - room) (free ?g - gripper) (carry ?b - ball ?g - gripper))
(:action move :parameters (?from ?to - room) :precondition (at-robby ?from) :effect (and (at-robby ?to) (not (at-robby ?from))))
(:action pick :parameters (?b - ball ?r - room ?g - gripper) :precondition (and (at ?b ?r) (at-robby ?r) (free ?g))
 :effect (and (carry ?b ?g) (not (at ?b ?r)) (not (free ?g))))
(:action drop :parameters (?b - ball ?r - room ?g - gripper) :precondition (and (carry ?b ?g) (at-robby ?r))
 :effect (and (at ?b ?r) (free ?g) (not (carry ?b ?g)))))""",
        b"(define (problem made) (:domain gripper) (:objects rooma roomb - room left right - gripper " + named + b" - ball)\n"
        b"(:init (at-robby rooma) (free left) (free right) " + b" ".join(b"(at ball%d rooma)" % i for i in range(1, balls + 1)) + b")\n"
        b"(:goal (and " + b" ".join(b"(at ball%d roomb)" % i for i in range(1, balls + 1)) + b")))",
    )


def blocks(count):
    named = b" ".join(b"b%d" % i for i in range(count))
    return (
        b"""(define (domain blocks) (:predicates (on ?x ?y) (ontable ?x) (clear ?x) (handempty) (holding ?x))
(:action pick-up :parameters (?x) :precondition (and (clear ?x) (ontable ?x) (handempty))
 :effect (and (not (ontable ?x)) (not (clear ?x)) (not (handempty)) (holding ?x)))
(:action put-down :parameters (?x) :precondition (holding ?x) :effect (and (not (holding ?x)) (clear ?x) (handempty) (ontable ?x)))
(:action stack :parameters (?x ?y) :precondition (and (holding ?x) (clear ?y))
 :effect (and (not (holding ?x)) (not (clear ?y)) (clear ?x) (handempty) (on ?x ?y)))
(:action unstack :parameters (?x ?y) :precondition (and (on ?x ?y) (clear ?x) (handempty))
 :effect (and (holding ?x) (clear ?y) (not (clear ?x)) (not (handempty)) (not (on ?x ?y)))))""",
        b"(define (problem p) (:domain blocks) (:objects " + named + b") (:init (handempty) "
        + b" ".join(b"(ontable b%d) (clear b%d)" % (i, i) for i in range(count))
        + b")\n(:goal (and " + b" ".join(b"(on b%d b%d)" % (i, i + 1) for i in range(count - 1)) + b")))",
    )


def transport(packages):
    """Two cities of ten places, a truck in each, and an airplane between their airports, with action costs."""
    places = [b"c%dp%d" % (c, p) for c in range(2) for p in range(10)]
    roads = b" ".join(b"(in %s city%d)" % (place, i // 10) for i, place in enumerate(places))
    lengths = b" ".join(
        b"(road %s %s) (= (length %s %s) %d)" % (a, b, a, b, abs(i - j) + 1)
        for i, a in enumerate(places) for j, b in enumerate(places) if i // 10 == j // 10 and i != j
    )
    named = b" ".join(b"pack%d" % i for i in range(packages))
    return (
        b"""(define (domain transport) (:requirements :typing :action-costs)
(:types truck airplane - vehicle package vehicle - thing airport - place place city)
(:predicates (at ?t - thing ?p - place) (inside ?k - package ?v - vehicle) (in ?p - place ?c - city) (road ?a ?b - place))
(:functions (total-cost) - number (length ?a ?b - place) - number)
(:action load :parameters (?k - package ?v - vehicle ?p - place) :precondition (and (at ?k ?p) (at ?v ?p))
 :effect (and (not (at ?k ?p)) (inside ?k ?v) (increase (total-cost) 1)))
(:action unload :parameters (?k - package ?v - vehicle ?p - place) :precondition (and (inside ?k ?v) (at ?v ?p))
 :effect (and (at ?k ?p) (not (inside ?k ?v)) (increase (total-cost) 1)))
(:action drive :parameters (?v - truck ?a ?b - place ?c - city) :precondition (and (at ?v ?a) (in ?a ?c) (in ?b ?c) (road ?a ?b))
 :effect (and (not (at ?v ?a)) (at ?v ?b) (increase (total-cost) (length ?a ?b))))
(:action fly :parameters (?v - airplane ?a ?b - airport) :precondition (and (at ?v ?a) (not (= ?a ?b)))
 :effect (and (not (at ?v ?a)) (at ?v ?b) (increase (total-cost) 100))))""",
        b"(define (problem p) (:domain transport) (:objects " + named + b" - package truck0 truck1 - truck plane - airplane city0 city1 - city "
        + b" ".join(place for i, place in enumerate(places) if i % 10) + b" - place c0p0 c1p0 - airport)\n(:init (= (total-cost) 0) "
        + roads + b" " + lengths + b" (at truck0 c0p0) (at truck1 c1p0) (at plane c0p0) "
        + b" ".join(b"(at pack%d %s)" % (i, places[i % 20]) for i in range(packages)) + b")\n(:goal (and "
        + b" ".join(b"(at pack%d %s)" % (i, places[(i + 10) % 20]) for i in range(packages)) + b")) (:metric minimize (total-cost)))",
    )


def lift(floors):
    """A lift whose stop serves all who wait or ride there: quantified and conditional effects, and a derived predicate."""
    people = floors // 2
    named = b" ".join(b"f%d" % i for i in range(floors))
    riders = b" ".join(b"r%d" % i for i in range(people))
    return (
        b"""(define (domain lift) (:requirements :adl :derived-predicates) (:types floor person)
(:predicates (origin ?p - person ?f - floor) (destination ?p - person ?f - floor) (above ?a ?b - floor) (boarded ?p - person)
 (served ?p - person) (lift-at ?f - floor) (empty))
(:derived (empty) (forall (?p - person) (not (boarded ?p))))
(:action stop :parameters (?f - floor) :precondition (lift-at ?f)
 :effect (and (forall (?p - person) (when (and (boarded ?p) (destination ?p ?f)) (and (not (boarded ?p)) (served ?p))))
  (forall (?p - person) (when (and (origin ?p ?f) (not (served ?p))) (boarded ?p)))))
(:action up :parameters (?a ?b - floor) :precondition (and (lift-at ?a) (above ?a ?b)) :effect (and (lift-at ?b) (not (lift-at ?a))))
(:action down :parameters (?a ?b - floor) :precondition (and (lift-at ?a) (above ?b ?a)) :effect (and (lift-at ?b) (not (lift-at ?a)))))""",
        b"(define (problem p) (:domain lift) (:objects " + named + b" - floor " + riders + b" - person)\n(:init (lift-at f0) "
        + b" ".join(b"(above f%d f%d)" % (a, b) for a in range(floors) for b in range(a + 1, floors))
        + b" " + b" ".join(b"(origin r%d f%d) (destination r%d f%d)" % (i, i, i, floors - 1 - i) for i in range(people))
        + b")\n(:goal (and (empty) (forall (?p - person) (served ?p)))))",
    )


def satellites(count):
    """Satellites, each with two instruments for three modes, that turn between as many directions as four a satellite."""
    numbers, directions = range(count), range(4 * count)
    modes = (b"infrared", b"image", b"spectrum")
    instruments = [(s, k) for s in numbers for k in range(2)]
    return (
        b"""(define (domain satellite) (:requirements :typing) (:types satellite direction instrument mode)
(:predicates (on-board ?i - instrument ?s - satellite) (supports ?i - instrument ?m - mode) (pointing ?s - satellite ?d - direction)
 (power-avail ?s - satellite) (power-on ?i - instrument) (calibrated ?i - instrument) (have-image ?d - direction ?m - mode)
 (calibration-target ?i - instrument ?d - direction))
(:action turn-to :parameters (?s - satellite ?new ?old - direction) :precondition (and (pointing ?s ?old) (not (= ?new ?old)))
 :effect (and (pointing ?s ?new) (not (pointing ?s ?old))))
(:action switch-on :parameters (?i - instrument ?s - satellite) :precondition (and (on-board ?i ?s) (power-avail ?s))
 :effect (and (power-on ?i) (not (calibrated ?i)) (not (power-avail ?s))))
(:action switch-off :parameters (?i - instrument ?s - satellite) :precondition (and (on-board ?i ?s) (power-on ?i))
 :effect (and (not (power-on ?i)) (power-avail ?s)))
(:action calibrate :parameters (?s - satellite ?i - instrument ?d - direction)
 :precondition (and (on-board ?i ?s) (calibration-target ?i ?d) (pointing ?s ?d) (power-on ?i)) :effect (calibrated ?i))
(:action take-image :parameters (?s - satellite ?d - direction ?i - instrument ?m - mode)
 :precondition (and (calibrated ?i) (on-board ?i ?s) (supports ?i ?m) (power-on ?i) (pointing ?s ?d)) :effect (have-image ?d ?m)))""",
        b"(define (problem p) (:domain satellite) (:objects " + b" ".join(b"s%d" % s for s in numbers) + b" - satellite "
        + b" ".join(b"d%d" % d for d in directions) + b" - direction "
        + b" ".join(b"i%d-%d" % pair for pair in instruments) + b" - instrument " + b" ".join(modes) + b" - mode)\n(:init "
        + b" ".join(b"(power-avail s%d) (pointing s%d d%d)" % (s, s, s) for s in numbers)
        + b" ".join(
            b" (on-board i%d-%d s%d) (supports i%d-%d %s) (calibration-target i%d-%d d%d)"
            % (s, k, s, s, k, modes[(s + k) % 3], s, k, (s + 3 * k) % len(directions))
            for s, k in instruments
        )
        + b")\n(:goal (and " + b" ".join(b"(have-image d%d %s)" % (d, modes[d % 3]) for d in directions[:: 2]) + b")))",
    )


def ring(nodes):
    """A ring, on which one hops over a node."""
    return (
        b"""(define (domain ring) (:predicates (next ?x ?y) (at ?x))
(:action hop :parameters (?x ?y ?z) :precondition (and (at ?x) (next ?x ?y) (next ?y ?z)) :effect (and (not (at ?x)) (at ?z))))""",
        b"(define (problem p) (:domain ring) (:objects " + b" ".join(b"n%d" % i for i in range(nodes)) + b") (:init (at n0) "
        + b" ".join(b"(next n%d n%d)" % (i, (i + 1) % nodes) for i in range(nodes)) + b") (:goal (at n2)))",
    )


def chains(objects):
    """A chain of objects, and an action over five of them that asks for the links between these and takes one away: no link is
    static, so that a matcher of static literals would try each choice of five objects."""
    return (
        b"""(define (domain chains) (:predicates (linked ?x ?y) (joined ?x ?y))
(:action join :parameters (?a ?b ?c ?d ?e) :precondition (and (linked ?a ?b) (linked ?b ?c) (linked ?c ?d) (linked ?d ?e))
 :effect (and (joined ?a ?e) (not (linked ?a ?b)))))""",
        b"(define (problem p) (:domain chains) (:objects " + b" ".join(b"o%d" % i for i in range(objects)) + b") (:init "
        + b" ".join(b"(linked o%d o%d)" % (i, i + 1) for i in range(objects - 1)) + b") (:goal (joined o0 o4)))",
    )


def snake(side):
    """A snake on a square grid: its tail follows where it doesn't eat. Of the choices of a head, a square beside it and two parts
    of the tail only those can be reached in which the squares are neighbours, which the tail's literal doesn't say at the start."""
    name = lambda x, y: b"s%d-%d" % (x, y)
    squares = [(x, y) for x in range(side) for y in range(side)]
    links = lines(
        b"(next %s %s)" % (name(x, y), name(x + dx, y + dy))
        for x, y in squares for dx, dy in ((1, 0), (-1, 0), (0, 1), (0, -1)) if 0 <= x + dx < side and 0 <= y + dy < side
    )
    return (
        b"""(define (domain snake) (:predicates (next ?a ?b) (head ?a) (tail ?a) (follows ?a ?b) (taken ?a) (apple ?a))
(:action slide :parameters (?head ?to ?tail ?rest)
 :precondition (and (head ?head) (next ?head ?to) (tail ?tail) (follows ?rest ?tail) (not (taken ?to)) (not (apple ?to)))
 :effect (and (taken ?to) (head ?to) (follows ?to ?head) (not (head ?head)) (not (taken ?tail)) (not (tail ?tail)) (not (follows ?rest ?tail)) (tail ?rest)))
(:action eat :parameters (?head ?to) :precondition (and (head ?head) (next ?head ?to) (not (taken ?to)) (apple ?to))
 :effect (and (taken ?to) (head ?to) (follows ?to ?head) (not (head ?head)) (not (apple ?to)))))""",
        b"(define (problem p) (:domain snake) (:objects " + b" ".join(name(x, y) for x, y in squares) + b") (:init "
        + links + b" (head s0-1) (tail s0-0) (follows s0-1 s0-0) (taken s0-0) (taken s0-1) (apple s%d-%d)) (:goal (head s0-0)))" % (side - 1, side - 1),
    )


def cards(count):
    """A stack of cards that is turned three at a time, and of which those that can be played are laid onto columns. What lies
    behind what changes, so that no static literal narrows the four cards of a turn."""
    stack = [b"c%d" % i for i in range(count)]
    columns = [b"k%d" % i for i in range(4)]
    return (
        b"""(define (domain cards) (:predicates (behind ?a ?b) (playable ?a) (clear ?a) (fits ?a ?b) (on ?a ?b))
(:action turn :parameters (?a ?b ?c ?d) :precondition (and (playable ?a) (behind ?b ?a) (behind ?c ?b) (behind ?d ?c))
 :effect (and (playable ?d) (not (playable ?a))))
(:action lay :parameters (?a ?to ?b ?c) :precondition (and (playable ?a) (clear ?to) (fits ?a ?to) (behind ?b ?a) (behind ?a ?c))
 :effect (and (on ?a ?to) (clear ?a) (behind ?b ?c) (playable ?c) (not (clear ?to)) (not (playable ?a)) (not (behind ?b ?a)) (not (behind ?a ?c)))))""",
        b"(define (problem p) (:domain cards) (:objects " + b" ".join(stack + columns) + b") (:init (playable c2) "
        + b" ".join(b"(clear %s)" % column for column in columns) + b" "
        + b" ".join(b"(behind %s %s)" % (back, front) for front, back in zip(stack, stack[1:])) + b" "
        + b" ".join(b"(fits %s %s)" % (card, columns[i % 4]) for i, card in enumerate(stack) if i % 3) + b") (:goal (on c5 k1)))",
    )


def held_files(hosts):
    """As many files as hosts, of which one is held, and a step from each host to each other one that hands on all that the first
    holds: an effect for each file, of which only that of the held file can take place."""
    return (
        b"""(define (domain hosts) (:requirements :typing :conditional-effects) (:types host file)
(:predicates (holds ?h - host ?f - file) (open ?h - host) (link ?a ?b - host))
(:action take-over :parameters (?from ?to - host) :precondition (and (open ?from) (link ?from ?to))
 :effect (and (open ?to) (not (open ?from)) (forall (?f - file) (when (holds ?from ?f) (holds ?to ?f))))))""",
        b"(define (problem p) (:domain hosts) (:objects " + b" ".join(b"h%d" % i for i in range(hosts)) + b" - host "
        + b" ".join(b"f%d" % i for i in range(hosts)) + b" - file) (:init (open h0) (holds h0 f0) "
        + b" ".join(b"(link h%d h%d)" % (a, b) for a in range(hosts) for b in range(hosts) if a != b)
        + b") (:goal (holds h%d f0)))" % (hosts - 1),
    )


def walled_grid(squares):
    """Stones are pushed over a square grid, of whose squares every seventh is a wall, to the rim that is opposite."""
    side = round(squares ** 0.5)
    free = [(x, y) for x in range(side) for y in range(side) if (x + 3 * y) % 7 or x in (0, side - 1)]
    places = set(free)
    name = lambda x, y: b"s%d-%d" % (x, y)
    steps = ((b"left", -1, 0), (b"right", 1, 0), (b"up", 0, -1), (b"down", 0, 1))
    links = lines(
        b"(next %s %s %s)" % (name(x, y), name(x + dx, y + dy), way)
        for x, y in free for way, dx, dy in steps if (x + dx, y + dy) in places
    )
    stones = [(1, y) for y in range(1, side - 1) if (1, y) in places][: max(1, side // 4)]
    taken = set(stones) | {(0, 0)}
    return (
        b"""(define (domain walled-grid) (:requirements :typing) (:types square stone way)
(:predicates (next ?a ?b - square ?w - way) (player-at ?a - square) (stone-at ?s - stone ?a - square) (clear ?a - square))
(:action walk :parameters (?a ?b - square ?w - way) :precondition (and (player-at ?a) (clear ?b) (next ?a ?b ?w))
 :effect (and (not (player-at ?a)) (not (clear ?b)) (player-at ?b) (clear ?a)))
(:action push :parameters (?s - stone ?a ?b ?c - square ?w - way)
 :precondition (and (player-at ?a) (stone-at ?s ?b) (clear ?c) (next ?a ?b ?w) (next ?b ?c ?w))
 :effect (and (not (player-at ?a)) (not (stone-at ?s ?b)) (not (clear ?c)) (player-at ?b) (stone-at ?s ?c) (clear ?a))))""",
        b"(define (problem p) (:domain walled-grid) (:objects " + b" ".join(name(x, y) for x, y in free) + b" - square "
        + b" ".join(b"stone%d" % i for i in range(len(stones))) + b" - stone left right up down - way)\n(:init (player-at s0-0) "
        + links + b" " + b" ".join(b"(stone-at stone%d %s)" % (i, name(x, y)) for i, (x, y) in enumerate(stones))
        + b" " + b" ".join(b"(clear %s)" % name(x, y) for x, y in free if (x, y) not in taken) + b")\n(:goal (and "
        + b" ".join(b"(stone-at stone%d %s)" % (i, name(side - 1, y)) for i, (_, y) in enumerate(stones)) + b")))",
    )


def empty_factor(factors):
    """A product of factors with two parts each and of one without parts, at each place where a condition may stand: as a
    precondition, under `when`, as the body of an axiom, inside a disjunction and as the goal."""
    product = b"(and " + b"(or (on) (off)) " * factors + b"(or))"
    return (
        b"(define (domain d) (:predicates (on) (off) (lit))\n(:derived (lit) " + product + b")\n"
        b"(:action a :precondition " + product + b" :effect (on))\n(:action b :effect (and (off) (when " + product + b" (on))))\n"
        b"(:action c :precondition (or (off) " + product + b") :effect (on)))",
        b"(define (problem p) (:domain d) (:init (off)) (:goal (or (on) " + product + b")))",
    )


def steps(count):
    """A path that is written as actions, one from each place to the next, which leave the places true behind them."""
    return _path(count, lambda i: b"(p%d)" % (i + 1))


def moves(count):
    """The same path, where each action leaves its place: a plan that is written as a domain."""
    return _path(count, lambda i: b"(and (p%d) (not (p%d)))" % (i + 1, i))


def _path(count, effect):
    predicates = lines(b"(p%d)" % i for i in range(count + 1))
    bodies = lines(b"(:action a%d :precondition (p%d) :effect " % (i, i) + effect(i) + b")" for i in range(count))
    return (
        b"(define (domain d) (:predicates " + predicates + b")\n" + bodies + b")",
        b"(define (problem p) (:domain d) (:init (p0)) (:goal (p%d)))" % count,
    )


def empty_type(objects):
    """An action and an effect over five parameters with all objects and one of a type that no object has."""
    return (
        b"""(define (domain d) (:types e) (:predicates (p ?x) (q))
(:action act :parameters (?a ?b ?c ?d ?f - object ?e - e) :precondition (and (p ?a) (not (= ?f ?f))) :effect (q))
(:action all :effect (forall (?a ?b ?c ?d ?f - object ?e - e) (p ?a)))
(:action go :parameters (?x) :precondition (p ?x) :effect (q)))""",
        b"(define (problem p) (:domain d) (:objects " + lines(b"o%d" % i for i in range(objects)) + b") (:init (p o0)) (:goal (q)))",
    )


def barred_delete(adds):
    """A delete whose own condition never holds, beside adds of its fact with conditions of two literals each."""
    predicates = lines(b"(a%d) (b%d)" % (i, i) for i in range(adds + 1))
    rivals = lines(b"(when (and (a%d) (b%d)) (f))" % (i, i) for i in range(1, adds + 1))
    set_all = lines(b"(a%d) (b%d)" % (i, i) for i in range(adds + 1))
    clear_all = lines(b"(not (a%d)) (not (b%d))" % (i, i) for i in range(adds + 1))
    return (
        b"(define (domain d) (:predicates (f) " + predicates + b")\n(:action set :effect (and " + set_all + b"))\n"
        b"(:action clear :effect (and " + clear_all + b"))\n"
        b"(:action act :effect (and (when (and (a0) (not (a0))) (not (f)))\n" + rivals + b")))",
        b"(define (problem p) (:domain d) (:init) (:goal (f)))",
    )


def narrow_parameters(count):
    """An action with many parameters, over one object each and each asked for by a literal of its own."""
    return (
        b"(define (domain d) (:types one) (:predicates (p ?x - one) (q))\n(:action a :parameters (" + lines(b"?v%d" % i for i in range(count))
        + b" - one) :precondition (and " + lines(b"(p ?v%d)" % i for i in range(count)) + b") :effect (q)))",
        b"(define (problem p) (:domain d) (:objects o - one) (:init (p o)) (:goal (q)))",
    )


def many_denials(count):
    """An action with many effects on one predicate and as many negative conditions on it."""
    return (
        b"(define (domain d) (:predicates (p ?x) (q ?x))\n(:action a :parameters (?x) :precondition (and "
        + lines(b"(not (p c%d))" % i for i in range(count)) + b") :effect (and " + lines(b"(p c%d)" % i for i in range(count)) + b"))"
        + b"(:action b :parameters (?x) :effect (and (not (p ?x)) (q ?x))))",
        b"(define (problem p) (:domain d) (:objects " + lines(b"c%d" % i for i in range(count)) + b") (:init) (:goal (q c0)))",
    )


# The families of whole planning tasks: the name, how it is made, its sizes for counting instructions, and its full sizes.
PLANNING = (
    ("ring, nodes", ring, (1_000, 2_000, 4_000), (2_000, 20_000, 200_000)),
    ("gripper, balls", gripper, (50, 100, 200), (50, 100, 200, 400, 800)),
    ("untyped gripper, balls", untyped_gripper, (25, 50, 100), (50, 100, 200, 400, 800)),
    ("blocks", blocks, (10, 20, 40), (20, 40, 80, 160)),
    ("transport, packages", transport, (25, 50, 100), (50, 100, 200)),
    ("walls, squares", walled_grid, (100, 400), (100, 400, 1_600)),
    ("lift, floors", lift, (12, 25, 50), (25, 50, 100)),
)
