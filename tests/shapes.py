"""Shapes of traces whose cost is counted (costs.py): ordinary ones, and those that are chosen against an
analyser. Each function takes how many events the trace shall have, about, and gives its text in parts. The
same number gives the same text."""

import random

LOCATIONS = 16_384


def under_a_lock(threads, locations=1):
    """Two threads race, and then threads in turn write the variable under one lock."""

    def parts(n):
        yield "A|w(x)|a\nB|w(x)|b\n"
        for k in range(n // 3):
            yield "T{0}|acq(l)|c\nT{0}|w(x)|d{1}\nT{0}|rel(l)|e\n".format(k % threads, k % locations)

    return parts


def read_under_a_lock(n):
    """The same with 256 threads that read."""
    yield "A|w(x)|a\nB|w(x)|b\n"
    for k in range(n // 3):
        yield "T{0}|acq(l)|c\nT{0}|r(x)|d\nT{0}|rel(l)|e\n".format(k % 256)


def one_location_then_many(n):
    """A thread writes a variable at one location, and then another one writes it at many: each asks for the
    earliest access at the first location."""
    yield "A|w(x)|a\n" * (n // 2)
    yield from (f"B|w(x)|b{k}\n" for k in range(n // 2))


def locations_of_one_thread(n):
    """A thread writes at many locations what another one wrote once: no two of these locations ever race."""
    yield "B|w(x)|b\n"
    yield from (f"A|w(x)|l{k % LOCATIONS}\n" for k in range(n))


def locations_under_a_lock(n):
    """Four threads write at many locations under one lock, after a race: nearly no two
    locations ever race."""
    pick = random.Random(1)
    yield "B|w(x)|b\n"
    for _ in range(n // 3):
        yield "T{0}|acq(l)|c\nT{0}|w(x)|l{1}\nT{0}|rel(l)|e\n".format(
            pick.randrange(4), pick.randrange(LOCATIONS))


def a_location_for_each_access(n):
    """Each access is at a location of its own, ordered by a lock but for the first one."""
    yield "B|w(x)|b\n"
    for k in range(n // 3):
        yield f"T{k % 2}|acq(l)|c\nT{k % 2}|w(x)|l{k}\nT{k % 2}|rel(l)|e\n"


def many_against_one(n):
    """A thread writes at a new location each time, and another one three times at one location, in turn."""
    yield from (f"A|w(x)|a{k}\n" + "B|w(x)|b\n" * 3 for k in range(n // 4))


def unordered_locations(n):
    """Two threads write a variable at 100 locations each, without order, and one location never races."""
    pick = random.Random(1)
    yield "B|acq(l)\nB|w(x)|z\nB|rel(l)\nA|acq(l)\nA|rel(l)\n"
    for _ in range(n // 2):
        yield f"A|w(x)|a{pick.randrange(100)}\nB|w(x)|b{pick.randrange(100)}\n"


def turns_at_many(n):
    """Two threads write a variable without order, each at 200 locations of its own in turn."""
    yield from (f"A|w(x)|a{k % 200}\nB|w(x)|b{k % 200}\n" for k in range(n // 2))


def learning(n):
    """The same, where each access comes after its thread has learned something else."""
    pick = random.Random(1)
    for k in range(n // 5):
        yield (f"A|w(x)|a{pick.randrange(100)}\nC|w(y{k % 7})|c\nB|r(y{k % 7})|d\n"
               f"B|w(x)|b{pick.randrange(100)}\nB|r(q)|e\n")


def both_kinds(n):
    """Two threads read and write a variable at one location in turn, as a counter without a lock does."""
    yield from (f"T{k % 2}|r(x)|a\nT{k % 2}|w(x)|a\n" for k in range(n // 2))


def turns_at_a_location(n):
    """200 threads take turns at one location under a lock, while another location never races."""
    yield "A|w(x)|a\nB|w(x)|b\n"
    yield from (f"T{k % 200}|acq(l)\nT{k % 200}|w(x)|c\nT{k % 200}|rel(l)\nT{k % 200}|r(x)|d\n"
                for k in range(n // 4))


def variables_forwards(n):
    """Variables, each of them accessed at 100 locations by a thread and then by another: the
    same places each."""
    yield from (f"A|w(v{k // 100})|a{k % 100}\n" for k in range(n // 2))
    yield from (f"B|w(v{k // 100})|b{k % 100}\n" for k in range(n // 2))


def variables_backwards(n):
    """The same, where the second thread goes through them from the last one on: each place is found anew."""
    yield from (f"A|w(v{k // 100})|a{k % 100}\n" for k in range(n // 2))
    yield from (f"B|w(v{k // 100})|b{k % 100}\n" for k in reversed(range(n // 2)))


def crowd(n):
    """1,000 threads write a variable at one location without order."""
    yield from (f"T{k % 1000}|w(x)|l\n" for k in range(n))


def new_threads(n):
    """Ever new threads write and read a variable at one location without order."""
    yield from (f"T{k}|w(x)|l\nT{k}|r(x)|l\n" for k in range(n // 2))


def chain(n):
    """250 threads read and write a variable in turn, each what the one before wrote."""
    yield from (f"T{k % 250}|r(x)|a\nT{k % 250}|w(x)|b\n" for k in range(n // 2))


def many_readers(n):
    """1,000 threads read a variable at 50 locations, and one access in 997 writes."""
    yield from (f"T{k % 1000}|{'w' if k % 997 == 0 else 'r'}(x)|l{k % 50}\n" for k in range(n))


def few_and_many_races(n):
    """Runs of accesses with many races and runs with none, by turns: one thread writes without order, and
    another one after all of these writes."""
    yield "A|w(x)|a\n" * 1024 + "A|acq(l)\nA|rel(l)\nC|acq(l)\nC|rel(l)\n"
    for _ in range(n // 132):
        yield "B|w(x)|b\n" * 64 + "B|acq(m)\nB|rel(m)\nC|acq(m)\nC|rel(m)\n" + "C|w(x)|c\n" * 64


def many_hot_variables(n):
    """Two threads write each of 40 variables without order: each variable has nearly as many races as are
    kept at once."""
    for x in range(40):
        yield f"A|w(x{x})|a\n" * (n // 80)
        yield f"B|w(x{x})|b\n" * (n // 80)


def late_races(n):
    """200 threads take turns under a lock, and then two of them race on 20 variables: schedules are as long
    as the trace, and how far each thread had come is noted now and then."""
    for k in range(n // 3):
        yield "T{0}|acq(l)\nT{0}|w(x)\nT{0}|rel(l)\n".format(k % 200)
    yield from (f"T1|w(v{k})\nT2|w(v{k})\n" for k in range(20))


def late_crowd(n):
    """Two threads alone by turns, and then 40 threads that race, each at a location of its own: a schedule
    has two events, and passes all of the first two threads."""
    yield "C|w(c)|c\nD|w(d)|d\n" * (n // 2)
    yield from (f"T{k}|w(p{k})|p\n" for k in range(40))
    yield from (f"T{k}|w(x)|x{k}\n" for k in range(40))


def early_crowd(n):
    """The same, but what a schedule has comes before the two threads alone."""
    yield from (f"T{k}|w(p{k})|p\n" for k in range(40))
    yield "C|w(c)|c\nD|w(d)|d\n" * (n // 2)
    yield from (f"T{k}|w(x)|x{k}\n" for k in range(40))


def hot_beside_alone(n):
    """A thread alone uses a location for each access, and then 16 threads write a variable at one location
    without order: only locations of what races may count."""
    yield from (f"C|w(c)|u{k}\n" for k in range(n // 2))
    yield from (f"T{k % 16}|w(x)|x\n" for k in range(n // 2))


def crowd_at_locations(n):
    """200 threads write a variable at 200 locations without order."""
    yield from (f"T{k % 200}|w(x)|l{(k * 7919 + k // 200) % 200}\n" for k in range(n))


def far_numbers(n):
    """A thread writes a variable at many locations, another one writes it once, and the first one goes on at
    others: the many locations are paired with one number, which is a large one for half of them."""
    yield from (f"A|w(x)|a{k}\n" for k in range(n // 2))
    yield "B|w(x)|b\n"
    yield from (f"A|w(x)|c{k}\n" for k in range(n // 2))


def far_writes(n):
    """A thread reads a variable at many locations and writes it at each 1,300th, twice; two others then read
    it at a location whose places with these are known. The writes' locations, which each such read asks for,
    have numbers that are far apart."""
    locations = n * 5 // 6
    yield from (f"{thread}|r(x)|r\n" for thread in "BCDEFGHI")
    yield from (f"A|r(x)|a{k}\n" + f"A|w(x)|a{k}\n" * (k % 1300 == 1299) for k in range(locations))
    yield "B|r(x)|r\nC|r(x)|r\n"
    yield from (f"A|w(x)|a{k}\n" for k in range(1299, locations, 1300))
    yield from (f"{'BC'[k % 2]}|r(x)|r\n" for k in range(n // 6))


def opened_late(n):
    """Variables that two threads read at 12 locations by turns, and that a third one writes then: the reads
    that waited come to the groups of their variable at once."""
    for v in range(n // 13):
        yield "".join(f"{'AB'[k % 2]}|r(v{v})|a{k}\n" for k in range(12)) + f"C|w(v{v})|b\n"


def memory_in_order(n):
    """4 threads in turn go on through memory of their own, 50 accesses each; names are as a
    recorder gives them."""
    for k in range(n):
        thread, number = k // 50 % 4, (k // 200 * 50 + k % 50) % 2000
        variable = f"src/codec/block_compressor.cc:{1000 + thread}#{number // 512}+{number % 512 * 8}"
        yield (f"worker-{thread}.run|{'w' if k % 3 == 0 else 'r'}({variable})|"
               f"codec/block_compressor.cc:{100 + k % 40}\n")


def forked_and_joined(n):
    """A thread forks others, and joins each before it forks the next one: the rows of all that
    were joined stay."""
    yield from (f"main|fork(T{k})|f\nT{k}|w(x)|a\nmain|join(T{k})|j\n" for k in range(n // 3))


def variables_under_a_lock(n):
    """200 threads in turn write 30 of 20,010 variables each under a lock: in the end each thread has
    written each variable."""
    for k in range(n // 32):
        yield f"T{k % 200}|acq(l)|a\n" + "".join(f"T{k % 200}|w(v{(30 * k + i) % 20010})|b\n"
                                                 for i in range(30)) + f"T{k % 200}|rel(l)|c\n"


def variables_of_many_threads(n):
    """1,000 threads in turn write a new variable each under a lock: of each variable what its
    writer knew stays."""
    yield from ("T{0}|acq(l)|a\nT{0}|w(v{1})|b\nT{0}|rel(l)|c\n".format(k % 1000, k) for k in range(n // 3))


def handed_on(n):
    """A lock goes from thread to thread: each knows all threads before it."""
    yield from (f"T{k}|acq(l)|a\nT{k}|rel(l)|r\n" for k in range(n // 2))


def two_orders(n):
    """1,000 threads write a variable, and in the other order another one; then each of them in
    turn writes both."""
    yield from (f"T{t}|w(x)|l\n" for t in range(1000))
    yield from (f"T{t}|w(y)|l\n" for t in reversed(range(1000)))
    yield from (f"T{k % 1000}|w(x)|l\nT{k % 1000}|w(y)|l\n" for k in range(n // 2))


def other_locations(n):
    """A variable that races once has many locations, and two threads write another one at one location:
    locations are numbered by variable."""
    yield from (f"A|w(y)|y{k}\n" for k in range(n // 2))
    yield "B|w(y)|b\n"
    yield from (f"T{k % 2}|w(x)|x\n" for k in range(n // 2))


def other_threads(n):
    """1,000 threads write variables of their own, and two others write one without order: threads are
    numbered by variable."""
    yield from (f"T{t}|w(p{t})|p\n" for t in range(1000))
    yield from (f"{'AB'[k % 2]}|w(x)|x\n" for k in range(n))


def late_threads(n):
    """Two threads write a variable without order, and 60 others write it once at the end: what comes later
    costs no step before."""
    yield from (f"{'AB'[k % 2]}|w(x)|x\n" for k in range(n))
    yield from (f"T{t}|w(x)|x\n" for t in range(60))


def races_after_joined(n):
    """A thread forks 500 others and joins each, and then races with another one, once on each variable: a
    schedule asks what it knew there, and it has learned nothing since."""
    for k in range(500):
        yield f"M|fork(T{k})|f\nT{k}|w(y)|t\nM|join(T{k})|j\n"
    yield from (f"M|w(x{k})|m\nB|w(x{k})|b\n" for k in range(n // 2))


def long_sections(n):
    """4 threads in turn write a variable under a lock, 20 times a section, at 100 locations."""
    for k in range(n // 22):
        thread = f"T{k % 4}"
        yield f"{thread}|acq(l)|a\n" + "".join(f"{thread}|w(x)|w{(20 * k + i) % 100}\n" for i in range(20))
        yield f"{thread}|rel(l)|r\n"


def crowds_beside_a_hot_pair(n):
    """Two threads write a variable without order, and 1,000 others write some more, each after a race, under
    a lock at 4,000 locations: no counts of these fit into what their accesses pay for."""
    yield from (f"{thread}|w(hot)|{thread}\n" for _ in range(3000) for thread in "AB")
    for k in range(n // 8000):
        yield f"A|w(v{k})|a\nB|w(v{k})|b\n"
        yield from (f"T{i % 1000}|acq(l)|q\nT{i % 1000}|w(v{k})|c{i % 4000}\nT{i % 1000}|rel(l)|r\n"
                    for i in range(8000))
