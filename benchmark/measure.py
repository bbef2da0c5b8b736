"""The benchmark's table and picture: the harness with the product and with the peer, side by side.

measure PRODUCT PEER BY_TABLE REPLAY PEERS_REPLAY REPLAY_BY_TABLE PICTURE [RUN..]: three harnesses, three programs that
replay a trace, where the picture of the growth goes, and what runs x86-64 programs here. Called by ./bench. The third
is the peer once more, with a table for its check byte as before K4: that says what K4 costs, and is like with like for
the product, since its compiler makes a table out of the eight steps and the peer's does not.
Instructions come from tools/icount, as the difference of a run with the calls and one without; nanoseconds, on x86-64
alone, from the quickest batch of several runs, product and peer in turn. A replay is a whole program: of it the
instructions are counted, less those of a run on an empty file."""
import collections
import concurrent.futures
import math
import os
import subprocess
import sys

from benchmark import whole_file

ICOUNT = os.path.join(os.path.dirname(os.path.abspath(__file__)), "..", "tools", "icount")
BY_THE_CLOCK = os.uname().machine == "x86_64"
PRODUCT, PEER, BY_TABLE = range(3)  # what is measured, in the order of the columns

# a case: the harness's row with the window, entries and payload of every entry, and how many timers run in
# the rows that say so
Case = collections.namedtuple("Case", "label row window entries payload timers", defaults=(0,))
FRAMES = [Case("frame %s, %s bytes" % (row, format(n, ",")), row, 16, 1, n)
          for row in ("read", "write") for n in (16, 256, 4096)]
ROUND_TRIP = "round trip and reports, 16 bytes, W 16"
SINGLY, AT_ONCE = "64 sends, 16 bytes each", "plan of 64 payloads, 16 bytes each"
CALLS = [
    Case("send, 16 bytes", "send", 128, 1, 16),
    Case(SINGLY, "sends", 64, 1, 16),
    Case(AT_ONCE, "plan", 64, 1, 16),
    Case("hand out Data, 16 bytes", "hand_out", 128, 1, 16),
    Case("report of Data, its timer starts", "report", 128, 1, 16),
    Case("report of an Acknowledge", "report_acknowledge", 128, 1, 16),
    Case("Data in order, 16 bytes", "data", 128, 1, 16),
    Case("Data out of order, 16 bytes", "early_data", 128, 1, 16),
    Case("acknowledgement", "acknowledgement", 128, 1, 16),
    Case("Reset with a fault, and where", "faulty", 128, 1, 16),
    Case(ROUND_TRIP, "round_trip", 16, 1, 16),
    Case("idle tick, 16 entries", "idle_tick", 128, 16, 15),
    Case("busy tick, 16 x 128 timers", "busy_tick", 128, 16, 15),
    Case("tick, all 2,048 timers end", "ending_tick", 128, 16, 15, 2048),
]
HEADER, CHECK_BYTE = 8, 1  # of a frame, in bytes
WHOLE_FILE = "replay, 1,024 records"
WINDOWS = (1, 2, 4, 8, 16, 32, 64, 128)
ENTRIES = (1, 2, 4, 8, 16)
PAYLOADS = (16, 64, 256, 1024, 4096)
TIMERS = (0, 128, 512, 1024, 2048)


def tick_cases(words, row):
    """A tick of 16 entries with W 128, by how many timers run."""
    return [Case("%s, %s timers" % (words, format(n, ",")), row, 128, 16, 15, n) for n in TIMERS]


Growth = collections.namedtuple("Growth", "title cases xs")
ROUND_TRIPS = [
    Growth("window", [Case("round trip and reports, W %d" % w, "round_trip", w, 1, 16) for w in WINDOWS], WINDOWS),
    Growth("entries",
           [Case("round trip and reports, entries %d" % e, "round_trip", 16, e, 16) for e in ENTRIES], ENTRIES),
    Growth("payload bytes",
           [Case("round trip and reports, %s bytes, W 4" % format(n, ","), "round_trip", 4, 1, n) for n in PAYLOADS],
           PAYLOADS),
]
# none is due for long; none is due, but a timer could end at this tick, so that the product looks at every one
TICKS = [
    Growth("timers running", tick_cases("tick, none due", "quiet_tick"), TIMERS),
    Growth("timers running, all looked at", tick_cases("tick through all", "through_tick"), TIMERS),
]


def harness(run, program, case, rounds, mode):
    return [*run, program, case.row, str(rounds), str(mode), *map(str, case[2:])]


def counted(command, given=b""):
    """The instructions of a run, and what it printed."""
    run = subprocess.run([ICOUNT, *command], input=given, capture_output=True, check=True)
    return int(run.stderr.split()[-1]), run.stdout


def instructions(program, case):
    """Instructions a call."""
    def count(mode):
        number, said = counted(harness([], program, case, 8, mode))
        return number, int(said.split()[0])
    with_calls, batch = count(1)
    without, batch = count(0)
    return (with_calls - without) / (8 * batch)


def replay_instructions(programs, trace):
    """Instructions a file: product, peer, and that by a table, which print the same."""
    said = [counted([program], trace) for program in programs]
    assert len({text for _, text in said}) == 1, "the replays do not print the same"
    return [number - counted([program])[0] for program, (number, _) in zip(programs, said)]


def nanoseconds(run, program, case):
    """Nanoseconds a call, the least of many batches."""
    rounds = 100 if case.row == "busy_tick" or case.timers or case.payload > 256 else 1000
    done = subprocess.run(harness(run, program, case, rounds, 2), capture_output=True, text=True, check=True)
    return float(done.stdout.split()[1])


def measure(programs, run, cases):
    """For each case its instructions, of product, peer, and that by a table; where there is a clock, the nanoseconds of
    the first two too."""
    jobs = [(program, case) for case in cases for program in programs]
    with concurrent.futures.ThreadPoolExecutor(os.cpu_count()) as pool:
        counts = list(pool.map(lambda job: instructions(*job), jobs))
    results = {}
    for i, case in enumerate(cases):
        times = [[nanoseconds(run, each, case) for each in programs[:2]] for _ in range(5)] if BY_THE_CLOCK else []
        results[case.label] = counts[3 * i:3 * i + 3], [min(column) for column in zip(*times)]
    return results


def line(label, found):
    """A row of the table."""
    (ours, theirs, by_table), times = found
    text = "%-40s %10.0f %10.0f %6.2f %10.0f %6.2f" % (label, ours, theirs, ours / theirs, by_table, ours / by_table)
    if times:
        text += " %12.1f %10.1f %6.2f" % (times[0], times[1], times[0] / times[1])
    return text


def show(title, labels, results, of_what="a call", timed=BY_THE_CLOCK):
    print("\n" + title)
    names = "product", "peer", "ratio", "by a table", "ratio"
    head = "%-40s %10s %10s %6s %10s %6s" % ("instructions " + of_what, *names)
    print(head + (" %12s %10s %6s" % ("ns: product", "peer", "ratio") if timed else ""))
    for label in labels:
        print(line(label, results[label]))


def show_check_byte(results):
    """What the check byte takes a byte, and by that of a round trip; and what K4 costs there, which did away with the
    table: beside as many bytes by a table, and of the peer, which is here with and without, as measured."""
    short, long = [case for case in FRAMES if case.row == "read"][-2:]
    trip = next(case for case in CALLS if case.label == ROUND_TRIP)
    # Data and its acknowledgement, each written, and read with its check byte
    over = sum(2 * (HEADER + payload) + CHECK_BYTE for payload in (trip.payload, 0))
    a_byte = [(more - less) / (long.payload - short.payload)
              for less, more in zip(results[short.label][0], results[long.label][0])]
    costs = [over * (each - a_byte[BY_TABLE]) for each in a_byte[:BY_TABLE]]
    _, peer, by_table = results[ROUND_TRIP][0]
    print("\nThe check byte, which a round trip of %d bytes works out over %d bytes" % (trip.payload, over))
    print("%-40s %10s %10s %10s" % ("instructions", "product", "peer", "by a table"))
    print("%-40s %10.1f %10.1f %10.1f" % ("a byte", *a_byte))
    print("%-40s %10.0f %10.0f %10.0f" % ("a round trip, by that", *(over * each for each in a_byte)))
    print("%-40s %+10.0f %+10.0f" % ("what K4 costs a round trip, by that", *costs))
    print("%-40s %10s %+10.0f, %.2f times\n" % ("and as measured", "", peer - by_table, peer / by_table))


def show_plan(results):
    """What a plan saves beside as many sends: the end point is found, loaded and saved once."""
    singly, at_once = results[SINGLY][0][:BY_TABLE], results[AT_ONCE][0][:BY_TABLE]
    print("A plan beside as many sends: product %.2f of their instructions, peer %.2f; %d and %d saved"
          % (*(b / a for a, b in zip(singly, at_once)), *(a - b for a, b in zip(singly, at_once))))


# ---- the picture: a panel for each of ROUND_TRIPS, instructions a payload against what grows, both on scales that
# double; and one for a tick

WIDE, HIGH, LEFT, TOP, GAP = 250, 210, 60, 46, 70
COLOURS = "#257", "#b55", "#a72"


def scale(values, low, high):
    """A place between low and high for a value, by its number of doublings; 0 stands one before the least other."""
    least, most = min(filter(None, values)), max(values)
    zero = least / 2
    first = least if all(values) else zero
    span = math.log2(most / first) or 1
    return lambda v: low + (high - low) * math.log2((v or zero) / first) / span


def lines_around(values):
    """25 doubled so often that the first is not above any value and the last not below any."""
    least, most = (math.log2(v / 25) for v in (min(values), max(values)))
    return [25 * 2 ** k for k in range(math.floor(least), math.ceil(most) + 1)]


def curve(points, colour, dashes):
    joined = " ".join("%.1f,%.1f" % point for point in points)
    out = ['<polyline points="%s" fill="none" stroke="%s" stroke-width="2"%s/>' % (joined, colour, dashes)]
    return out + ['<circle cx="%.1f" cy="%.1f" r="3" fill="%s"/>' % (*point, colour) for point in points]


def panel(number, title, xs, curves):
    """A curve is its values, colour and dashes."""
    left = LEFT + number * (WIDE + GAP)
    bottom = TOP + HIGH
    x = scale(xs, left, left + WIDE)
    levels = lines_around([v for values, _, _ in curves for v in values])
    y = scale(levels, bottom, TOP)
    out = ['<text x="%d" y="%d" text-anchor="middle">%s</text>' % (left + WIDE / 2, bottom + 36, title)]
    for v in levels:
        out.append('<path d="M%d %.1fh%d" stroke="#ddd"/><text x="%d" y="%.1f" text-anchor="end">%s</text>'
                   % (left, y(v), WIDE, left - 6, y(v) + 4, format(v, ",")))
    for v in xs:
        out.append('<text x="%.1f" y="%d" text-anchor="middle">%s</text>' % (x(v), bottom + 18, format(v, ",")))
    for values, colour, dashes in curves:
        out += curve([(x(a), y(b)) for a, b in zip(xs, values)], colour, dashes)
    return out


def curves_of(growth, results, which, dashes=""):
    """The curves of some of the programs."""
    return [([results[case.label][0][k] for case in growth.cases], COLOURS[k], dashes) for k in which]


def words_over(number, y, size, words):
    return '<text x="%d" y="%d" font-size="%d">%s</text>' % (LEFT + number * (WIDE + GAP), y, size, words)


def picture(results):
    last = len(ROUND_TRIPS)
    names = ", ".join('<tspan fill="%s">%s</tspan>' % pair
                      for pair in zip(COLOURS, ("product", "peer", "peer with a table for its check byte")))
    wide = LEFT + (last + 1) * WIDE + last * GAP + 20
    out = ['<svg xmlns="http://www.w3.org/2000/svg" width="%d" height="%d" font-family="sans-serif" font-size="12">'
           % (wide, TOP + HIGH + 50),
           '<rect width="100%" height="100%" fill="white"/>',
           words_over(0, 18, 14, "Instructions a payload, from send to confirmed, reports too: " + names),
           words_over(last, 18, 14, "Instructions a tick, no timer due"),
           words_over(last, 34, 12, "dashed: where a stopped one was due")]
    for number, growth in enumerate(ROUND_TRIPS):
        out += panel(number, growth.title, growth.xs, curves_of(growth, results, (BY_TABLE, PEER, PRODUCT)))
    quiet, through = TICKS
    both = PEER, PRODUCT
    curves = curves_of(through, results, both, ' stroke-dasharray="5 4"') + curves_of(quiet, results, both)
    out += panel(last, quiet.title, quiet.xs, curves)
    return "\n".join(out + ["</svg>"]) + "\n"


def labels(cases):
    return [case.label for case in cases]


def main():
    programs, replays, to, run = sys.argv[1:4], sys.argv[4:7], sys.argv[7], sys.argv[8:]
    grown = [case for growth in ROUND_TRIPS + TICKS for case in growth.cases]
    results = measure(programs, run, FRAMES + CALLS + grown)
    results[WHOLE_FILE] = replay_instructions(replays, whole_file.made()), ()
    show("Frames", labels(FRAMES), results)
    show("Calls", labels(CALLS), results)
    show("Replay", [WHOLE_FILE], results, "a file", False)
    for growths, of_what in ((ROUND_TRIPS, "a payload"), (TICKS, "a tick")):
        for growth in growths:
            show("Growth with %s, %s" % (growth.title, of_what), labels(growth.cases), results)
    show_check_byte(results)
    show_plan(results)
    with open(to, "w") as file:
        file.write(picture(results))
    for against, which in (("the peer", PEER), ("the peer by a table", BY_TABLE)):
        above = [sum(counts[PRODUCT] / counts[which] > most for counts, _ in results.values()) for most in (1.0, 1.5)]
        print("%d rows; above 1.0 of %s: %d; above 1.5: %d" % (len(results), against, *above))


main()
