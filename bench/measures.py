"""What is measured. Each function takes the options of the command and returns plain figures."""
import pathlib
import subprocess

from machine import Servers, environment, on, processors, settled

here = pathlib.Path(__file__).resolve().parent
WORKLOADS = ("read64", "read1024", "write64", "write1024", "add")
RECORDS = 65536
ENDLESS = 4294967295  # datagrams that a node serves; it ends when none come
IDLES = 1000
MEMCACHED_PORT = 21411
STEP_PAGES, STEP_BATCHES = 32768, 1000
ALLOC_ROUNDS = 100
NODES_TURNS = 12
SIZES = ((1024, 1024, 1024), (16384, 16384, 1024), (65536, 16384, 1024), (1024, 65536, 1024), (1024, 1024, 65536), (65536, 65536, 65536))


def node_words(given, pages, buckets, records=RECORDS):
    """The command of a node with a ring of 64 pages, at any port."""
    return [given.node, "node", "0", *map(str, (pages, buckets, 64, records, ENDLESS, IDLES))]


def plain_words(records=RECORDS):
    return [str(here / "out/plain_node"), str(records)]


def echo_words():
    return [str(here / "out/echo")]


def cpus(given):
    """The processors of the servers and of the load."""
    return given.cpus.split(",") if given.cpus else (None, None)


def start(given, servers):
    """Starts one server of each kind."""
    cpu, _ = cpus(given)
    buckets = max(1024, 1 << (given.pages // 2 - 1).bit_length())
    servers.add("echo", echo_words(), given.small_pages, cpu)
    servers.add("plain", plain_words(), given.small_pages, cpu)
    servers.add("clio", node_words(given, given.pages, buckets), given.small_pages, cpu)
    if given.memcached:
        at = str(MEMCACHED_PORT)
        words = [given.memcached, "-u", "nobody", "-l", "127.0.0.1", "-p", at, "-U", at, "-t", "1", "-m", "256"]
        settled(servers.add("memcached", words, given.small_pages, cpu, MEMCACHED_PORT))


def turn_of(line):
    """A line of the load as a turn."""
    name, turn, requests, took, _, ran, _, waited, _, p50, _, p99 = line.split()
    return {
        "name": name, "turn": int(turn), "requests": int(requests), "took": int(took), "ran": int(ran), "waited": int(waited),
        "p50": int(p50), "p99": int(p99),
    }


def loaded(words, cpu):
    """The turns that a load on this processor prints."""
    made = subprocess.run(words, capture_output=True, text=True, **on(cpu))
    if made.returncode:
        raise SystemExit(f"{' '.join(words[-6:])}: {made.stderr.strip()}")
    return [turn_of(line) for line in made.stdout.splitlines()]


def requests_of_turn(window, turns):
    """A turn takes some milliseconds, and all turns together fit into the reply cache beside the filling of the pages."""
    return 300 if window == 1 else min(1600, (RECORDS - 6000) // turns)


def served(given):
    """Turns of all servers, by workload, window and repetition."""
    _, cpu = cpus(given)
    figures = []
    for repetition in range(given.repetitions):
        for workload in given.workloads:
            for window in given.windows:
                count = requests_of_turn(window, given.turns)
                with Servers() as running:
                    start(given, running)
                    words = [str(here / "out/load"), workload, str(window), str(given.pages), str(given.turns), str(count), "spin"]
                    turns = loaded(words + [server.word() for server in running.servers], cpu)
                figures.append({"workload": workload, "window": window, "repetition": repetition, "turns": turns})
    return figures


def played(given, words, plan, count, pages=0):
    """What a server's own work takes, in nanoseconds by label, under the library that takes the network's place."""
    out = given.out / "played.txt"
    out.unlink(missing_ok=True)
    variables = environment(
        given.small_pages, LD_PRELOAD=str(here / "out/inside.so"), BENCH_PLAN=plan, BENCH_COUNT=str(count), BENCH_PAGES=str(pages), BENCH_OUT=str(out)
    )
    cpu, _ = cpus(given)
    made = subprocess.run(words, env=variables, capture_output=True, text=True, **on(cpu))
    if made.returncode or not out.exists():
        raise SystemExit(f"{words[0]} under {plan}: {made.stderr.strip()}")
    names = ("count", "p10", "p25", "p50", "p75", "p90", "most")
    rows = (line.split() for line in out.read_text().splitlines())
    return {row[0]: dict(zip(names, map(int, row[1:]))) for row in rows}


def steps(given):
    """Repetitions of a step's cost; the servers change places with each."""
    kinds = {"echo": echo_words(), "plain": plain_words(), "clio": node_words(given, STEP_PAGES, STEP_PAGES // 2)}
    batches = 100 if given.quick else STEP_BATCHES
    repetitions = []
    for nth in range(given.repetitions * 2):
        order = list(kinds)[nth % 3 :] + list(kinds)[: nth % 3]
        repetitions.append({name: played(given, kinds[name], "steps", batches, STEP_PAGES) for name in order})
    return repetitions


def allocs(given):
    """Repetitions of the cost of Allocs that fail or go far."""
    rounds = 3 if given.quick else ALLOC_ROUNDS
    spacious, tiny = node_words(given, 1024, 65536), node_words(given, 64, 2)
    return [{**played(given, spacious, "allocs", rounds), **played(given, tiny, "table", rounds)} for _ in range(min(given.repetitions, 3))]


def pairs_at_work(given, pairs, window):
    """Requests a second that so many pairs of a node and its load make together, each pair on a processor of its own."""
    turns = 4 if given.quick else NODES_TURNS
    count = 10000 if window == 1 else 50000
    with Servers() as running:
        loads = []
        for cpu in processors()[:pairs]:
            node = running.add(f"node{cpu}", node_words(given, given.pages, 2048), given.small_pages, cpu)
            words = [str(here / "out/load"), "read64", str(window), str(given.pages), str(turns), str(count), "sleep", node.word()]
            loads.append(subprocess.Popen(words, stdout=subprocess.PIPE, text=True, **on(cpu)))
        lines = [load.communicate()[0].splitlines() for load in loads]
    if any(load.returncode for load in loads):
        raise SystemExit("nodes: a load failed")
    return sum(speed_of([turn_of(line) for line in printed]) for printed in lines)


def speed_of(turns):
    """Requests a second in the middle half of the turns, in which all pairs are at work."""
    middle = turns[len(turns) // 4 : len(turns) - len(turns) // 4]
    return sum(turn["requests"] for turn in middle) / sum(turn["took"] for turn in middle) * 1e9


def nodes(given):
    """Throughput of one pair and of as many as there are processors."""
    most = len(processors())
    counts = sorted({1, min(2, most), most})
    return [
        {"window": window, "count": count, "speed": pairs_at_work(given, count, window)}
        for _ in range(min(given.repetitions, 3))
        for window in given.windows
        for count in counts
    ]


def memory(given):
    """What nodes take before any request, by pages, buckets and records."""
    figures = []
    for pages, buckets, records in SIZES:
        with Servers() as running:
            there, asked = running.add("clio", node_words(given, pages, buckets, records), True).memory()
        figures.append({"pages": pages, "buckets": buckets, "records": records, "there": there, "asked": asked})
    return figures


MEASURES = {"served": served, "steps": steps, "allocs": allocs, "nodes": nodes, "memory": memory}
