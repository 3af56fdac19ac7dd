"""Figures as tables in Markdown. A value in brackets is the least and the greatest of the repetitions."""
from statistics import median

CALM = 0.05  # of a turn: for so long a calm turn's server was ready and had no processor, at most
FEWEST = 3  # calm turns that count alone
SERVERS = ("echo", "plain", "clio", "memcached")
AIM_PLAIN, AIM_MEMCACHED, AIM_STEP = 0.97, 1.3, 1.15
FIRST_FAILURES, REPEATED_FAILURES, FAR = ("fail", "holes", "table"), ("fail-again", "holes-again", "table-again"), ("end1", "end64")
AIM_ALLOCS = {**dict.fromkeys(FIRST_FAILURES, 100), **dict.fromkeys(REPEATED_FAILURES, 2), **dict.fromkeys(FAR, 50)}  # microseconds
STEPS = ("read64", "read1024", "write64", "write1024", "add")


def spread(values, digits=2):
    """The median, and the least and greatest."""
    if not values:
        return "-"
    return f"{median(values):.{digits}f} ({min(values):.{digits}f}-{max(values):.{digits}f})"


def row(cells):
    return "| " + " | ".join(str(cell) for cell in cells) + " |\n"


def head(cells):
    return row(cells) + "|" + "---|" * len(cells) + "\n"


class Run:
    """The turns of one repetition of a workload and window, by server."""

    def __init__(self, figures):
        self.turns = {}
        for turn in figures["turns"]:
            self.turns.setdefault(turn["name"], []).append(turn)

    def calm(self, names):
        """The numbers of the turns in which these servers were calm, or of all if these are too few."""
        every = range(min((len(self.turns.get(name, ())) for name in names), default=0))
        calm = [nth for nth in every if all(self.turns[name][nth]["waited"] <= CALM * self.turns[name][nth]["took"] for name in names)]
        return calm if len(calm) >= FEWEST else list(every)

    def values(self, name, value):
        return [value(self.turns[name][nth]) for nth in self.calm([name])]

    def middle(self, name, value):
        """The median of a value over the turns of a server, or None without any."""
        values = self.values(name, value)
        return median(values) if values else None

    def ratio(self, name, other, value):
        """The median of how much more of it `name` has than `other`, over the turns; None without any."""
        ratios = [value(self.turns[name][nth]) / value(self.turns[other][nth]) for nth in self.calm([name, other])]
        return median(ratios) if ratios else None


def processor_time(turn):
    """Microseconds of the server for a request."""
    return turn["ran"] / turn["requests"] / 1000


def speed(turn):
    """Requests a second."""
    return turn["requests"] / turn["took"] * 1e9


def grouped(served):
    """The runs of each workload and window."""
    groups = {}
    for figures in served:
        groups.setdefault((figures["workload"], figures["window"]), []).append(Run(figures))
    return groups


def known(values):
    return [value for value in values if value is not None]


def verdict(value, aim, is_least):
    """The mark of a missed aim."""
    if value is None:
        return ""
    return "" if (value >= aim if is_least else value <= aim) else " missed"


def ratio_cell(runs, name, aim=None):
    """How many times `name`'s processor time the node's is the divisor of."""
    ratios = known([run.ratio(name, "clio", processor_time) for run in runs])
    mark = verdict(median(ratios), aim, True) if ratios and aim else ""
    return spread(ratios, 3) + mark


def share_of_calm(runs):
    """How many of the turns of all servers were calm."""
    calm = sum(turn["waited"] <= CALM * turn["took"] for run in runs for turns in run.turns.values() for turn in turns)
    return f"{100 * calm / sum(len(turns) for run in runs for turns in run.turns.values()):.0f} %"


def served_tables(served):
    groups = grouped(served)
    text = "Processor time of the server against that of `clio`, more than 1 where `clio` needs less:\n\n"
    text += head(["workload", "window", f"plain C (aim {AIM_PLAIN})", "echo", f"memcached (aim {AIM_MEMCACHED})", "calm turns"])
    for (workload, window), runs in groups.items():
        cells = [ratio_cell(runs, "plain", AIM_PLAIN), ratio_cell(runs, "echo"), ratio_cell(runs, "memcached", AIM_MEMCACHED)]
        text += row([workload, window, *cells, share_of_calm(runs)])
    text += "\nMicroseconds of processor time for a request, and thousands of requests a second:\n\n"
    text += head(["workload", "window", *SERVERS, *(f"{name}, k/s" for name in SERVERS), "clio p50, us", "clio p99, us"])
    for (workload, window), runs in groups.items():
        times = [spread(known([run.middle(name, processor_time) for run in runs if name in run.turns])) for name in SERVERS]
        speeds = [middle_of(runs, name, lambda turn: speed(turn) / 1000, 0) for name in SERVERS]
        late = [middle_of(runs, "clio", lambda turn, at=at: turn[at] / 1000, 0) for at in ("p50", "p99")]
        text += row([workload, window, *times, *speeds, *late])
    return text


def middle_of(runs, name, value, digits):
    values = known([run.middle(name, value) for run in runs if name in run.turns])
    return f"{median(values):.{digits}f}" if values else "-"


def turn_of(one, name, label):
    """Nanoseconds of a turn with such a request, in one repetition."""
    return one[name][label]["p50"]


def step_of(one, name, label):
    """The same without what a rejected datagram takes."""
    return turn_of(one, name, label) - turn_of(one, name, "nothing")


def steps_table(repetitions):
    text = "Nanoseconds of a turn without the network. A step is a turn less that of `nothing`, a datagram that is rejected:\n\n"
    columns = ["request", "echo, turn", "plain C, turn", "clio, turn", "clio to plain C, turns"]
    text += head([*columns, "plain C, step", "clio, step", f"clio to plain C, steps (aim {AIM_STEP})"])
    for label in ("nothing", *STEPS):
        turns = {name: [turn_of(one, name, label) for one in repetitions] for name in ("echo", "plain", "clio")}
        cells = [label, *(spread(turns[name], 0) for name in turns), ratios_of(turns)]
        if label != "nothing":
            steps = {name: [step_of(one, name, label) for one in repetitions] for name in ("plain", "clio")}
            cells += [*(spread(steps[name], 0) for name in steps), ratios_of(steps, AIM_STEP)]
        text += row(cells + ["-"] * (8 - len(cells)))
    return text


def ratios_of(taken, aim=None):
    """What the node takes to what the plain node takes, by repetition, with a mark if an aim is missed."""
    ratios = [clio / plain for clio, plain in zip(taken["clio"], taken["plain"])]
    return spread(ratios, 3) + (verdict(median(ratios), aim, False) if aim else "")


def allocs_table(repetitions):
    text = "Microseconds of a turn with one request, without the network:\n\n"
    text += head(["request", "median", "nine of ten are below", "aim"])
    for label in repetitions[0]:
        middle = [one[label]["p50"] / 1000 for one in repetitions]
        slow = [one[label]["p90"] / 1000 for one in repetitions]
        aim = AIM_ALLOCS.get(label)
        text += row([label, spread(middle, 1), spread(slow, 1), f"{aim}{verdict(median(middle), aim, False)}" if aim else "-"])
    return text


def nodes_table(figures):
    text = "Thousands of reads of 64 bytes a second, of so many nodes together, each with its load on one processor:\n\n"
    counts = sorted({one["count"] for one in figures})
    text += head(["window", *(f"{count} node{'s' if count > 1 else ''}" for count in counts)])
    for window in sorted({one["window"] for one in figures}):
        speeds = [[one["speed"] / 1000 for one in figures if one["window"] == window and one["count"] == count] for count in counts]
        text += row([window, *(spread(values, 0) for values in speeds)])
    return text


def slope(figures, size, field):
    """Bytes for one more of a size: of two nodes that differ in it alone, the one with less of it first."""
    sizes = ("pages", "buckets", "records")
    for small in figures:
        for large in figures:
            if large[size] > small[size] and all(large[other] == small[other] for other in sizes if other != size):
                return (large[field] - small[field]) / (large[size] - small[size])
    raise ValueError(f"no two nodes differ in their {size} alone")


class Formula:
    """Bytes of a node as a sum over its pages, buckets and records."""

    def __init__(self, figures, field):
        self.slopes = {size: slope(figures, size, field) for size in ("pages", "buckets", "records")}
        self.base = 0
        self.base = figures[0][field] - self.of(figures[0])

    def of(self, sizes):
        return self.base + sum(each * sizes[size] for size, each in self.slopes.items())

    def text(self):
        pages, buckets, records = (f"{each:.0f}" for each in self.slopes.values())
        return f"{pages} bytes a page, {buckets} a bucket, {records} a record, and {self.base / 2**20:.1f} MiB"


def memory_table(figures):
    """The formulas come from all nodes but the last, which they are compared with."""
    asked, there = Formula(figures, "asked"), Formula(figures, "there")
    text = f"Address space: {asked.text()}. Resident before any request: {there.text()}. In MiB:\n\n"
    text += head(["pages", "buckets", "records", "address space", "by the formula", "resident", "by the formula"])
    for one in figures:
        sizes = [one[size] for size in ("pages", "buckets", "records")]
        text += row(sizes + [f"{bytes_ / 2**20:.1f}" for bytes_ in (one["asked"], asked.of(one), one["there"], there.of(one))])
    return text


def short(value):
    """A number with three digits or more."""
    return f"{value:.0f}" if value >= 100 else f"{value:.3g}"


def aim_row(name, aim, medians, is_least):
    """How many of these medians reach an aim. None of them is unknown."""
    if not medians:
        return ""
    met = sum(not verdict(value, aim, is_least) for value in medians)
    return row([name, f"{'at least' if is_least else 'at most'} {aim}", f"{short(min(medians))} to {short(max(medians))}", f"{met} of {len(medians)}"])


def served_medians(figures, name):
    """The ratio of a server's processor time to the node's, for each workload and window."""
    ratios = [known([run.ratio(name, "clio", processor_time) for run in runs]) for runs in grouped(figures.get("served", [])).values()]
    return [median(each) for each in ratios if each]


def step_medians(figures):
    repetitions = figures.get("steps", [])
    return [median([step_of(one, "clio", label) / step_of(one, "plain", label) for one in repetitions]) for label in STEPS if repetitions]


def alloc_medians(figures, labels):
    repetitions = figures.get("allocs", [])
    return [median([one[label]["p50"] / 1000 for one in repetitions]) for label in labels if repetitions]


def aims_table(figures):
    text = head(["aim", "wanted", "measured, least and greatest median", "reached"])
    text += aim_row("processor time of plain C to that of clio, by workload and window", AIM_PLAIN, served_medians(figures, "plain"), True)
    text += aim_row("processor time of memcached to that of clio, by workload and window", AIM_MEMCACHED, served_medians(figures, "memcached"), True)
    text += aim_row("step of clio to that of plain C, by request", AIM_STEP, step_medians(figures), False)
    text += aim_row("microseconds of an Alloc that fails", 100, alloc_medians(figures, FIRST_FAILURES), False)
    text += aim_row("microseconds of the same once more", 2, alloc_medians(figures, REPEATED_FAILURES), False)
    return text + aim_row("microseconds of an Alloc at the end of a nearly full space", 50, alloc_medians(figures, FAR), False)


TABLES = {"served": served_tables, "steps": steps_table, "allocs": allocs_table, "nodes": nodes_table, "memory": memory_table}


def run_line(figures):
    """What the run was run with."""
    machine = ", ".join(f"{name} {value}" for name, value in figures["machine"].items())
    return f"`{figures['command']}`, {figures['date']}. {machine}. Load average before: {figures['load'][0]}; after: {figures['load'][-1]}.\n"


def all_tables(figures):
    """The tables of a run, by what they are of."""
    made = {"run": run_line(figures), "aims": aims_table(figures)}
    made.update((what, table(figures[what])) for what, table in TABLES.items() if what in figures)
    return made


def as_text(made):
    """Tables one after the other, each under its name."""
    return made["run"] + "".join(f"\n## {what}\n\n{text}" for what, text in made.items() if what != "run")


def as_page(page, made):
    """The page with these tables between its marks, `<!-- NAME -->` and `<!-- end of NAME -->`."""
    for what, text in made.items():
        before, start, rest = page.partition(f"<!-- {what} -->\n")
        _, end, after = rest.partition(f"<!-- end of {what} -->\n")
        if not end:
            raise SystemExit(f"the page has no marks of {what}")
        page = f"{before}{start}\n{text}\n{end}{after}"
    return page
