"""The plot of the processor time per request: a panel for each window, a group for each workload, a bar for each server.

Each panel has a scale of its own, since with one request outstanding a server falls asleep after each, and waking it is most of the cost.
"""
from statistics import median
from xml.sax.saxutils import escape

from tables import SERVERS, grouped, known, processor_time

COLOURS = {"echo": "#c4cad1", "plain": "#7d8590", "clio": "#0969da", "memcached": "#bf8700"}
NAMES = {"echo": "C echo", "plain": "C node without checks", "clio": "clio", "memcached": "memcached"}
INK, FAINT, RULE = "#1f2328", "#59636e", "#d1d9e0"
LEFT, TOP, BAR, GAP, PANEL_GAP, HEIGHT, FOOT = 40, 76, 14, 16, 44, 230, 56
HALO = ' stroke="#ffffff" stroke-width="3" paint-order="stroke"'  # so that a number can be read over a bar


def text(x, y, words, colour=INK, anchor="start", size=12, extra=""):
    return f'<text x="{x:.1f}" y="{y:.1f}" fill="{colour}" font-size="{size}" text-anchor="{anchor}"{extra}>{escape(str(words))}</text>\n'


def rectangle(x, y, width, height, colour):
    return f'<rect x="{x:.1f}" y="{y:.1f}" width="{width:.1f}" height="{height:.1f}" fill="{colour}"/>\n'


def line(x1, y1, x2, y2, colour):
    return f'<line x1="{x1:.1f}" y1="{y1:.1f}" x2="{x2:.1f}" y2="{y2:.1f}" stroke="{colour}"/>\n'


def figures_of(served):
    """Microseconds by window, workload and server, one for each repetition."""
    found = {}
    for (workload, window), runs in grouped(served).items():
        for name in SERVERS:
            values = known([run.middle(name, processor_time) for run in runs if name in run.turns])
            if values:
                found.setdefault(window, {}).setdefault(workload, {})[name] = values
    return found


class Scale:
    """Where a time is on the upright axis."""

    def __init__(self, most):
        self.step = 1 if most <= 8 else 2 if most <= 16 else 5
        self.top = self.step * (int(most / self.step) + 1)

    def at(self, micros):
        return TOP + HEIGHT * (1 - micros / self.top)

    def marks(self):
        return range(0, self.top + 1, self.step)


def bar(x, scale, values, name):
    """A bar up to the median, and a line from the least to the greatest."""
    height = scale.at(median(values))
    drawn = rectangle(x, height, BAR - 2, TOP + HEIGHT - height, COLOURS[name])
    return drawn + line(x + BAR / 2 - 1, scale.at(min(values)), x + BAR / 2 - 1, scale.at(max(values)), INK)


def group(x, scale, workload, servers):
    """The bars of a workload, with the node's time above its bar."""
    drawn = ""
    for nth, name in enumerate(servers):
        drawn += bar(x + nth * BAR, scale, servers[name], name)
        if name == "clio":
            drawn += text(x + nth * BAR + BAR / 2 - 1, scale.at(max(servers[name])) - 4, f"{median(servers[name]):.1f}", COLOURS[name], "middle", 10, HALO)
    return drawn + text(x + len(servers) * BAR / 2, TOP + HEIGHT + 17, workload, INK, "middle", 11)


def axis(x, scale, width):
    """The marks of a scale, each with a rule."""
    drawn = "".join(line(x, scale.at(mark), x + width, scale.at(mark), RULE) for mark in scale.marks())
    return drawn + "".join(text(x - 6, scale.at(mark) + 4, mark, FAINT, "end", 11) for mark in scale.marks())


def panel(x, window, workloads):
    """The groups of a window, and how wide they are."""
    width = sum(len(servers) * BAR + GAP for servers in workloads.values())
    scale = Scale(max(max(values) for servers in workloads.values() for values in servers.values()))
    drawn = axis(x, scale, width)
    drawn += text(x + width / 2, TOP + HEIGHT + 38, f"window {window}", FAINT, "middle")
    at = x + GAP / 2
    for workload, servers in workloads.items():
        drawn += group(at, scale, workload, servers)
        at += len(servers) * BAR + GAP
    return drawn, width


def legend(names):
    drawn, at = "", LEFT
    for name in names:
        drawn += rectangle(at, 42, 11, 11, COLOURS[name]) + text(at + 16, 52, NAMES[name], FAINT)
        at += 40 + 7 * len(NAMES[name])
    return drawn


def drawn(figures):
    """The whole picture."""
    found = figures_of(figures["served"])
    servers = [name for name in SERVERS if any(name in one for workloads in found.values() for one in workloads.values())]
    body, at = legend(servers), LEFT
    for window, workloads in sorted(found.items()):
        part, width = panel(at, window, workloads)
        body += part
        at += width + PANEL_GAP
    title = text(LEFT, 24, "Processor time of the server per request, in microseconds", INK, size=15)
    width, height = at, TOP + HEIGHT + FOOT
    background = rectangle(0, 0, width, height, "#ffffff")
    return (
        f'<svg xmlns="http://www.w3.org/2000/svg" width="{width:.0f}" height="{height}" viewBox="0 0 {width:.0f} {height}" '
        f'font-family="system-ui, sans-serif">\n{background}{title}{body}</svg>\n'
    )
