"""The machine, and servers that are started on it."""
import os
import pathlib
import platform
import re
import subprocess
import time

TUNABLE = "GLIBC_TUNABLES"


def first_line_of(path, pattern, otherwise="?"):
    """What the pattern finds in a file of the system."""
    try:
        found = re.search(pattern, pathlib.Path(path).read_text(), re.M)
    except OSError:
        return otherwise
    return found[1].strip() if found else otherwise


def description():
    """The processor, the system and the compiler, in one line each."""
    compiler = subprocess.run(["cc", "--version"], capture_output=True, text=True).stdout.splitlines()
    return {
        "processor": first_line_of("/proc/cpuinfo", r"^model name\s*: (.*)$"),
        "processors": len(processors()),
        "virtual": "hypervisor" in first_line_of("/proc/cpuinfo", r"^flags\s*: (.*)$", ""),
        "memory": first_line_of("/proc/meminfo", r"^MemTotal:\s*(.*)$"),
        "system": f"{platform.system()} {platform.release()}",
        "huge pages": first_line_of("/sys/kernel/mm/transparent_hugepage/enabled", r"\[(\w+)\]"),
        "compiler": compiler[0] if compiler else "?",
    }


def load():
    """The load averages of the last 1, 5 and 15 minutes, now."""
    return first_line_of("/proc/loadavg", r"^(\S+ \S+ \S+)")


def environment(small_pages, **more):
    """The environment of a server: it asks for huge pages, if the system gives them to those that ask."""
    variables = {**os.environ, **more}
    if small_pages:
        variables.pop(TUNABLE, None)
    else:
        variables[TUNABLE] = "glibc.malloc.hugetlb=1"
    return variables


def processors():
    """The numbers of the processors that may be used."""
    return sorted(os.sched_getaffinity(0))


def on(cpu):
    """What lets a new process run on this processor alone, if one is given."""
    return {} if cpu is None else {"preexec_fn": lambda: os.sched_setaffinity(0, {int(cpu)})}


class Server:
    """A process that serves, by its name, words and port."""

    def __init__(self, name, words, small_pages, cpu=None, port=None):
        self.name = name
        self.process = subprocess.Popen(
            words, stdout=subprocess.PIPE, stderr=subprocess.DEVNULL, text=True, env=environment(small_pages), **on(cpu)
        )
        self.port = port if port else self.printed_port()

    def printed_port(self):
        """The port of the line `port P`, which it prints first."""
        line = self.process.stdout.readline()
        if not line.startswith("port "):
            raise SystemExit(f"{self.name} printed no port: {line!r}")
        return int(line.split()[1])

    def word(self):
        """The word that the load wants."""
        return f"{self.name}:{self.port}:{self.process.pid}"

    def memory(self):
        """Bytes of its memory that are there, and bytes that it asked for."""
        status = f"/proc/{self.process.pid}/status"
        return [1024 * int(first_line_of(status, rf"^{field}:\s*(\d+)")) for field in ("VmRSS", "VmSize")]

    def stop(self):
        self.process.terminate()
        self.process.wait()


class Servers:
    """Servers that are stopped at the end of a `with`."""

    def __init__(self):
        self.servers = []

    def add(self, *words, **options):
        """Starts a server."""
        self.servers.append(Server(*words, **options))
        return self.servers[-1]

    def __enter__(self):
        return self

    def __exit__(self, *_):
        for server in self.servers:
            server.stop()


def settled(server):
    """Waits for a server that prints nothing when it is ready."""
    time.sleep(0.5)
    if server.process.poll() is not None:
        raise SystemExit(f"{server.name} ended at once: is port {server.port} free?")
