#!/usr/bin/env python3
"""Two programs move money between two accounts of a key-value object. A lock in a page that they share lets one at a time.

shared_store.py HOST:PORT [TRANSFERS [TICK]]        the tick is in seconds
"""
import pathlib
import subprocess
import sys

sys.path.insert(0, str(pathlib.Path(__file__).resolve().parent.parent))
from clio import TICK, Client

TRANSFERS = 40  # of each program, unless told
PROCESS = 13  # whose memory both share


def work(c: Client, transfers: int, addr: int) -> None:
    """Moves 1 from one account to the other, again and again."""
    lock, accounts = c.range(addr, 1).word(0), c.kv(0)
    for _ in range(transfers):
        with lock.lock():
            alice, bob = int(accounts.get(b"alice")), int(accounts.get(b"bob"))
            accounts.put(b"alice", str(alice - 1).encode())
            accounts.put(b"bob", str(bob + 1).encode())


def share(c: Client, *words: object) -> None:
    """Starts two programs with these words, a client number and the address of the lock, and tells what they leave."""
    page, accounts = c.alloc(1), c.kv(0)
    accounts.put(b"alice", b"1000")
    accounts.put(b"bob", b"0")
    start = [sys.executable, __file__, *map(str, words)]
    programs = [subprocess.Popen([*start, str(number), str(page.addr)]) for number in (14, 15)]
    if any([program.wait() for program in programs]):
        sys.exit("a program failed")
    print("alice has", accounts.get(b"alice").decode(), "and bob", accounts.get(b"bob").decode())
    for name in (b"alice", b"bob"):
        accounts.delete(name)
    page.free()


node, *words = sys.argv[1:]
host, port = node.split(":")
transfers = int(words[0]) if words else TRANSFERS
tick = float(words[1]) if len(words) > 1 else TICK
number, addr = map(int, words[2:]) if len(words) > 2 else (13, 0)

with Client(host, int(port), client=number, process=PROCESS, tick=tick) as c:
    if addr:
        work(c, transfers, addr)
    else:
        share(c, node, transfers, tick)
