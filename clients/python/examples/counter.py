#!/usr/bin/env python3
"""Counts at a node, whatever the network loses: each add that is answered was done once.

counter.py HOST:PORT COUNT [CLIENT [TICK]]
"""
import pathlib
import sys

sys.path.insert(0, str(pathlib.Path(__file__).resolve().parent.parent))
from clio import TICK, Client

host, port = sys.argv[1].split(":")
count = int(sys.argv[2])
number = int(sys.argv[3]) if len(sys.argv) > 3 else 11
tick = float(sys.argv[4]) if len(sys.argv) > 4 else TICK

with Client(host, int(port), client=number, process=11, tick=tick) as c:
    counter = c.alloc(1).word(0)
    olds = [counter.fetch_add() for _ in range(count)]
    print("each add once:", olds == list(range(count)))
    print("counted", counter.load())
