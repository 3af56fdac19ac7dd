#!/usr/bin/env python3
"""A cache whose values expire, in a key-value object of a node.

cache.py HOST:PORT
"""
import pathlib
import struct
import sys
import time

sys.path.insert(0, str(pathlib.Path(__file__).resolve().parent.parent))
from clio import Client, KeyValue, Refusal, Refused


class Cache:
    """Values of at most 248 bytes, each with the time at which it expires, in seconds since 1970. Programs may share it."""

    _HEAD = struct.Struct(">d")

    def __init__(self, kv: KeyValue):
        self._kv = kv

    def put(self, key: str, value: bytes, seconds: float) -> bool:
        """Keeps a value for some seconds. False if the object is full: a cache may forget."""
        try:
            self._kv.put(key.encode(), self._HEAD.pack(time.time() + seconds) + value)
        except Refused as error:
            if error.refusal is not Refusal.OBJECT_FULL:
                raise
            return False
        return True

    def get(self, key: str) -> bytes | None:
        """The value, if it is there and has not expired. An expired one is taken out."""
        kept = self._kv.get(key.encode())
        if kept is None:
            return None
        (expires,) = self._HEAD.unpack_from(kept)
        if time.time() < expires:
            return kept[self._HEAD.size :]
        # Who puts a value just now may lose it here, which a cache may.
        self._kv.delete(key.encode())
        return None


host, port = sys.argv[1].split(":")
with Client(host, int(port), client=12, process=12) as c:
    cache = Cache(c.kv(0))
    cache.put("rate", b"1.0842", seconds=60)
    cache.put("offer", b"sold out soon", seconds=0.05)
    print("at once:", cache.get("rate"), cache.get("offer"), cache.get("weather"))
    time.sleep(0.1)
    print("later:", cache.get("rate"), cache.get("offer"))
    print("kept:", c.kv(0).count())
    room = 0
    while cache.put(f"page {room}", b"<html>", seconds=60):
        room += 1
    print("full with", c.kv(0).count())
    for page in range(room):
        c.kv(0).delete(f"page {page}".encode())
    c.kv(0).delete(b"rate")
