#!/usr/bin/env python3
"""Shows the create contexts of a CREATE request, as `leasecheck show ask` does, by libsmblease.so:

    PYTHONPATH=python python3 examples/python/contexts.py HEX
"""
import sys

from smblease import CreateAsk, Fault, each_context


def show(text: bytes) -> None:
    ask = CreateAsk.read(text)
    for context in each_context(text):
        print("context", context.name.hex() or "-", len(context.data))
    if ask.key:
        print("lease", ask.key, ask.state)
    if ask.durable:
        print("durable")
    if ask.reconnect is not None:
        print("reconnect", ask.reconnect)
    if ask == CreateAsk(has_other_lease=ask.has_other_lease):
        print("nothing")


def main() -> None:
    try:
        text = bytes.fromhex(sys.argv[1])
    except (IndexError, ValueError):
        sys.exit("fault hex")
    try:
        show(text)
    except Fault as fault:
        sys.exit(str(fault))


if __name__ == "__main__":
    main()
