#!/usr/bin/env python3
"""A small client of gNMI, with Python alone: to try a server, to save a configuration and to load it again.

    examples/gnmi.py HOST:PORT capabilities
    examples/gnmi.py HOST:PORT get PATH..
    examples/gnmi.py HOST:PORT set [delete PATH | replace PATH JSON | update PATH JSON]..
    examples/gnmi.py HOST:PORT watch PATH [SECONDS]

PATH is as /interfaces/interface[name=eth0]/config; a value of `-` is read from standard input. `get` prints each path with its
value in JSON_IETF, `set` the stamp of the entry that it made, and `watch` what a STREAM subscription sends, until it ends or the
seconds have passed. Ends with 1 where the call is refused, and prints the status and the text then.
"""
import os
import sys

sys.dont_write_bytecode = True
sys.path.insert(0, os.path.join(os.path.dirname(os.path.dirname(os.path.realpath(__file__))), "bin"))
from gnmi_client import (dialled, ended, field, get_request, json, named, note_of, path_of, stream_request,  # noqa: E402
                         take_until, update)

# the fields of a SetRequest
FIELDS = {"delete": 2, "replace": 3, "update": 4}


def done(call):
    """The message of a call that ended well."""
    if call.status != "0":
        raise SystemExit(f"refused: {call.status} {call.text}" if call.status else "the connection was closed")
    return call.messages[0]


def operations(words):
    """The SetRequest that words ask for."""
    octets = b""
    while words:
        kind, where, *words = words
        if kind == "delete":
            octets += field(FIELDS[kind], path_of(where))
        else:
            value, *words = words
            value = sys.stdin.buffer.read() if value == "-" else value.encode()
            octets += field(FIELDS[kind], update(path_of(where), json(value.strip())))
    return octets


def say(message):
    """Prints what a SubscribeResponse says."""
    for note in named(message, 1):
        gone, values = note_of(note)
        for where in gone:
            print("delete", where)
        for where, value in values:
            print("update", where, value)
    if named(message, 3):
        print("sync")
    sys.stdout.flush()


def watch(connection, where, seconds):
    call = connection.call(b"Subscribe", stream_request(path_of(where)), last=False)
    known = 0

    def more():
        nonlocal known
        for message in call.messages[known:]:
            say(message)
        known = len(call.messages)
        return call.ended is not None or connection.closed

    take_until([connection], more, seconds)
    if call.status not in (None, "0"):
        raise SystemExit(f"refused: {call.status} {call.text}")


def main():
    if len(sys.argv) < 3:
        raise SystemExit(__doc__)
    address, command, *words = sys.argv[1:]
    connection = dialled(address)
    if command == "capabilities":
        reply = done(ended(connection, b"Capabilities", b""))
        print("gNMI", b"".join(named(reply, 3)).decode())
        for model in named(reply, 1):
            print("model", b"".join(named(model, 1)).decode())
    elif command == "get":
        for note in named(done(ended(connection, b"Get", get_request(*map(path_of, words)))), 1):
            for where, value in note_of(note)[1]:
                print(where, value)
    elif command == "set":
        print("set", *named(done(ended(connection, b"Set", operations(words))), 4))
    elif command == "watch":
        watch(connection, words[0], float(words[1]) if len(words) > 1 else 1e9)
    else:
        raise SystemExit(__doc__)
    connection.close()
    return 0


if __name__ == "__main__":
    sys.exit(main())
