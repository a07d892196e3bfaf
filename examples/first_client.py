#!/usr/bin/env python3
"""A first Set, Get and Subscribe, with Python alone.

    examples/first_client.py HOST:PORT

It asks for the server's capabilities, subscribes to changes below /system, sets /system/config/hostname, gets it, waits until
the stream has sent the change, and makes a Set that is refused. Each answer is a line. The messages are protocol buffers of
gnmi.proto, which bin/gnmi_client.py makes and reads by hand; a client of one's own will rather use a library for gRPC.
"""
import os
import sys

sys.dont_write_bytecode = True
sys.path.insert(0, os.path.join(os.path.dirname(os.path.dirname(os.path.realpath(__file__))), "bin"))
from gnmi_client import (answered, dialled, ended, get_request, named, note_of, path_of, path_text,  # noqa: E402
                         set_request, stream_request, string, take_until)

HOSTNAME = path_of("/system/config/hostname")
OPERATIONS = {1: "delete", 2: "replace", 3: "update"}


def text(octets):
    return b"".join(octets).decode()


def say_stream(messages):
    """What a stream has sent: a line for each path, and one for the sync."""
    for message in messages:
        for note in named(message, 1):
            gone, values = note_of(note)
            for where in gone:
                print("stream: gone", where)
            for where, value in values:
                print("stream:", where, value)
        if named(message, 3):
            print("stream: sync, what follows are changes")


def main():
    if len(sys.argv) != 2 or ":" not in sys.argv[1]:
        raise SystemExit(__doc__)
    connection = dialled(sys.argv[1])
    capabilities = answered(connection, b"Capabilities", b"")
    print("gNMI", text(named(capabilities, 3)), "of", ", ".join(text(named(model, 1)) for model in named(capabilities, 1)))
    stream = connection.call(b"Subscribe", stream_request(path_of("/system")), last=False)
    take_until([connection], lambda: any(named(message, 3) for message in stream.messages), 5)
    known = len(stream.messages)
    say_stream(stream.messages)
    reply = answered(connection, b"Set", set_request((HOSTNAME, string(b"r1"))))
    for result in named(reply, 2):
        print("set:", OPERATIONS[named(result, 4)[0]], path_text(b"".join(named(result, 2))))
    for note in named(answered(connection, b"Get", get_request(HOSTNAME)), 1):
        for where, value in note_of(note)[1]:
            print("get:", where, value)
    take_until([connection], lambda: len(stream.messages) > known, 5)
    say_stream(stream.messages[known:])
    refused = ended(connection, b"Set", set_request((path_of("/system/config/location"), string(b"lab"))))
    print("refused:", refused.status, refused.text)
    connection.close()
    return 0



if __name__ == "__main__":
    sys.exit(main())
