#!/usr/bin/env python3
"""How a device takes its configuration: as any collector does, by a subscription over loopback.

    examples/device.py HOST:PORT FILE [SECONDS]

It subscribes to changes of the whole configuration. FILE is what the device has applied so far, a path and a value a line. What
differs from it is printed as `apply PATH VALUE` or `remove PATH`, where a device would act on it; then FILE is replaced by what is
applied now, in one step. The first answer of a stream is the whole configuration, so that after a crash of either side, or
when the connection was lost, the next start brings the device and FILE up to date. It dials again until the seconds have passed.
"""
import os
import sys
import time

sys.dont_write_bytecode = True
sys.path.insert(0, os.path.join(os.path.dirname(os.path.dirname(os.path.realpath(__file__))), "bin"))
from gnmi_client import dialled, named, note_of, path_of, stream_request, take_until  # noqa: E402


def applied_before(file):
    try:
        with open(file, encoding="utf-8") as lines:
            return dict(line.rstrip("\n").split(" ", 1) for line in lines)
    except FileNotFoundError:
        return {}


def apply(wanted, file):
    """Brings the device from what FILE has to what is wanted."""
    have = applied_before(file)
    for path in sorted(have.keys() - wanted.keys()):
        print("remove", path, flush=True)
    for path, value in sorted(wanted.items()):
        if have.get(path) != value:
            print("apply", path, value, flush=True)
    with open(file + ".new", "w", encoding="utf-8") as lines:
        lines.writelines(f"{path} {value}\n" for path, value in sorted(wanted.items()))
        lines.flush()
        os.fsync(lines.fileno())
    os.replace(file + ".new", file)


def follow(address, file, deadline):
    """Follows one stream to its end."""
    connection = dialled(address, max(0, deadline - time.monotonic()))
    call = connection.call(b"Subscribe", stream_request(path_of("/")), last=False)
    wanted, known, synced = {}, 0, False

    def ended():
        nonlocal known, synced
        for message in call.messages[known:]:
            for note in named(message, 1):
                gone, values = note_of(note)
                for path in gone:
                    wanted.pop(path, None)
                wanted.update(values)
            # before the sync the configuration isn't whole; after it each notification is one committed state
            synced = synced or bool(named(message, 3))
            if synced:
                apply(wanted, file)
        known = len(call.messages)
        return call.ended is not None or connection.closed

    take_until([connection], ended, deadline - time.monotonic())
    connection.close()


def main():
    if len(sys.argv) not in (3, 4):
        raise SystemExit(__doc__)
    deadline = time.monotonic() + (float(sys.argv[3]) if len(sys.argv) == 4 else 1e9)
    while time.monotonic() < deadline:
        follow(sys.argv[1], sys.argv[2], deadline)
        time.sleep(0.2)
    return 0


if __name__ == "__main__":
    sys.exit(main())
