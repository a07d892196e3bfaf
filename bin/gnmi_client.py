"""A client of gNMI for the scripts of bin/, bench/ and examples/: HTTP/2 frames and messages by hand, over a socket. Standard
library only.

It sends what it is asked to and takes what comes, and it is no client for another server: of the header blocks that it
receives it looks for grpc-status and grpc-message alone, as gnmid writes them.
"""
import re
import selectors
import socket
import time
from json import dumps as json_of

# Frame types and flags (RFC 9113 6), and the windows that are there without a SETTINGS frame (RFC 9113 6.9.2).
DATA, HEADERS, RST_STREAM, SETTINGS, PING, GOAWAY, WINDOW_UPDATE = 0, 1, 3, 4, 6, 7, 8
END_STREAM, END_HEADERS, ACK = 1, 4, 1
WINDOW = 65535
INITIAL_WINDOW_SIZE = 4
PREFACE = b"PRI * HTTP/2.0\r\n\r\nSM\r\n\r\n"


def frame(kind, flags, stream, payload):
    return len(payload).to_bytes(3, "big") + bytes((kind, flags)) + stream.to_bytes(4, "big") + payload


def text(octets):
    """A string of a header block without Huffman code (RFC 7541 5.2), of at most 126 octets."""
    return bytes((len(octets),)) + octets


def block(path):
    """The header list of a call: literals without indexing (RFC 7541 6.2.2), their names from the static table where it has
    them."""
    return (b"\x83\x86\x04" + text(path) + b"\x01" + text(b"gnmid") + b"\x0f\x10" + text(b"application/grpc")
            + b"\x00" + text(b"te") + text(b"trailers"))


def varint(number):
    octets = b""
    while number > 127:
        octets += bytes((number % 128 + 128,))
        number //= 128
    return octets + bytes((number,))


def field(number, value):
    """A field of a message (protobuf.dev, "Encoding"): of octets, or of a number."""
    if isinstance(value, int):
        return varint(number * 8) + varint(value)
    return varint(number * 8 + 2) + varint(len(value)) + value


def path(*elements):
    """A path: each element a name, or a name with its one key and that key's value."""
    octets = b""
    for element in elements:
        if isinstance(element, tuple):
            name, key, value = element
            element = field(1, name) + field(2, field(1, key) + field(2, value))
        else:
            element = field(1, element)
        octets += field(3, element)
    return octets


def string(octets):
    return field(1, octets)


def json(octets):
    return field(11, octets)


def set_request(*updates):
    """A SetRequest with these updates, each a path and a value."""
    return b"".join(field(4, update(where, value)) for where, value in updates)


def update(where, value):
    """An Update: a path and its value."""
    return field(1, where) + field(3, value)


def get_request(*paths):
    """A GetRequest for values in JSON_IETF."""
    return b"".join(field(2, where) for where in paths) + field(5, 4)


def stream_request(where):
    """A SubscribeRequest of mode STREAM that is told of changes below a path."""
    return field(1, field(2, field(1, where) + field(2, 1)) + field(8, 2))


def fields(octets):
    """The fields of a message, each its number and its value: octets, or a number."""
    at = 0

    def number():
        nonlocal at
        whole = shift = 0
        while True:
            octet, at = octets[at], at + 1
            whole |= (octet & 127) << shift
            shift += 7
            if octet < 128:
                return whole

    while at < len(octets):
        tag = number()
        if tag % 8 == 0:
            yield tag >> 3, number()
        else:
            length = {1: 8, 5: 4}.get(tag % 8) or number()
            yield tag >> 3, octets[at:at + length]
            at += length


def named(octets, number):
    """The values of the fields with a number."""
    return [value for key, value in fields(octets) if key == number]


def path_text(octets):
    """The text of a Path, as the program prints one: /interfaces/interface[name=eth0]/mtu."""
    text = ""
    for element in named(octets, 3):
        text += "/" + b"".join(named(element, 1)).decode()
        for key in named(element, 2):
            text += "[" + "=".join(b"".join(named(key, part)).decode() for part in (1, 2)) + "]"
    return text or "/"


def value_text(octets):
    """The text of a TypedValue: a scalar as JSON, JSON as it stands."""
    for number, value in fields(octets):
        if number == 1:
            return json_of(value.decode())
        if number == 2:
            return str(value - (1 << 64) if value >> 63 else value)
        if number == 3:
            return str(value)
        if number == 4:
            return "true" if value else "false"
        if number in (10, 11):
            return value.decode()
        if number == 8:
            return "[" + ",".join(value_text(item) for item in named(value, 1)) + "]"
        return repr(value)
    return "nothing"


def note_of(notification):
    """What a Notification says: the paths that are gone, and each path that has a value now, with its text."""
    return ([path_text(where) for where in named(notification, 5)],
            [(path_text(b"".join(named(one, 1))), value_text(b"".join(named(one, 3)))) for one in named(notification, 4)])


def path_of(text):
    """The path that a text spells, as /interfaces/interface[name=eth0]/mtu."""
    octets = b""
    for name, keys in re.findall(r"/([^/\[]+)((?:\[[^=\]]+=[^\]]*\])*)", text):
        element = field(1, name.encode())
        for key, value in re.findall(r"\[([^=\]]+)=([^\]]*)\]", keys):
            element += field(2, field(1, key.encode()) + field(2, value.encode()))
        octets += field(3, element)
    return octets


def header(block, name):
    """The value of a header that stands in a block as a literal with its name (RFC 7541 6.2.2), or None."""
    at = block.find(bytes((len(name),)) + name)
    if at < 0:
        return None
    at += 1 + len(name)
    return block[at + 1:at + 1 + block[at]].decode()


class Call:
    """A call: the messages that came and when, when it ended, and with which status and text."""

    def __init__(self):
        self.messages = []
        self.times = []
        self.ended = None
        self.status = None
        self.text = None
        self.octets = b""

    def take(self, octets, now):
        self.octets += octets
        while len(self.octets) >= 5:
            length = int.from_bytes(self.octets[1:5], "big")
            if len(self.octets) < 5 + length:
                return
            self.messages.append(self.octets[5:5 + length])
            self.times.append(now)
            self.octets = self.octets[5 + length:]


class Connection:
    """A connection to a server. Its windows for what comes are as wide as can be."""

    def __init__(self, connected):
        self.socket = connected
        self.calls = {}
        self.next = 1
        self.window = WINDOW
        self.windows = {}
        self.octets = b""
        self.closed = False
        self.send(PREFACE + frame(SETTINGS, 0, 0, INITIAL_WINDOW_SIZE.to_bytes(2, "big") + (2**31 - 1).to_bytes(4, "big"))
                  + frame(WINDOW_UPDATE, 0, 0, (1 << 30).to_bytes(4, "big")))

    def send(self, octets):
        self.socket.sendall(octets)

    def call(self, method, message, last=True):
        """Makes a call with one message, and says with it whether it is the last."""
        stream, self.next = self.next, self.next + 2
        call = self.calls[stream] = Call()
        self.windows[stream] = WINDOW
        octets = b"\x00" + len(message).to_bytes(4, "big") + message
        head = frame(HEADERS, END_HEADERS, stream, block(b"/gnmi.gNMI/" + method))
        while call.ended is None and not self.closed:
            room = min(self.window, self.windows[stream], 16384)
            if octets and room <= 0:
                self.send(head)
                head = b""
                self.take()
                continue
            piece, octets = octets[:room], octets[room:]
            self.window -= len(piece)
            self.windows[stream] -= len(piece)
            head += frame(DATA, END_STREAM if last and not octets else 0, stream, piece)
            if not octets:
                break
        self.send(head)
        return call

    def take(self):
        """Takes what has come, and waits for something where nothing has."""
        try:
            octets = self.socket.recv(1 << 20)
        except ConnectionResetError:
            octets = b""
        now = time.monotonic()
        if not octets:
            self.closed = True
            return
        self.octets += octets
        at = 0
        while len(self.octets) - at >= 9:
            length = int.from_bytes(self.octets[at:at + 3], "big")
            if len(self.octets) - at < 9 + length:
                break
            kind, flags = self.octets[at + 3], self.octets[at + 4]
            stream = int.from_bytes(self.octets[at + 5:at + 9], "big")
            self.act(kind, flags, stream, self.octets[at + 9:at + 9 + length], now)
            at += 9 + length
        self.octets = self.octets[at:]

    def act(self, kind, flags, stream, payload, now):
        if kind == WINDOW_UPDATE and stream == 0:
            self.window += int.from_bytes(payload, "big")
        elif kind == WINDOW_UPDATE and stream in self.windows:
            self.windows[stream] += int.from_bytes(payload, "big")
        elif kind == PING and not flags & ACK:
            self.send(frame(PING, ACK, 0, payload))
        elif kind == GOAWAY and int.from_bytes(payload[4:8], "big") != 0:
            raise SystemExit(f"the server closed the connection with error {int.from_bytes(payload[4:8], 'big')}")
        elif stream in self.calls:
            call = self.calls[stream]
            if kind == DATA:
                call.take(payload, now)
            if kind == HEADERS and flags & END_STREAM:
                call.status, call.text = header(payload, b"grpc-status"), header(payload, b"grpc-message")
            if kind == RST_STREAM or kind in (DATA, HEADERS) and flags & END_STREAM:
                call.ended = now
                del self.calls[stream], self.windows[stream]

    def close(self):
        self.socket.close()


def dialled(address, seconds=10):
    """A connection over TCP to HOST:PORT, for which it waits this long where nobody listens yet."""
    host, _, port = address.rpartition(":")
    deadline = time.monotonic() + seconds
    while True:
        try:
            return connected((host.strip("[]"), int(port)))
        except (OSError, ValueError) as fault:
            if not isinstance(fault, ConnectionRefusedError) or time.monotonic() > deadline:
                raise SystemExit(f"nobody answers at {address}: {fault}") from None
            time.sleep(0.05)


def connected(address):
    """A connection over TCP."""
    stream = socket.create_connection(address)
    stream.setsockopt(socket.IPPROTO_TCP, socket.TCP_NODELAY, 1)
    return Connection(stream)


def ended(connection, method, message):
    """Makes a call with one message, waits for its end, and gives the call."""
    call = connection.call(method, message)
    while call.ended is None and not connection.closed:
        connection.take()
    return call


def answered(connection, method, message):
    """Makes a unary call, waits for its end, and gives its one message, or None where it was refused."""
    call = ended(connection, method, message)
    return call.messages[0] if call.messages else None


def take_until(connections, holds, seconds):
    """Takes what comes on these connections until something holds, or this many seconds have passed. Whether it holds."""
    deadline = time.monotonic() + seconds
    with selectors.DefaultSelector() as selector:
        for connection in connections:
            if not connection.closed:
                selector.register(connection.socket, selectors.EVENT_READ, connection)
        while not holds():
            left = deadline - time.monotonic()
            if left <= 0:
                return False
            for key, _ in selector.select(left):
                key.data.take()
                if key.data.closed:
                    selector.unregister(key.data.socket)
    return True


def is_listening(port):
    """Whether somebody listens at this port of this machine, by the kernel's table: to connect would be a session."""
    with open("/proc/net/tcp", encoding="ascii") as table:
        return any(line.split()[1].endswith(f":{port:04X}") and line.split()[3] == "0A" for line in list(table)[1:])


def free_port():
    with socket.socket() as probe:
        probe.bind(("127.0.0.1", 0))
        return probe.getsockname()[1]
