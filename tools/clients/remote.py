"""Calls of NFS version 3 and MOUNT over a TCP link of the loopback (RFC 1813, RFC 5531), for the parts that send what no real client sends."""
import os, random, socket, struct, threading, time

HOST = "127.0.0.1"
NFS, MOUNT = 100003, 100005
NULL, GETATTR, LOOKUP, READ, WRITE, CREATE, MKDIR = 0, 1, 3, 6, 7, 8, 9
MNT = 1


def number(value):
    return struct.pack(">I", value)


def opaque(data):
    return number(len(data)) + data + bytes(-len(data) % 4)


def text(value):
    return opaque(value.encode())


def attributes(mode):
    """What a new file or directory is to have: a mode, and nothing else."""
    return number(1) + number(mode) + bytes(20)


def call(xid, program, procedure, arguments=b"", uid=0):
    """A call as user and group `uid`, by AUTH_SYS."""
    body = number(0) + opaque(b"") + number(uid) + number(uid) + number(0)
    return struct.pack(">7I", xid, 0, 2, program, 3, procedure, 1) + opaque(body) + bytes(8) + arguments


def fragment(message, is_last=True):
    return number(len(message) | (0x80000000 if is_last else 0)) + message


class Closed(Exception):
    """The server closed the link."""


class Link:
    """A link to the server."""

    def __init__(self, port, timeout=20):
        self.socket = socket.create_connection((HOST, port), timeout)
        self.socket.setsockopt(socket.IPPROTO_TCP, socket.TCP_NODELAY, 1)
        self.xid = random.getrandbits(24)

    def send(self, data):
        self.socket.sendall(data)

    def take(self, count):
        data = b""
        while len(data) < count:
            piece = self.socket.recv(count - len(data))
            if not piece:
                raise Closed
            data += piece
        return data

    def reply(self):
        """The next message."""
        message = b""
        while True:
            (head,) = struct.unpack(">I", self.take(4))
            message += self.take(head & 0x7FFFFFFF)
            if head >> 31:
                return message

    def ask(self, program, procedure, arguments=b""):
        """The results of a call, after the head of an accepted reply."""
        self.xid += 1
        self.send(fragment(call(self.xid, program, procedure, arguments)))
        return results(self.xid, self.reply())

    def is_closed(self, within):
        """Whether the server closes the link within so many seconds, and sends nothing before."""
        self.socket.settimeout(within)
        try:
            return self.socket.recv(1) == b""
        except ConnectionResetError:
            return True
        except TimeoutError:
            return False

    def close(self):
        self.socket.close()

    def reset(self):
        """Closes the link at once, so that the server meets an error."""
        self.socket.setsockopt(socket.SOL_SOCKET, socket.SO_LINGER, struct.pack("ii", 1, 0))
        self.socket.close()

    # ---- calls

    def root(self):
        answer = self.ask(MOUNT, MNT, text("/"))
        return handle_in(answer[4:]) if status(answer) == 0 else None

    def getattr(self, handle):
        return status(self.ask(NFS, GETATTR, opaque(handle)))

    def mkdir(self, parent, name):
        return status(self.ask(NFS, MKDIR, opaque(parent) + text(name) + attributes(0o755)))

    def create(self, parent, name):
        """The handle of a new file."""
        answer = self.ask(NFS, CREATE, opaque(parent) + text(name) + number(0) + attributes(0o644))
        return handle_in(answer[8:]) if status(answer) == 0 else None

    def write(self, handle, offset, data):
        return status(self.ask(NFS, WRITE, write_arguments(handle, offset, data)))


def write_arguments(handle, offset, data):
    return opaque(handle) + struct.pack(">QII", offset, len(data), 2) + opaque(data)


def read_arguments(handle, offset, count):
    return opaque(handle) + struct.pack(">QI", offset, count)


def results(xid, message):
    if message[:4] != number(xid) or message[4:24] != number(1) + bytes(16):
        raise ValueError("a reply of another form: " + message[:40].hex())
    return message[24:]


def status(answer):
    return struct.unpack(">I", answer[:4])[0]


def handle_in(data):
    (count,) = struct.unpack(">I", data[:4])
    return data[4 : 4 + count]


class Neighbour(threading.Thread):
    """A client that behaves well beside others: a look at the root each 20 ms, and each tenth time a new directory. It keeps the longest
    time that a reply took, and what went wrong."""

    def __init__(self, port):
        super().__init__(daemon=True)
        self.link = Link(port)
        self.parent = self.link.root()
        self.replies, self.longest, self.wrong = 0, 0.0, None
        self.is_done = threading.Event()
        self.start()

    def run(self):
        prefix = os.urandom(4).hex()
        while not self.is_done.wait(0.02):
            begun = time.monotonic()
            try:
                is_change = self.replies % 10 == 9
                answer = self.link.mkdir(self.parent, f"{prefix}-{self.replies}") if is_change else self.link.getattr(self.parent)
            except (OSError, Closed, ValueError) as error:
                self.wrong = f"after {self.replies} replies: {type(error).__name__} {error}"
                return
            if answer != 0:
                self.wrong = f"status {answer} after {self.replies} replies"
                return
            self.longest = max(self.longest, time.monotonic() - begun)
            self.replies += 1

    def end(self):
        """Ends it, and says what went wrong, if anything did."""
        self.is_done.set()
        self.join(30)
        self.link.close()
        return self.wrong
