"""killed: the server is killed at a random moment under load, again and again, and the keeper's file is looked at each time.

The file NAME holds how many signatures were made (`IVK1`, then the signer: identifier, seed, sets, the number). A head leaves the process
only after a save that counts it. So each time:
- the number is at least one (the log's opening) and one for each change that a client was answered with success;
- it is at most one and one for each change that was sent;
- of all heads in all versions of the file that were seen, no leaf signs two;
- a start with the same NAME is refused, with status 8."""
import os, random, select, socket, struct, time

from remote import HOST, MKDIR, NFS, Link, attributes, call, fragment, opaque, text
from served import Server

LINKS, DEPTH = 4, 4
# How long after the first change a server is killed, at most; and how many of ten are killed while they start.
MOST_SECONDS, WHILE_STARTING = 0.6, 1
# What a key `w4h10` signs.
LEAVES = 1024
HEAD = 2


class Reader:
    """Reads the parts of a keeper's file (XDR)."""

    def __init__(self, data):
        self.data, self.at = data, 0

    def take(self, count):
        if self.at + count > len(self.data):
            raise ValueError("the file ends early")
        self.at += count
        return self.data[self.at - count : self.at]

    def number(self):
        return struct.unpack(">I", self.take(4))[0]

    def opaque(self):
        count = self.number()
        data = self.take(count)
        self.take(-count % 4)
        return data


def signatures_made(signer):
    """The number in the saved bytes of a signer."""
    read = Reader(signer)
    read.take(16 + 32)
    read.take(8 * read.number())
    return struct.unpack(">Q", read.take(8))[0]


def read_keeper(data):
    """How many signatures were made, and the heads that are still to be published: each the leaf that signs it and the message."""
    read = Reader(data)
    if read.take(4) != b"IVK1":
        raise ValueError("no keeper's file")
    made = signatures_made(read.opaque())
    read.opaque()
    read.number()
    for _ in range(read.number()):
        read.take(20 + 4 + 20)
    heads = []
    for _ in range(read.number()):
        kind, _, block = read.number(), read.take(20), read.opaque()
        if kind == HEAD:
            heads.append(head_of(block))
    return made, heads


def head_of(block):
    """The leaf numbers of a head's signature, from the top down, and the message (the first 88 bytes)."""
    signature = Reader(block[88:]).opaque()
    read = Reader(signature)
    levels = read.number()
    leaves = []
    for level in range(levels + 1):
        leaves.append(read.number())
        width = {3: 67, 4: 34}[read.number()]
        read.take(32 + 32 * width)
        height = {5: 5, 6: 10}[read.number()]
        read.take(32 * height)
        if level < levels:
            read.take(56)
    return tuple(leaves), block[:88]


class Load:
    """Changes on several links at once, and how many were sent, and answered with success."""

    def __init__(self, port):
        self.sent = self.answered = 0
        first = Link(port)
        self.parent = first.root()
        first.close()
        self.links = [socket.create_connection((HOST, port)) for _ in range(LINKS)]
        self.waiting = {it: b"" for it in self.links}
        self.prefix = os.urandom(4).hex()
        for it in self.links:
            it.settimeout(5)
            for _ in range(DEPTH):
                self.send(it)

    def send(self, link):
        self.sent += 1
        name = f"{self.prefix}-{self.sent}"
        link.sendall(fragment(call(self.sent, NFS, MKDIR, opaque(self.parent) + text(name) + attributes(0o755))))

    def turn(self, within):
        """Takes the replies that have come, and sends a change for each; false where the server is gone."""
        for link in select.select(self.links, [], [], within)[0]:
            try:
                data = link.recv(65536)
                if not data:
                    return False
                self.waiting[link] += data
                for reply in self.whole_replies(link):
                    self.answered += reply[24:28] == bytes(4)
                    self.send(link)
            except OSError:
                return False
        return True

    def whole_replies(self, link):
        data = self.waiting[link]
        while len(data) >= 4:
            count = struct.unpack(">I", data[:4])[0] & 0x7FFFFFFF
            if len(data) < 4 + count:
                break
            yield data[4 : 4 + count]
            data = data[4 + count :]
        self.waiting[link] = data

    def close(self):
        """Takes what was sent before the server went, too."""
        for link in self.links:
            try:
                while data := link.recv(65536):
                    self.waiting[link] += data
            except OSError:
                pass
            self.answered += sum(reply[24:28] == bytes(4) for reply in self.whole_replies(link))
            link.close()


class Leaves:
    """Which message each leaf signed, in the heads that were seen."""

    def __init__(self):
        self.signed, self.twice, self.versions = {}, 0, 0

    def look(self, path):
        """Reads the file as it stands, and gives the signatures made; none where nothing was saved yet."""
        with open(path, "rb") as file:
            data = file.read()
        if not data:
            return None
        made, heads = read_keeper(data)
        self.versions += 1
        for leaf, message in heads:
            self.twice += self.signed.setdefault(leaf, message) != message
        return made


def killed_under_load(server, leaves):
    """Loads the server, kills it, and says what was sent and answered."""
    load = Load(server.wait_until_serving().port)
    until = time.monotonic() + random.uniform(0, MOST_SECONDS)
    while time.monotonic() < until and load.turn(0.002):
        leaves.look(server.keeper())
    server.kill()
    load.close()
    return load.sent, load.answered


def once(program, usual_seconds, is_while_starting):
    """A server from its start to its violent end, and what is wrong with what it left."""
    leaves = Leaves()
    sent = answered = 0
    with Server(program, sets="w4h10") as server:
        if is_while_starting:
            time.sleep(random.uniform(0, usual_seconds))
            server.kill()
        else:
            sent, answered = killed_under_load(server, leaves)
        if not os.path.exists(server.keeper()):
            return leaves, sent, answered, None if is_while_starting else "there is no file NAME"
        made = leaves.look(server.keeper()) or 0
        if not is_while_starting and not 1 + answered <= made <= min(1 + sent, LEAVES):
            return leaves, sent, answered, f"{answered} of {sent} changes were answered with success, and {made} signatures are counted"
        if leaves.twice:
            return leaves, sent, answered, f"{leaves.twice} leaves sign two heads"
        with Server(program, sets="w4h5", folder=server.folder) as again:
            ended = again.status()
        if ended != 8:
            return leaves, sent, answered, f"a start with the same NAME ended with status {ended}"
    return leaves, sent, answered, None


def part(program, say, kills, **_):
    with Server(program, sets="w4h10") as server:
        usual = server.wait_until_serving().took
    wrong, sent, answered, seen, files = [], 0, 0, 0, 0
    for n in range(kills):
        leaves, more_sent, more_answered, why = once(program, usual, n % 10 < WHILE_STARTING)
        sent, answered, seen, files = sent + more_sent, answered + more_answered, seen + len(leaves.signed), files + leaves.versions
        if why:
            wrong.append(f"kill {n + 1}: {why}")
            say("  " + wrong[-1])
    say(f"  {kills} kills: {sent} changes sent, {answered} answered with success, {files} versions of the file read, {seen} heads in them")
    return "passed" if not wrong else f"failed {len(wrong)} of {kills} kills"
