"""bad input: what a server makes of garbage, of half messages, of clients that don't read, and of an outside that fails.

Each case ends as it should, and a client that behaves well beside it notices nothing: it keeps its link, and each of its replies comes
within NEIGHBOUR_SECONDS."""
import os, socket, struct, subprocess, time

from remote import HOST, NFS, NULL, READ, Closed, Link, Neighbour, call, fragment, read_arguments, results
from served import Server

NEIGHBOUR_SECONDS = 10
# How long a server may wait at its end for a client that doesn't read: some writes of 30 seconds, until one sends nothing. It took 97 s.
STUCK_SECONDS = 150
# A message is 65,536 bytes at most, and 16 links are served at once.
MOST_MESSAGE, MOST_LINKS = 65_536, 16


def null_call(xid=7):
    return fragment(call(xid, NFS, NULL))


def closes_at(port, data):
    """Sends the data, and says whether the server closes the link and sends nothing."""
    link = Link(port)
    link.send(data)
    closed = link.is_closed(10)
    link.close()
    return closed


def garbage(port):
    """Random bytes whose first four say that the message is too long."""
    return all(closes_at(port, b"\x7f" + os.urandom(4095)) for _ in range(20))


def no_call(port):
    """A whole message that is no call: random bytes, a reply, nothing at all."""
    reply = struct.pack(">6I", 7, 1, 0, 0, 0, 0)
    return all(closes_at(port, fragment(it)) for it in (b"\xff" * 100, os.urandom(8) + b"\xff" * 50, reply, b"", os.urandom(3)))


def too_long(port):
    """One byte more than a message may have."""
    return closes_at(port, struct.pack(">I", 0x80000000 | MOST_MESSAGE + 1))


def longest(port):
    """As many bytes as a message may have, which are read to the end: a call with that much after it is refused by a reply (GARBAGE_ARGS)."""
    link = Link(port)
    message = call(9, NFS, NULL)
    link.send(fragment(message + bytes(MOST_MESSAGE - len(message))))
    answer = link.reply()
    link.close()
    return answer == struct.pack(">6I", 9, 1, 0, 0, 0, 4)


def half_header(port):
    """Two bytes of a header, and then the end."""
    return half(port, null_call()[:2])


def half_message(port):
    """Each beginning of a message, and then the end."""
    return all(half(port, null_call()[:count]) for count in range(1, len(null_call())))


def half(port, data):
    link = Link(port)
    link.send(data)
    link.socket.shutdown(socket.SHUT_WR)
    closed = link.is_closed(10)
    link.close()
    return closed


def half_and_reset(port):
    """Half a message, and then the link is reset; a hundred times."""
    for _ in range(100):
        link = Link(port)
        link.send(null_call()[:20])
        link.reset()
    return True


def late_half(port):
    """Half a message, and the other half three seconds later."""
    link = Link(port)
    message = null_call(21)
    link.send(message[:30])
    time.sleep(3)
    link.send(message[30:])
    answer = results(21, link.reply())
    link.close()
    return answer == b""


def byte_by_byte(port):
    """A call that is sent byte by byte."""
    link = Link(port)
    for byte in null_call(22):
        link.send(bytes([byte]))
        time.sleep(0.001)
    answer = results(22, link.reply())
    link.close()
    return answer == b""


def many_fragments(port):
    """A call in fragments of one byte, with empty ones between."""
    message = call(23, NFS, NULL)
    link = Link(port)
    link.send(b"".join(fragment(bytes([it]), False) + fragment(b"", False) for it in message) + fragment(b""))
    answer = results(23, link.reply())
    link.close()
    return answer == b""


def other_programs(port):
    """Calls that are refused by a reply: another program, version or procedure, and a credential of another kind."""
    link = Link(port)
    said = []
    for words in ((7, 100227, 3, 0), (7, NFS, 4, 0), (7, NFS, 3, 22)):
        xid, program, version, procedure = words
        link.send(fragment(struct.pack(">6I", xid, 0, 2, program, version, procedure) + bytes(16)))
        said.append(struct.unpack(">I", link.reply()[20:24])[0])
    link.send(fragment(struct.pack(">6I", 7, 0, 2, NFS, 3, 1) + struct.pack(">2I", 6, 0) + bytes(8)))
    denied = link.reply() == struct.pack(">5I", 7, 1, 1, 1, 1)
    link.close()
    return said == [1, 2, 3] and denied


def stuck(port):
    """A link whose client asks for 8 KiB again and again and reads no reply, until nothing more can be sent for two seconds."""
    link = Link(port)
    file = link.create(link.root(), "much" + os.urandom(4).hex())
    if file is None or link.write(file, 0, bytes(8192)) != 0:
        raise ValueError("the file couldn't be made")
    asked = fragment(call(5, NFS, READ, read_arguments(file, 0, 8192))) * 20
    link.socket.setblocking(False)
    until, left, stuck_since = time.monotonic() + 60, asked, None
    while time.monotonic() < until and (stuck_since is None or time.monotonic() - stuck_since < 2):
        try:
            left = left[link.socket.send(left) :] or asked
            stuck_since = None
        except BlockingIOError:
            stuck_since = stuck_since or time.monotonic()
            time.sleep(0.01)
    if stuck_since is None:
        raise ValueError("the server took all that was asked for")
    return link


def stops_reading(port):
    """Three clients that ask and don't read, and then go."""
    links = [stuck(port) for _ in range(3)]
    for link in links:
        link.close()
    return True


def hundred_at_once(port):
    """A hundred links at once, each with one call: all get their reply, though 16 are served at once."""
    links = []
    for n in range(100):
        links.append(Link(port, timeout=60))
        links[-1].send(null_call(n))
    answered = 0
    for n, link in enumerate(links):
        answered += results(n, link.reply()) == b""
        link.close()
    return answered == 100


def silent_ones(port):
    """With the neighbour and 15 silent links all places are taken: a link more waits, and is served once a silent one goes."""
    silent = [Link(port) for _ in range(MOST_LINKS - 1)]
    for link in silent:
        link.ask(NFS, NULL)
    waiting = Link(port)
    waiting.send(null_call(30))
    has_waited = not waiting.is_closed(2)
    silent[7].close()
    waiting.socket.settimeout(20)
    answer = results(30, waiting.reply())
    for link in silent + [waiting]:
        link.close()
    return has_waited and answer == b""


CASES = [garbage, no_call, too_long, longest, half_header, half_message, half_and_reset, late_half, byte_by_byte, many_fragments, other_programs,
         stops_reading, hundred_at_once, silent_ones]


def beside_a_neighbour(program, say):
    """The cases at one server, one after the other, with a client that behaves well beside them."""
    wrong = []
    with Server(program) as server:
        server.wait_until_serving()
        neighbour = Neighbour(server.port)
        for case in CASES:
            begun = time.monotonic()
            try:
                how = "as it should" if case(server.port) else "OTHERWISE"
            except (OSError, Closed, ValueError) as error:
                how = f"OTHERWISE ({type(error).__name__} {error})"
            if how != "as it should":
                wrong.append(case.__name__)
            say(f"  {case.__name__}: {how}, {time.monotonic() - begun:.1f} s")
        trouble = neighbour.end()
        say(f"  the neighbour: {neighbour.replies} replies, the slowest after {neighbour.longest * 1000:.0f} ms" + (f"; {trouble}" if trouble else ""))
        if trouble or neighbour.longest > NEIGHBOUR_SECONDS or neighbour.replies == 0:
            wrong.append("the neighbour")
        ended = server.end()
        say(f"  then the end of its standard input: status {ended}")
        if ended != 0:
            wrong.append(f"status {ended} at the end")
    return wrong


def refused(program, say, what, **how):
    """A server that can't start: it says nothing, and ends with status 8."""
    with Server(program, sets="w4h5", **how) as server:
        ended = server.status()
        say(f"  {what}: status {ended}" + (f", and it said {server.said!r}" if server.said else ""))
        return [] if ended == 8 and not server.said else [what]


def outside(program, say):
    """What is outside fails: a port that is in use, a name that is, a folder that can't be written or that goes."""
    wrong = []
    with socket.socket() as taken:
        taken.bind((HOST, 0))
        taken.listen()
        wrong += refused(program, say, "a port in use", port=taken.getsockname()[1])
    with Server(program, sets="w4h5") as server:
        server.wait_until_serving()
        wrong += refused(program, say, "a NAME in use", folder=server.folder)
        link = Link(server.port)
        parent = link.root()
        first = link.mkdir(parent, "before")
        # The server's folder goes, so no save succeeds any more.
        os.remove(server.keeper())
        os.rmdir(server.folder)
        second, third = link.mkdir(parent, "after"), link.getattr(parent)
        link.close()
        say(f"  a folder that goes: MKDIR before gives {first}, after it {second} (10006 is SERVERFAULT), GETATTR {third}")
        if (first, second, third) != (0, 10006, 0):
            wrong.append("a folder that goes")
        say(f"  then the end of its standard input: status {server.end()}")
    wrong += refused(program, say, "a folder that can't be written", folder="/proc")
    wrong += refused(program, say, "a file that can't grow", most_file_bytes=16)
    return wrong


def ends(program, say, what, open_links, within=5):
    """A server whose standard input ends while links are open, which stay open. It ends so many seconds later at most, with status 0."""
    with Server(program, sets="w4h10") as server:
        links = open_links(server.wait_until_serving().port)
        server.process.stdin.close()
        begun = time.monotonic()
        try:
            status = server.status(within)
            how = f"it ends after {time.monotonic() - begun:.1f} s with status {status}"
        except subprocess.TimeoutExpired:
            how = f"it doesn't end within {within} s"
        for link in links:
            link.close()
        say(f"  {what}: {how}")
        return [] if how.endswith("status 0") else [what]


def silent(port, count):
    links = [Link(port) for _ in range(count)]
    for link in links:
        link.ask(NFS, NULL)
    return links


def end_of_input(program, say):
    wrong = ends(program, say, "the end with a silent link and half a message", lambda port: silent(port, 2) + [half_sent(port)])
    wrong += ends(program, say, "the end with 16 silent links", lambda port: silent(port, MOST_LINKS))
    return wrong + ends(program, say, "the end with a client that doesn't read", lambda port: [stuck(port)], within=STUCK_SECONDS)


def half_sent(port):
    link = Link(port)
    link.send(null_call()[:20])
    return link


def part(program, say, **_):
    wrong = beside_a_neighbour(program, say) + outside(program, say) + end_of_input(program, say)
    return "passed" if not wrong else "failed " + ", ".join(wrong)
