"""Writes what goes over a TCP link between two ports of the loopback as a capture (pcap), which Wireshark reads. It needs no rights, since it
stands between the two: a client connects to `Relay.port`."""
import contextlib, socket, struct, threading, time

HOST = "127.0.0.1"
# How many bytes of a stream go into one packet, at most.
PIECE = 32_000
RAW_IP = 101


class Capture:
    """A file of packets."""

    def __init__(self, path):
        self.file, self.lock = open(path, "wb"), threading.Lock()
        self.file.write(struct.pack("<IHHiIII", 0xA1B2C3D4, 2, 4, 0, 0, 262_144, RAW_IP))

    def write(self, packet):
        now = time.time_ns()
        with self.lock:
            self.file.write(struct.pack("<IIII", now // 10**9, now % 10**9 // 1000, len(packet), len(packet)) + packet)

    def close(self):
        with self.lock:
            self.file.close()


class Ends:
    """The two ends of a link, as their packets are written: the client's port, the server's, how much each sent, and what of it isn't whole yet."""

    def __init__(self, capture, client, server):
        self.capture, self.ports, self.sent, self.waiting = capture, (client, server), [0, 0], [b"", b""]
        self.lock = threading.Lock()
        for end, flags in ((0, 0x02), (1, 0x12)):
            self.packet(end, flags, b"")
            self.sent[end] += 1

    def packet(self, end, flags, data):
        """From end 0, the client, or 1, the server."""
        here, there = self.ports[end], self.ports[1 - end]
        segment = struct.pack(">HHIIBBHHH", here, there, self.sent[end], self.sent[1 - end], 0x50, flags, 65_535, 0, 0) + data
        address = socket.inet_aton(HOST)
        header = struct.pack(">BBHHHBBH4s4s", 0x45, 0, 20 + len(segment), 0, 0, 64, 6, 0, address, address)
        self.capture.write(header + segment)

    def send(self, end, data):
        """Writes what has come whole: a packet begins where a fragment of RPC does (RFC 5531, section 11), since Wireshark loses its way where the
        header of a fragment is spread over two packets."""
        with self.lock:
            waiting = self.waiting[end] + data
            while len(waiting) >= 4 and len(waiting) >= (length := 4 + (int.from_bytes(waiting[:4], "big") & 0x7FFF_FFFF)):
                self.write(end, waiting[:length])
                waiting = waiting[length:]
            self.waiting[end] = waiting

    def write(self, end, data):
        for at in range(0, len(data), PIECE):
            self.packet(end, 0x18, data[at : at + PIECE])
            self.sent[end] += len(data[at : at + PIECE])

    def finish(self, end):
        with self.lock:
            self.write(end, self.waiting[end])
            self.packet(end, 0x11, b"")
            self.sent[end] += 1


class Relay:
    """Hands on each link to its port to the server, and writes what goes over it."""

    def __init__(self, server, path):
        self.server, self.capture, self.threads = server, Capture(path), []
        self.listener = socket.create_server((HOST, 0))
        self.port = self.listener.getsockname()[1]
        threading.Thread(target=self.accept, daemon=True).start()

    def accept(self):
        while True:
            try:
                client, name = self.listener.accept()
            except OSError:
                return
            server = socket.create_connection((HOST, self.server))
            ends = Ends(self.capture, name[1], self.server)
            for end, reads, writes in ((0, client, server), (1, server, client)):
                self.threads.append(threading.Thread(target=self.hand_on, args=(ends, end, reads, writes), daemon=True))
                self.threads[-1].start()

    def hand_on(self, ends, end, reads, writes):
        # (who reset the link has gone from it too)
        with contextlib.suppress(OSError):
            while data := reads.recv(PIECE):
                ends.send(end, data)
                writes.sendall(data)
        ends.finish(end)
        with contextlib.suppress(OSError):
            writes.shutdown(socket.SHUT_WR)

    def close(self):
        self.listener.close()
        for it in self.threads:
            it.join(10)
        self.capture.close()
