"""wireshark: what went over a link is taken apart by Wireshark (tshark): no message is malformed, and no byte is left over.

Two runs are looked at: that of libnfs (libnfs.py), through a relay that writes it down, and that of the kernel, where that part was run."""
import os, shutil, subprocess, tempfile

import libnfs
from capture import Relay
from served import Server

# What is asked of each packet with bytes of a link.
FIELDS = ["frame.number", "tcp.len", "rpc.fraglen", "rpc.msgtyp", "_ws.malformed", "data.len", "_ws.expert.group", "tcp.analysis.retransmission"]
# Groups of Wireshark's remarks: undecoded, malformed, reassembly, protocol. (Those on TCP's own course are another group.)
REMARKS = {"83886080", "117440512", "134217728", "150994944"}


def packets(path, port):
    """The packets with bytes of a link, each by its fields."""
    words = ["tshark", "-n", "-r", path, "-d", f"tcp.port=={port},rpc", "-o", "rpc.desegment_rpc_over_tcp:TRUE", "-Y", f"tcp.port == {port} && tcp.len > 0"]
    for it in FIELDS:
        words += ["-e", it]
    ran = subprocess.run([*words, "-T", "fields", "-E", "separator=|"], capture_output=True, text=True, timeout=1200)
    if ran.returncode:
        raise RuntimeError("tshark: " + ran.stderr.strip())
    return [dict(zip(FIELDS, line.split("|"))) for line in ran.stdout.splitlines()]


def wrong_with(packet):
    """What is wrong with a packet, if anything is."""
    if packet["_ws.malformed"]:
        return "malformed"
    if packet["data.len"]:
        return "bytes left over"
    if REMARKS & {str(int(it, 0)) for it in packet["_ws.expert.group"].split(",") if it}:
        return "a remark"
    return None


def numbers(packets, field):
    return [int(it, 0) for packet in packets for it in packet[field].split(",") if it]


def judged(path, port, what, say):
    """What is wrong with a capture: a packet, a byte that is in no message (each message has a header of four bytes), or a call without a reply."""
    found = packets(path, port)
    sent = sum(numbers([it for it in found if not it["tcp.analysis.retransmission"]], "tcp.len"))
    lengths, kinds = numbers(found, "rpc.fraglen"), numbers(found, "rpc.msgtyp")
    in_messages = sum(lengths) + 4 * len(lengths)
    wrong = [(packet["frame.number"], why) for packet in found if (why := wrong_with(packet))]
    say(f"  {what}: {kinds.count(0)} calls and {kinds.count(1)} replies in {len(found)} packets with {sent} bytes, of which {in_messages} are in messages")
    for number, why in wrong[:10]:
        say(f"    packet {number}: {why}")
    return [what] if wrong or sent != in_messages or not kinds or kinds.count(0) != kinds.count(1) else []


def part(program, say, captured, **_):
    if not shutil.which("tshark"):
        return "skipped, it needs tshark (Debian package tshark)"
    if not shutil.which("nfs-ls"):
        return "skipped, it needs nfs-ls, nfs-cp and nfs-cat (Debian package libnfs-utils)"
    wrong = []
    with Server(program) as server, tempfile.TemporaryDirectory(prefix="ivy-capture-") as work:
        server.wait_until_serving()
        relay = Relay(server.port, f"{work}/libnfs.pcap")
        libnfs.by_programs(relay.port, lambda _: None)
        libnfs.walk(relay.port, lambda _: None, 50)
        relay.close()
        wrong += judged(f"{work}/libnfs.pcap", server.port, "libnfs", say)
        server.end()
    if captured and os.path.exists(captured[0]):
        wrong += judged(*captured, "the kernel", say)
    return "failed, " + ", ".join(wrong) if wrong else "passed"
