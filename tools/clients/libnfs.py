"""libnfs: a client that is no kernel. Its programs nfs-ls, nfs-cp and nfs-cat, and a walk through the operations (operations.c) whose every
result is checked."""
import os, shutil, subprocess, tempfile

from served import Server

HERE = os.path.dirname(os.path.realpath(__file__))
PROGRAMS = ["nfs-ls", "nfs-cp", "nfs-cat"]
ENTRIES = 200


def address(port, path="/"):
    return f"nfs://127.0.0.1/{path}?version=3&nfsport={port}&mountport={port}&uid=0&gid=0"


def ran(words, within=120, **how):
    return subprocess.run(words, stdin=subprocess.DEVNULL, stdout=subprocess.PIPE, stderr=subprocess.STDOUT, timeout=within, **how)


def walk(port, say, entries=ENTRIES):
    """The walk through the operations; none where it can't be compiled here."""
    with tempfile.TemporaryDirectory(prefix="ivy-libnfs-") as work:
        made = ran(["gcc", "-O1", "-o", f"{work}/operations", f"{HERE}/operations.c", "-lnfs"]) if shutil.which("gcc") else None
        if made is None or made.returncode:
            say("  the walk isn't made: it needs gcc and libnfs-dev")
            return None
        walked = ran([f"{work}/operations", address(port, ""), str(entries)], 300)
        lines = walked.stdout.decode(errors="replace").splitlines()
        for line in lines if walked.returncode else lines[-1:]:
            say("  " + line)
        return walked.returncode == 0


def by_programs(port, say):
    """A file of 300,000 bytes is copied there by nfs-cp, listed by nfs-ls and read by nfs-cat."""
    with tempfile.NamedTemporaryFile() as file:
        data = os.urandom(300_000)
        file.write(data)
        file.flush()
        copied = ran(["nfs-cp", file.name, address(port, "/copied")])
        listed = ran(["nfs-ls", address(port, "")])
        read = ran(["nfs-cat", address(port, "/copied")])
    say("  nfs-cp: " + copied.stdout.decode(errors="replace").strip())
    say("  nfs-ls: " + listed.stdout.decode(errors="replace").strip())
    say(f"  nfs-cat: {len(read.stdout)} bytes, {'the same' if read.stdout == data else 'OTHERS'}")
    return copied.returncode == 0 and b"300000 copied" in listed.stdout and read.stdout == data


def part(program, say, **_):
    lacking = [it for it in PROGRAMS if not shutil.which(it)]
    if lacking:
        return f"skipped, it needs {', '.join(lacking)} (Debian package libnfs-utils)"
    with Server(program) as server:
        server.wait_until_serving()
        is_copied, is_walked = by_programs(server.port, say), walk(server.port, say)
        ended = server.end()
    if ended != 0:
        return f"failed, the server ended with status {ended}"
    if not is_copied:
        return "failed, the file isn't what was copied"
    return "failed, the walk met something else" if is_walked is False else "passed"
