"""kernel: a Linux kernel's client in a virtual machine (qemu, software emulation) mounts the server, and does in it what it does in a
directory of its own memory (guest/commands); both must be the same."""
import os, shutil, subprocess, tempfile, time

from capture import Relay
from served import Server

HERE = os.path.dirname(os.path.realpath(__file__))
NEEDS = {"qemu-system-x86_64": "qemu-system-x86", "busybox": "busybox-static", "cpio": "cpio", "dpkg": "dpkg", "apt-get": "apt"}
MEMORY = "1024"
# How long the guest's commands may take, and the guest in all.
COMMAND_SECONDS, GUEST_SECONDS = 2400, 2700
# A file NAME fits into this where a directory is made, and not where 8 KiB are written.
FULL_BYTES = 8000


def lacking():
    return [f"{it} (Debian package {NEEDS[it]})" for it in NEEDS if not shutil.which(it)]


def made(room):
    """The folder with the kernel and the guest's files, which are made once; none where that fails."""
    folder = os.path.join(room, "guest")
    if not os.path.exists(f"{folder}/base.cpio"):
        if subprocess.run([f"{HERE}/guest/make", folder], stdout=subprocess.DEVNULL).returncode:
            return None
    return folder


def image(folder, work, commands, ports):
    """The guest's files: those that are always the same, and after them what this run is to do."""
    os.mkdir(f"{work}/more")
    shutil.copy(commands, f"{work}/more/commands")
    with open(f"{work}/more/settings", "w") as file:
        file.write("".join(f"{name}={port}\n" for name, port in ports.items()) + f"LIMIT={COMMAND_SECONDS}\n")
    # (the scripts are taken again, so that an edit of them counts)
    for it in ("init", "mounting"):
        shutil.copy(f"{HERE}/guest/{it}", f"{work}/more/{it}")
    os.chmod(f"{work}/more/init", 0o755)
    packed = f"(cat '{folder}/base.cpio'; cd '{work}/more' && find . -type f | cpio -o -H newc --quiet -R 0:0) | gzip -1 > '{work}/initrd'"
    subprocess.run(["sh", "-c", packed], check=True)


def console(folder, commands, ports):
    """Runs the guest, and gives what it wrote on its console."""
    with tempfile.TemporaryDirectory(prefix="ivy-guest-") as work:
        image(folder, work, commands, ports)
        words = ["qemu-system-x86_64", "-accel", "tcg,thread=multi", "-cpu", "max", "-smp", "1", "-m", MEMORY, "-nodefaults", "-no-reboot"]
        words += ["-display", "none", "-serial", f"file:{work}/console", "-kernel", f"{folder}/vmlinuz", "-initrd", f"{work}/initrd"]
        words += ["-append", "console=ttyS0 quiet panic=-1 tsc=unstable mitigations=off random.trust_cpu=on"]
        # (10.0.2.2 is the guest's name for the loopback of this machine)
        words += ["-netdev", "user,id=n,ipv6=off,dhcpstart=10.0.2.15", "-device", "virtio-net-pci,netdev=n,romfile="]
        try:
            subprocess.run(words, stdin=subprocess.DEVNULL, timeout=GUEST_SECONDS)
        except subprocess.TimeoutExpired:
            pass
        with open(f"{work}/console", errors="replace") as file:
            return file.read().replace("\r", "")


def part(program, say, room, capture, captured, commands=f"{HERE}/guest/commands", **_):
    if lacking():
        return "skipped, it needs " + ", ".join(lacking())
    folder = made(room)
    if folder is None:
        return "skipped, there is no kernel for the guest (guest/make)"
    with Server(program) as server, Server(program, sets="w4h5") as spent, Server(program, sets="w4h10", most_file_bytes=FULL_BYTES) as full:
        ports = {name: it.wait_until_serving().port for name, it in (("PORT", server), ("SPENT", spent), ("FULL", full))}
        # Where Wireshark is to see it, a relay stands between the guest and the first server, and writes down what goes over their links.
        relay = Relay(server.port, capture) if capture else None
        ports["PORT"] = relay.port if relay else server.port
        begun = time.monotonic()
        said = console(folder, commands, ports)
        if relay:
            relay.close()
            captured += [capture, server.port]
        ended = server.end()
    lines = said.split("@@begin\n", 1)[-1].split("\n")
    for line in lines:
        if line.strip():
            say("  " + line)
    say(f"  {time.monotonic() - begun:.0f} s for the guest in all; the server ended with status {ended}")
    return verdict(lines, ended)


def verdict(lines, ended):
    same, different = (sum(line.startswith(it) for line in lines) for it in ("same: ", "DIFFERENT: "))
    end = [line for line in lines if line.startswith("@@end ")]
    if not end:
        return "failed, the guest didn't come to its end"
    if end[0] == "@@end 99":
        return "failed, no mount"
    if different or same < 4:
        return f"failed, {different} of {same + different} comparisons differ, and there should be 4"
    if end[0] != "@@end 0":
        return f"failed, the commands ended otherwise ({end[0]}; 137 is that they took more than {COMMAND_SECONDS} s)"
    return "passed" if ended == 0 else f"failed, the server ended with status {ended}"
