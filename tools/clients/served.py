"""`ivy serve` as a process: a fresh NAME, ID and SEED in a folder of its own, on a free port of the loopback."""
import os, resource, secrets, shutil, signal, socket, subprocess, tempfile, threading, time

HOST = "127.0.0.1"
# How long a server may take to grow its key and to listen: a build without a proof isn't optimized.
START_SECONDS = 240


def free_port():
    with socket.socket() as it:
        it.bind((HOST, 0))
        return it.getsockname()[1]


class Server:
    """A server, which has been started. It is stopped by `end` or `kill`, and its folder goes by `remove`."""

    def __init__(self, program, sets="w4h10,w4h10", folder=None, name="keeper", port=None, most_file_bytes=None):
        self.folder = folder or tempfile.mkdtemp(prefix="ivy-served-")
        self.is_own = folder is None
        self.name, self.port = name, port or free_port()
        words = [program, "serve", str(self.port), name, secrets.token_hex(16), secrets.token_hex(32), sets]

        def limited():
            if most_file_bytes is not None:
                # (a write beyond the limit fails then, in place of ending the process)
                signal.signal(signal.SIGXFSZ, signal.SIG_IGN)
                resource.setrlimit(resource.RLIMIT_FSIZE, (most_file_bytes, most_file_bytes))

        how = {"cwd": self.folder, "stdin": subprocess.PIPE, "stdout": subprocess.PIPE, "stderr": subprocess.STDOUT, "preexec_fn": limited}
        self.begun = time.monotonic()
        self.process = subprocess.Popen(words, **how)
        self.said = b""
        self.is_serving = threading.Event()
        self.took = None
        self.reader = threading.Thread(target=self.listen, daemon=True)
        self.reader.start()

    def listen(self):
        for line in self.process.stdout:
            self.said += line
            if line == b"serving %d\n" % self.port:
                self.took = time.monotonic() - self.begun
                self.is_serving.set()
        self.process.stdout.close()

    def wait_until_serving(self):
        """Waits for the line `serving PORT`. It is an error where the process ends before."""
        until = time.monotonic() + START_SECONDS
        while not self.is_serving.wait(0.05):
            if self.process.poll() is not None:
                raise RuntimeError(f"the server ended with status {self.process.returncode}: {self.said.decode(errors='replace').strip()}")
            if time.monotonic() > until:
                raise RuntimeError(f"the server didn't serve within {START_SECONDS} s")
        return self

    def status(self, within=START_SECONDS):
        """The status that the process ends with."""
        return self.process.wait(within)

    def end(self):
        """Ends standard input, and gives the status."""
        if self.process.poll() is None:
            self.process.stdin.close()
        try:
            return self.status(30)
        except subprocess.TimeoutExpired:
            self.kill()
            return "none within 30 s"

    def kill(self):
        self.process.kill()
        self.process.wait()
        self.reader.join(5)

    def remove(self):
        if self.process.poll() is None:
            self.kill()
        if self.process.stdin and not self.process.stdin.closed:
            self.process.stdin.close()
        if self.is_own:
            shutil.rmtree(self.folder, ignore_errors=True)

    def __enter__(self):
        return self

    def __exit__(self, *_):
        self.remove()

    def keeper(self):
        return os.path.join(self.folder, self.name)
