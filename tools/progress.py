"""The progress of a build, and the commands that it runs."""
import subprocess
import sys
import threading
import time


class Progress:
    """The progress of the proofs."""

    def __init__(self, crates):
        self.crates, self.done, self.start = crates, [], time.time()
        self.ended = threading.Event()

    def report(self):
        waiting = [it for it in self.crates if it not in self.done]
        ready = [it for it in waiting if all(below in self.done for below in self.crates[it])]
        what = f"now {', '.join(ready)}" if ready else "compiling"
        minutes = (time.time() - self.start) / 60
        print(f"eros: {len(self.done)} of {len(self.crates)} crates proved, {minutes:.1f} minutes, {what}", file=sys.stderr, flush=True)

    def tick(self):
        while not self.ended.wait(30):
            self.report()

    def read(self, line):
        """Takes a line of the proofs' output."""
        words = line.split()
        is_done = words[:1] == ["rt:"] and (words[2:] == ["proved"] or words[2:4] == ["is", "kept:"])
        if is_done and words[1] in self.crates and words[1] not in self.done:
            self.done.append(words[1])
            self.report()


def run(words, folder, take=lambda line: None, environment=None):
    """Runs a command, in another environment if one is given, and passes its lines to `take`. If it fails, prints its output and ends the
    program."""
    said = []
    how = {"stdin": subprocess.DEVNULL, "stdout": subprocess.PIPE, "stderr": subprocess.STDOUT, "text": True, "errors": "replace", "env": environment}
    with subprocess.Popen(words, cwd=folder, **how) as running:
        for line in running.stdout:
            said.append(line)
            take(line)
    if running.returncode:
        print("".join(said), file=sys.stderr)
        sys.exit(1)
