"""What the benches share: the processor time and the peak memory of a program, and how a time for each item grows with the input.

As a script, with a file and the words of a program, it runs that program and writes into the file what it took. A bench that holds much memory
starts its programs so, since a process begins with its parent's peak memory.
"""
import json
import os
import resource
import subprocess
import sys
import tempfile
import time

RUNS = 5


class Measured:
    """A run's processor time and its time on the clock in seconds, its peak memory in bytes, and what it wrote on its output and on its standard error."""

    def __init__(self, used, clock, memory, output, errors):
        self.used, self.clock, self.memory, self.output, self.errors = used, clock, memory, output, errors


def processor_time(ran):
    return ran.used


def clock_time(ran):
    return ran.clock


def run(words, given, keep=True):
    """Runs a program on a file. What it writes on its output is kept, or thrown away where it would be too much."""
    given.seek(0)
    with tempfile.NamedTemporaryFile("r") as taken:
        output = subprocess.PIPE if keep else subprocess.DEVNULL
        ran = subprocess.run([sys.executable, __file__, taken.name] + words, stdin=given, stdout=output, stderr=subprocess.PIPE)
        if ran.returncode != 0:
            sys.stderr.write(ran.stderr.decode())
            ran.check_returncode()
        return Measured(*json.load(taken), ran.stdout.decode() if keep else "", ran.stderr.decode())


def take(result, words):
    """Runs a program, and writes its processor time, its time on the clock and its peak memory."""
    begun = time.monotonic()
    status = subprocess.run(words).returncode
    clock, usage = time.monotonic() - begun, resource.getrusage(resource.RUSAGE_CHILDREN)
    with open(result, "w") as file:
        json.dump([usage.ru_utime + usage.ru_stime, clock, 1024 * usage.ru_maxrss], file)
    sys.exit(status)


def measure(words, text="", runs=RUNS, by=processor_time, keep=True):
    """Runs a program some times on an input: the run that took the least time, of the processor if nothing else is said."""
    with tempfile.TemporaryFile() as given:
        given.write(text.encode())
        given.flush()
        return min((run(words, given, keep) for _ in range(runs)), key=by)


def bird_time(bird, text):
    """What is said of the time of `bird -p` on a text; nothing where BIRD isn't installed."""
    if bird is None:
        return ""
    with tempfile.TemporaryDirectory() as folder:
        path = os.path.join(folder, "text")
        with open(path, "w") as file:
            file.write(text)
        return "; bird -p: %.3f s" % measure([bird, "-p", "-c", path]).used


def growth(what, item, each, most):
    """Says how the time for each item grows from the least input to the greatest; whether that is more than it may be."""
    ratio = each[-1] / each[0]
    print("%s: from the least to the greatest %.2f times a %s (less than %.1f wanted)" % (what, ratio, item, most))
    return ratio >= most


def address(value):
    """The IPv4 address of a number."""
    return "%d.%d.%d.%d" % (value >> 24, value >> 16 & 255, value >> 8 & 255, value & 255)


def dump(rows):
    """The dump of these rows."""
    return "ixp-registry 2\n%s\nend %d\n" % ("\n".join(rows), len(rows))


def exchange(lists, rules=()):
    """The rows of an exchange on one VLAN with one router, whose members have these lists of prefixes, and these rules."""
    numbers = range(1, len(lists) + 1)
    rows = ["site 1 0 BENCH"]
    rows += ["member %d %d connected - m%d" % (k, 100000 + k, k) for k in numbers]
    rows.append("switch 1 sw1")
    rows += ["port %d 1 10000 %d p%d" % (k, k, k) for k in numbers]
    rows.append("vlan 1 100 10.0.0.0/8 - lan")
    rows += ["interface %d %d %d 1" % (k, k, k) for k in numbers]
    rows += ["address %d %s 0 1 1 0 -" % (k, address((10 << 24) + (64 << 16) + k)) for k in numbers]
    rows.append("router rs1 1 4 10.255.0.1 65500 10.255.0.1 8 24 0 - 0")
    rows += ["prefix %d %s" % (k, net) for k, nets in zip(numbers, lists) for net in nets]
    rows += ["origin %d 4 %d" % (k, 100000 + k) for k in numbers]
    return rows + list(rules)


def end(grows):
    """Ends with status 1 where a time grows too much."""
    sys.exit(1 if any(grows) else 0)


if __name__ == "__main__":
    take(sys.argv[1], sys.argv[2:])
