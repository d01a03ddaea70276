"""What the benches of `ixpm serve` share: a server from its start to its end, links to it, clients in processes of their own, and a table of figures."""
import multiprocessing
import os
import socket
import subprocess
import time

FORK = multiprocessing.get_context("fork")
SECONDS = 120


def secret(owner):
    """The secret of a staff account's key."""
    return "staff%011d" % owner


def with_keys(rows, members, owners):
    """The rows of an exchange of so many members, with a key of each of the staff accounts from 1 on."""
    keys = ["key %d staff %d %s" % (k, k, secret(k)) for k in range(1, owners + 1)]
    return rows[:1 + members] + keys + rows[1 + members:]


def request(line, number=None, body=None, owner=1):
    """The bytes of a request of a staff account."""
    head = "%s HTTP/1.1\r\nHost: localhost\r\nX-IXP-Manager-API-Key: %s\r\n" % (line, secret(owner))
    if number is not None:
        head += "X-Request-Number: %d\r\n" % number
    if body is not None:
        head += "Content-Length: %d\r\n" % len(body)
    return (head + "\r\n" + (body or "")).encode()


def rule(peer):
    """A list of rules with one, by which a member's routes are prepended towards a peer. The peer's number stands in a dump and in a configuration."""
    return '[{"way":"advertise","peer":%d,"prefix":null,"action":"prepend1"}]' % peer


def rule_row(member, peer):
    """The row of that rule in a dump."""
    return "rule %d 1 advertise %d * prepend1" % (member, peer)


class Link:
    """A connection that is kept. Its replies have a length."""

    def __init__(self, port):
        self.socket = socket.create_connection(("127.0.0.1", port), timeout=SECONDS)
        self.socket.setsockopt(socket.IPPROTO_TCP, socket.TCP_NODELAY, 1)

    def ask(self, line, number=None, body=None, owner=1):
        """Sends a request: the status and the body of the reply."""
        self.socket.sendall(request(line, number, body, owner))
        return self.reply()

    def edit(self, member, number, peer, owner=1):
        """Sets a member's rules; whether that is done."""
        status, body = self.ask("PUT /members/%d/rules" % member, number, rule(peer), owner)
        return status == 201 and body == b'{"done":%d}' % number

    def reply(self):
        held = b""
        while b"\r\n\r\n" not in held:
            held += self.some()
        head, held = held.split(b"\r\n\r\n", 1)
        fields = dict(it.lower().split(b": ", 1) for it in head.split(b"\r\n")[1:])
        body, at = bytearray(int(fields[b"content-length"])), len(held)
        body[:at] = held
        with memoryview(body) as room:
            while at < len(body):
                count = self.socket.recv_into(room[at:])
                if count == 0:
                    raise ConnectionError("the server has closed the link inside a reply")
                at += count
        return int(head.split(b" ")[1]), bytes(body)

    def some(self):
        taken = self.socket.recv(65536)
        if not taken:
            raise ConnectionError("the server has closed the link")
        return taken

    def close(self):
        self.socket.close()


class Table:
    """What was measured, row by row; whether all bounds are met."""

    def __init__(self):
        self.met = True
        self.row("what", "figure", "beside it", "wanted", "")

    def row(self, what, figure, beside, wanted, result):
        print(("%-55s %-24s %-31s %-27s %s" % (what, figure, beside, wanted, result)).rstrip(), flush=True)

    def add(self, what, figure, beside, wanted, met):
        self.met &= met is not False
        self.row(what, figure, beside, wanted, {True: "ok", False: "failed", None: "-"}[met])


def free_port():
    with socket.create_server(("127.0.0.1", 0)) as it:
        return it.getsockname()[1]


class Server:
    """`ixpm serve` over the store of a folder, from its start to SIGTERM. Its `started` is how many seconds passed before its first reply. With a port for
    routers it gives them the registry's ROAs."""

    def __init__(self, program, folder, workers=8, rtr=None):
        self.port, begun = free_port(), time.monotonic()
        words = [program, "serve", str(self.port), str(workers), "1000000"] + ([] if rtr is None else ["rtr", str(rtr), "1000000"])
        self.process = subprocess.Popen(words, cwd=folder, stdout=subprocess.DEVNULL)
        try:
            link = self.first_link(begun + SECONDS)
            link.ask("GET /members/1")
            self.started = time.monotonic() - begun
            link.close()
        except BaseException:
            self.stop()
            raise

    def first_link(self, end):
        """A link, as soon as the server listens."""
        while self.process.poll() is None and time.monotonic() < end:
            try:
                return Link(self.port)
            except ConnectionRefusedError:
                time.sleep(0.002)
        raise SystemExit("the server doesn't listen")

    def resident(self):
        """The bytes of memory that it has now."""
        with open("/proc/%d/status" % self.process.pid) as file:
            return 1024 * next(int(line.split()[1]) for line in file if line.startswith("VmRSS:"))

    def stop(self):
        self.process.terminate()
        self.process.wait()

    def __enter__(self):
        return self

    def __exit__(self, *_):
        self.stop()


def restored(program, folder, text):
    """Restores the dump in a folder."""
    subprocess.run([program, "restore"], input=text.encode(), cwd=folder, stdout=subprocess.DEVNULL, check=True)


def dumped(program, folder):
    """The lines of the dump of a folder's store."""
    return subprocess.run([program, "dump"], cwd=folder, stdout=subprocess.PIPE, check=True).stdout.decode().splitlines()


def rules_in(lines):
    return [line for line in lines if line.startswith("rule ")]


def answer(work, begin, end):
    end.send(work(begin.wait))
    end.close()


def at_once(works):
    """Runs functions in a process each. Each makes ready, calls the function that it is given, and goes on when all have done so. Their answers, and the
    seconds from that moment on until all are there."""
    begin, clients = FORK.Barrier(len(works) + 1, timeout=SECONDS), []
    for work in works:
        ours, theirs = FORK.Pipe(False)
        client = FORK.Process(target=answer, args=(work, begin, theirs), daemon=True)
        client.start()
        theirs.close()
        clients.append((client, ours))
    begin.wait()
    begun = time.monotonic()
    answers = [ours.recv() for _, ours in clients]
    took = time.monotonic() - begun
    for client, _ in clients:
        client.join()
    return answers, took


def program_in(words):
    """The path of the program that words begin with."""
    return os.path.abspath(words[1])
