"""What `bench/rtr` needs of routers: links to an RTR cache (RFC 8210), BIRD processes, and a LAN of network namespaces."""
import ipaddress
import os
import re
import shutil
import socket
import struct
import subprocess
import time

SECONDS = 60
RESET_QUERY, SERIAL_QUERY, CACHE_RESPONSE, PREFIX_4, PREFIX_6, END_OF_DATA, CACHE_RESET, ERROR_REPORT = 2, 1, 3, 4, 6, 7, 8, 10
PATH = os.environ.get("PATH", "") + ":/usr/sbin:/sbin"


def found(name):
    """The path of a program, if it is installed."""
    return shutil.which(name, path=PATH)


def until(test, seconds=SECONDS):
    """Asks again and again until the test holds; whether it did in time."""
    end = time.monotonic() + seconds
    while not test():
        if time.monotonic() > end:
            return False
        time.sleep(0.05)
    return True


class Fault(Exception):
    """A cache has sent what a router refuses."""


def roa_in(kind, body):
    """A ROA as prefix, max length and AS number, and whether a PDU announces it."""
    flags, length, most, _ = body[:4]
    number = ipaddress.IPv4Address(body[4:8]) if kind == PREFIX_4 else ipaddress.IPv6Address(body[4:20])
    return ("%s/%d" % (number, length), most, struct.unpack(">I", body[-4:])[0]), flags == 1


class Router:
    """A router's link to a cache. It keeps the set that the answers lead to, and refuses what RFC 8210 has it refuse."""

    def __init__(self, port):
        self.socket = socket.create_connection(("127.0.0.1", port), timeout=SECONDS)
        self.file = self.socket.makefile("rb")
        self.set, self.session, self.serial = set(), None, None

    def reset(self):
        """Asks for all."""
        self.set = set()
        self.socket.sendall(struct.pack(">BBHI", 1, RESET_QUERY, 0, 8))
        return self.answer()

    def refresh(self):
        """Asks for what has changed."""
        self.socket.sendall(struct.pack(">BBHII", 1, SERIAL_QUERY, self.session, 12, self.serial))
        return self.answer()

    def pdu(self):
        """The type of the next PDU, its session, and what comes after the header."""
        head = self.file.read(8)
        if len(head) < 8:
            raise Fault("the cache has closed the link")
        version, kind, session, length = struct.unpack(">BBHI", head)
        if version != 1:
            raise Fault("version %d" % version)
        return kind, session, self.file.read(length - 8)

    def answer(self):
        """Reads one answer. How many PDUs announce or withdraw; None where the cache has no set of the serial."""
        kind, session, body = self.pdu()
        if kind == CACHE_RESET:
            return None
        if kind != CACHE_RESPONSE:
            raise Fault("error %d" % session if kind == ERROR_REPORT else "type %d" % kind)
        count = 0
        while True:
            kind, session, body = self.pdu()
            if kind not in (PREFIX_4, PREFIX_6):
                break
            self.take(*roa_in(kind, body))
            count += 1
        if kind != END_OF_DATA:
            raise Fault("type %d" % kind)
        self.session, self.serial = session, struct.unpack(">I", body[:4])[0]
        return count

    def take(self, roa, announces):
        if announces == (roa in self.set):
            raise Fault("%s of %s" % ("a second announcement" if announces else "a withdrawal", roa))
        (self.set.add if announces else self.set.remove)(roa)

    def close(self):
        self.file.close()
        self.socket.close()


def exported(rtrclient, folder, port):
    """The set that `rtrclient` gets of a cache."""
    path = os.path.join(folder, "rtrclient.csv")
    subprocess.run([rtrclient, "-e", "-t", "csv", "-o", path, "tcp", "127.0.0.1", str(port)], check=True, timeout=SECONDS,
                   stdout=subprocess.DEVNULL, stderr=subprocess.DEVNULL)
    with open(path) as file:
        rows = [line.replace(" ", "").split(",") for line in file.read().split("\n") if line.strip()]
    return sorted(("%s/%s" % (net, length), int(most), int(asn)) for net, length, most, asn in rows)


class Bird:
    """A BIRD with its configuration, in the folder and perhaps in another network namespace."""

    def __init__(self, folder, name, text, inside=()):
        self.path = os.path.join(folder, name)
        with open(self.path + ".conf", "w") as file:
            file.write(text)
        words = [*inside, found("bird"), "-f", "-c", self.path + ".conf", "-s", self.path + ".ctl", "-P", self.path + ".pid"]
        self.process = subprocess.Popen(words, cwd=folder, stdout=subprocess.DEVNULL, stderr=subprocess.DEVNULL)
        if not until(lambda: self.process.poll() is not None or os.path.exists(self.path + ".ctl")) or self.process.poll() is not None:
            raise SystemExit("BIRD doesn't start with %s.conf:\n%s" % (name, text))

    def tell(self, command):
        """What BIRD answers to a command. Where a table has no such net, that too is an answer."""
        return subprocess.run([found("birdc"), "-s", self.path + ".ctl", command], stdout=subprocess.PIPE, timeout=SECONDS).stdout.decode()

    def roas(self, table):
        """The ROAs of a table."""
        return sorted((net, int(most), int(asn)) for net, most, asn in re.findall(r"(?m)^(\S+)-(\d+) AS(\d+) ", self.tell("show route table " + table)))

    def stop(self):
        self.process.terminate()
        self.process.wait()


def attributes(text):
    """The path, the next hop, the communities and the large communities of the first route that BIRD shows; None where it shows none."""
    if "BGP.as_path" not in text:
        return None
    first = text.split("\n\tType:")[1]
    path, hop = (re.search(r"BGP\.%s: *([^\n]*)" % it, first) for it in ("as_path", "next_hop"))
    lists = [re.search(r"BGP\.%s: *([^\n]*)" % it, first) for it in ("community", "large_community")]
    pairs, triples = (sorted(":".join(it.split(",")) for it in re.findall(r"\(([^)]*)\)", found.group(1).replace(" ", ""))) if found else [] for found in lists)
    return path.group(1).split(), hop.group(1).split()[0], pairs, triples


class Lan:
    """A bridge with the servers' addresses, and a network namespace for each member beside it. The namespaces end with this process."""

    def __init__(self, servers, members):
        self.holders = []
        self.ip("link set lo up", "link add name lan type bridge", *self.addresses(servers), "link set lan up")
        for number, addresses in enumerate(members, 1):
            holder = subprocess.Popen(["unshare", "--net", "sleep", "infinity"])
            self.holders.append(holder)
            until(lambda: os.readlink("/proc/%d/ns/net" % holder.pid) != os.readlink("/proc/self/ns/net"))
            self.ip("link add name m%d type veth peer name lan netns %d" % (number, holder.pid), "link set m%d master lan up" % number)
            self.ip("link set lo up", *self.addresses(addresses), "link set lan up", inside=self.inside(number))

    def addresses(self, those):
        return ["address add %s dev lan%s" % (it, " nodad" if ":" in it else "") for it in those]

    def ip(self, *commands, inside=()):
        for command in commands:
            subprocess.run([*inside, found("ip"), *command.split()], check=True)

    def inside(self, number):
        """The words by which a program runs in a member's namespace."""
        return ["nsenter", "--net=/proc/%d/ns/net" % self.holders[number - 1].pid]

    def stop(self):
        for holder in self.holders:
            holder.terminate()
            holder.wait()
