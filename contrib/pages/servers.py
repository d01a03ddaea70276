"""What the pages' test talks to, all on 127.0.0.1: `ixpm serve` over a store, a relay that can lose replies, and nginx."""
import os
import re
import shutil
import socket
import sqlite3
import subprocess
import tempfile
import threading
import time
import urllib.error
import urllib.request

HERE = os.path.dirname(os.path.abspath(__file__))
CONTRIB = os.path.dirname(HERE)
os.environ["PATH"] += ":/usr/sbin:/sbin"
PATIENCE = 30


def free_port():
    with socket.create_server(("127.0.0.1", 0)) as it:
        return it.getsockname()[1]


def wait_for(what, seconds=PATIENCE):
    """Whether something becomes true in time."""
    end = time.monotonic() + seconds
    while not what():
        if time.monotonic() > end:
            return False
        time.sleep(0.1)
    return True


def listens(port):
    try:
        socket.create_connection(("127.0.0.1", port), 1).close()
        return True
    except OSError:
        return False


class Registry:
    """A store, and `ixpm serve` over it."""

    def __init__(self, program, folder, text):
        self.program, self.folder, self.server, self.port = program, folder, None, None
        os.mkdir(folder, 0o700)
        subprocess.run([program, "restore"], input=text, text=True, cwd=folder, check=True, stdout=subprocess.DEVNULL)

    def start(self):
        self.port = free_port()
        with open(os.path.join(self.folder, "errors"), "a", encoding="utf-8") as errors:
            self.server = subprocess.Popen([self.program, "serve", str(self.port), "4", "100000"], cwd=self.folder, stdin=subprocess.DEVNULL,
                                           stdout=subprocess.DEVNULL, stderr=errors)
        if not wait_for(lambda: listens(self.port)):
            raise RuntimeError("ixpm serve doesn't listen")

    def stop(self):
        if self.server:
            self.server.terminate()
            try:
                self.server.wait(10)
            except subprocess.TimeoutExpired:
                self.server.kill()
                self.server.wait()
        self.server = None

    def edits(self):
        """How many edits the store has accepted."""
        with tempfile.TemporaryDirectory(dir=os.path.dirname(self.folder)) as copy:
            for name in os.listdir(self.folder):
                if name.startswith("ixpm.db"):
                    shutil.copy(os.path.join(self.folder, name), copy)
            found = sqlite3.connect(os.path.join(copy, "ixpm.db")).execute("SELECT body FROM entry WHERE kind = 20").fetchone()
        return int(found[0]) if found else 0


class Relay:
    """Passes requests on to the registry, one a connection, and remembers edits. It loses replies to edits where it is told to, and keeps edits waiting
    while it is shut."""

    def __init__(self):
        self.registry, self.lose, self.edits, self.open = None, 0, [], threading.Event()
        self.open.set()
        self.listener = socket.create_server(("127.0.0.1", 0), backlog=64)
        self.port = self.listener.getsockname()[1]
        threading.Thread(target=self.accept, daemon=True).start()

    def accept(self):
        while True:
            try:
                link = self.listener.accept()[0]
            except OSError:
                return
            threading.Thread(target=self.serve, args=(link,), daemon=True).start()

    def serve(self, link):
        with link:
            request = read_request(link)
            if request is None:
                return
            number = re.search(rb"\r\nX-Request-Number: *(\d+)", request, re.I)
            if number:
                self.edits.append((request.split(b" HTTP", 1)[0].decode(), int(number[1])))
                self.open.wait(PATIENCE)
            reply = self.ask(request)
            if number and self.lose > 0:
                self.lose -= 1
                return
            try:
                link.sendall(reply)
            except OSError:
                return

    def ask(self, request):
        try:
            with socket.create_connection(("127.0.0.1", self.registry.port), 10) as there:
                there.sendall(request)
                with there.makefile("rb") as reply:
                    return reply.read()
        except (OSError, TypeError):
            return b""


def read_request(link):
    with link.makefile("rb") as lines:
        head = b"".join(iter(lines.readline, b"\r\n"))
        if not head:
            return None
        length = re.search(rb"\r\nContent-Length: *(\d+)", head, re.I)
        return head + b"\r\n" + lines.read(int(length[1]) if length else 0)


class WebServer:
    """nginx with contrib/nginx.conf, without TLS and on other ports."""

    def __init__(self, folder, relay):
        self.folder, self.port = folder, free_port()
        self.base = "http://127.0.0.1:%d" % self.port
        with open(os.path.join(CONTRIB, "nginx.conf"), encoding="utf-8") as file:
            text = file.read()
        changes = {"user www-data;": "user root;" if os.geteuid() == 0 else "", "/run/nginx.pid": os.path.join(folder, "nginx.pid"), "/var/log/nginx": folder,
                   "listen 443 ssl": "listen 127.0.0.1:%d" % self.port, "    listen [::]:443 ssl;\n": "",
                   "    ssl_certificate /etc/ssl/ixpm/fullchain.pem;\n": "", "    ssl_certificate_key /etc/ssl/ixpm/privkey.pem;\n": "",
                   "http://127.0.0.1:8080": "http://127.0.0.1:%d" % relay.port, "/usr/local/share/ixpm/pages/": HERE + "/",
                   "include /etc/nginx/modules-enabled/*.conf;": "", "allow 192.0.2.0/24;": "allow 127.0.0.1;"}
        self.missing = [old for old in changes if old not in text]
        for old, new in changes.items():
            text = text.replace(old, new)
        temporary = "".join("  %s_temp_path %s;\n" % (it, os.path.join(folder, it)) for it in ("client_body", "proxy", "fastcgi", "uwsgi", "scgi"))
        self.config = os.path.join(folder, "nginx.conf")
        with open(self.config, "w", encoding="utf-8") as file:
            file.write(text.replace("http {\n", "http {\n" + temporary))

    def run(self, *words):
        return subprocess.run(["nginx", "-p", self.folder, "-c", self.config, "-e", os.path.join(self.folder, "error.log"), *words], capture_output=True, text=True, check=False)

    def start(self):
        ran = self.run()
        return ran.returncode == 0 and wait_for(lambda: listens(self.port))

    def stop(self):
        self.run("-s", "stop")

    def get(self, path):
        try:
            with urllib.request.urlopen(self.base + path, timeout=20) as reply:
                return reply.status, reply.headers, reply.read().decode()
        except urllib.error.HTTPError as reply:
            return reply.code, reply.headers, reply.read().decode()
