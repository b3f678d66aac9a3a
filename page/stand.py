"""What a page is tried on: a treasury that is served, nginx of examples/serve before it, and what fails between."""
import http.client
import json
import os
import pathlib
import random
import re
import shutil
import socket
import socketserver
import subprocess
import threading
import time
import urllib.error
import urllib.request

from devtools import PATIENCE

TOP = pathlib.Path(__file__).resolve().parent.parent
SITE = "treasury.example.org"
NEEDED = ("nginx", "openssl")


def place_of(name):
    """Returns where a program is, also one that only root has on the path; or nothing."""
    return shutil.which(name) or shutil.which(name, path="/usr/sbin:/sbin:/usr/local/sbin")


def free_port():
    """Returns a port that nothing listens on, and that the system gives to nobody who asks for any."""
    while True:
        port = random.randrange(10240, 32768)
        with socket.socket() as one:
            try:
                one.bind(("127.0.0.1", port))
                return port
            except OSError:
                pass


def wait_for(port):
    """Waits until something listens on a port."""
    ends = time.monotonic() + PATIENCE
    while time.monotonic() < ends:
        try:
            socket.create_connection(("127.0.0.1", port), PATIENCE).close()
            return
        except OSError:
            time.sleep(0.05)
    raise SystemExit(f"nothing listens on {port}")


class Server(socketserver.ThreadingTCPServer):
    """A server on a port of its own, of which the handler knows the stand."""

    allow_reuse_address = daemon_threads = True
    request_queue_size = 64

    def __init__(self, stand, handler):
        self.stand, self.port = stand, free_port()
        super().__init__(("127.0.0.1", self.port), handler)
        threading.Thread(target=self.serve_forever, daemon=True).start()

    def handle_error(self, request, address):
        """A connection that the other side has left is none of our concern."""


def whole_request(connection):
    """Reads a request; returns its bytes, its first line and its body, or nothing."""
    data = b""
    while True:
        got = connection.recv(1 << 16)
        if not got:
            return None
        data += got
        head, found, body = data.partition(b"\r\n\r\n")
        if found:
            length = re.search(rb"(?i)content-length: *(\d+)", head)
            if len(body) >= int(length[1] if length else 0):
                return data, head.split(b"\r\n")[0].decode(), body.decode("utf-8", "replace")


class Between(socketserver.BaseRequestHandler):
    """Stands between nginx and the treasury. It counts what comes through, and cuts what the stand's `mode` says:

    pass; cut (nothing reaches the treasury); lose (the reply of a command is thrown away after the deed); slow (a reply
    comes late, that of a deed when the mode is another one); half (half a report comes); answer STATUS TEXT (other
    answers, but for dry runs); always STATUS TEXT (somebody else answers); deny PATH.. (of what begins so, it is 403);
    busy N (the next N requests are too many).
    """

    def handle(self):
        stand, read = self.server.stand, whole_request(self.request)
        if not read:
            return
        data, line, body = read
        mode = stand.mode
        stand.seen.append((line, body, data))
        is_deed = line.startswith("POST") and '"dry-run"' not in body
        if mode == "cut" or (mode == "cut deeds" and is_deed):
            return
        if mode.startswith("always ") or mode.startswith("answer ") and (is_deed or not line.startswith("POST")):
            _, status, text = mode.split(" ", 2)
            self.request.sendall(b"HTTP/1.1 %s X\r\nContent-Type: application/json\r\nContent-Length: %d\r\n"
                                 b"Connection: close\r\n\r\n%s" % (status.encode(), len(text.encode()), text.encode()))
            return
        denied = mode.startswith("deny ") and line.split()[1].startswith(tuple(mode.split()[1:]))
        if denied or (mode.startswith("busy ") and mode != "busy 0"):
            if not denied:
                stand.mode = f"busy {int(mode[5:]) - 1}"
            self.request.sendall(b"HTTP/1.1 %d X\r\nContent-Length: 0\r\nConnection: close\r\n\r\n"
                                 % (403 if denied else 429))
            return
        with socket.create_connection(("127.0.0.1", stand.back)) as back:
            back.sendall(data)
            reply = b""
            while True:
                got = back.recv(1 << 16)
                if not got:
                    break
                reply += got
        if mode == "slow":
            while is_deed and stand.mode == "slow":
                time.sleep(0.05)
            time.sleep(1.5)
        if mode == "lose" and is_deed:
            return
        self.request.sendall(reply[: len(reply) - 20] if mode == "half" and not is_deed else reply)


class Elsewhere(socketserver.BaseRequestHandler):
    """Another site, with a link to the page and a form whose one field is a command."""

    def handle(self):
        read = whole_request(self.request)
        if not read:
            return
        path = read[1].split()[1]
        text = f'<!DOCTYPE html><title>elsewhere</title><a id="link" href="{self.server.stand.origin}/">the page</a>'
        if path.startswith("/form"):
            text += (f'<form method="post" enctype="text/plain" action="{self.server.stand.origin}/commands">'
                     """<input name='{"do":"branch","name":"evil' value='"}'></form>"""
                     "<script>document.forms[0].submit()</script>")
        if path.startswith("/frame"):
            text += f'<iframe src="{self.server.stand.origin}/"></iframe>'
        body = text.encode()
        self.request.sendall(b"HTTP/1.1 200 OK\r\nContent-Type: text/html; charset=utf-8\r\nContent-Length: %d\r\n"
                             b"Connection: close\r\n\r\n%s" % (len(body), body))


class Stand:
    """The treasury, nginx and the rest, with their files in a folder."""

    PEOPLE = ("secretary", "anna", "bert", "carla", "emil")
    SOURCE = TOP / "examples" / "serve" / "treasury.nginx"

    def __init__(self, program, page, folder):
        self.program, self.folder, self.children = program, pathlib.Path(folder), []
        self.mode, self.seen = "pass", []
        self.back, self.tls, self.plain = free_port(), free_port(), free_port()
        self.origin = f"https://{SITE}:{self.tls}"
        (self.folder / "page").mkdir()
        shutil.copy(page, self.folder / "page" / "treasury.html")
        try:
            self.begin()
        except BaseException:
            self.close()
            raise

    def begin(self):
        """Starts everything; what was started ends if something else does not start."""
        self.run("init", "--db", self.folder / "books.db")
        self.start(self.program, "serve", "--db", self.folder / "books.db", "--port", self.back, "--requests", 1000000)
        wait_for(self.back)
        self.middle = Server(self, Between).port
        self.elsewhere = f"http://127.0.0.1:{Server(self, Elsewhere).port}"
        self.make_secrets()
        self.start(place_of("nginx"), "-p", self.folder, "-c", self.written_configuration())
        wait_for(self.tls)

    def start(self, *command):
        """Starts a program that ends with the stand."""
        log = open(self.folder / "children.log", "a")
        self.children.append(subprocess.Popen([str(word) for word in command], stdin=subprocess.DEVNULL, stdout=log,
                                              stderr=log))
        log.close()

    def run(self, *words):
        """Runs a command of the treasury and returns what it prints."""
        return subprocess.run([self.program, *map(str, words)], stdout=subprocess.PIPE, stderr=subprocess.DEVNULL,
                              encoding="utf-8").stdout

    def make_secrets(self):
        """Makes a certificate, and for each person the password `secret`."""
        openssl = place_of("openssl")
        subprocess.run([openssl, "req", "-x509", "-newkey", "rsa:2048", "-nodes", "-days", "2", "-subj", f"/CN={SITE}",
                        "-keyout", self.folder / "privkey.pem", "-out", self.folder / "fullchain.pem"], check=True,
                       stderr=subprocess.DEVNULL)
        word = subprocess.run([openssl, "passwd", "-apr1", "secret"], check=True, stdout=subprocess.PIPE,
                              encoding="utf-8").stdout
        (self.folder / "treasury-8040.passwords").write_text("".join(f"{name}:{word}" for name in self.PEOPLE))

    def configuration(self):
        """Returns the configuration of examples/serve, with the places and ports of this stand."""
        text = self.SOURCE.read_text()
        for old, new in (("    carla      reader;", "    carla      reader;\n    emil       keeper:meadow;"),
                         ("listen 443 ssl;", f"listen 127.0.0.1:{self.tls} ssl;"), ("listen [::]:443 ssl;", ""),
                         ("listen 80;", f"listen 127.0.0.1:{self.plain};"), ("listen [::]:80;", ""),
                         ("https://$server_name", f"https://$server_name:{self.tls}"),
                         (f"/etc/letsencrypt/live/{SITE}/", f"{self.folder}/"),
                         ("/etc/nginx/treasury-8040", f"{self.folder}/treasury-8040"),
                         ("/var/log/nginx/treasury-8040", f"{self.folder}/treasury-8040"),
                         ("http://127.0.0.1:8040", f"http://127.0.0.1:{self.middle}"),
                         ("root /usr/share/yovalimer;", f"root {self.folder}/page;")):
            if old not in text:
                raise SystemExit(f"{self.SOURCE} has no {old}")
            text = text.replace(old, new)
        return text

    def written_configuration(self):
        """Writes the configuration of nginx."""
        parts = ("client_body", "proxy", "fastcgi", "uwsgi", "scgi")
        places = "".join(f"{it}_temp_path {self.folder}/nginx-{it}; " for it in parts)
        user = "user root; " if os.geteuid() == 0 else ""
        path = self.folder / "nginx.conf"
        path.write_text(f"{user}daemon off; pid {self.folder}/nginx.pid; error_log {self.folder}/error.log;\n"
                        "events { }\nhttp { types { text/html html; } "
                        f"access_log {self.folder}/access.log; {places}\n{self.configuration()}}}\n")
        return path

    def ask(self, path, request=None):
        """Asks the treasury itself, past nginx and the page; returns the status and the text."""
        data = json.dumps(request).encode() if request else None
        try:
            with urllib.request.urlopen(f"http://127.0.0.1:{self.back}{path}", data, PATIENCE) as reply:
                return reply.status, reply.read().decode()
        except urllib.error.HTTPError as error:
            return error.code, error.read().decode()

    def do(self, **request):
        """Sends a command to the treasury itself and returns the answer line without its end."""
        request["do"] = request.pop("what")
        return self.ask("/commands", request)[1].rstrip("\n")

    def deeds(self, kind):
        """The bodies of the commands of a kind that came through, dry runs left out."""
        return [body for line, body, _ in self.seen
                if line.startswith("POST") and f'"do":"{kind}"' in body and '"dry-run"' not in body]

    def status(self, method, path, name=None, **headers):
        """Asks nginx as a program would; returns the status."""
        import base64
        import ssl
        context = ssl._create_unverified_context()
        connection = http.client.HTTPSConnection("127.0.0.1", self.tls, context=context, timeout=PATIENCE)
        sent = {"Host": f"{SITE}:{self.tls}", **{key.replace("_", "-"): value for key, value in headers.items()}}
        if name:
            sent["Authorization"] = "Basic " + base64.b64encode(f"{name}:secret".encode()).decode()
        connection.request(method, path, headers=sent)
        reply = connection.getresponse()
        reply.read()
        if reply.status != 429:
            return reply.status
        # (nginx has been asked too much: this is asked again)
        time.sleep(1)
        return self.status(method, path, name, **headers)

    def close(self):
        """Ends what was started."""
        for child in self.children:
            child.terminate()
        for child in self.children:
            child.wait()
