"""What a test of the page needs: nginx with the page's own configuration, and behind it desks of one matter, the program's or the
stand-in's, with three people of the staff."""
import hashlib
import json
import os
import random
import shutil
import signal
import socket
import ssl
import subprocess
import sys
import time
import urllib.error
import urllib.request

HERE = os.path.dirname(os.path.abspath(__file__))
TOP = os.path.dirname(os.path.dirname(HERE))
BATCH = os.path.join(TOP, "examples", "CVI_001")
LEAD, ELLIS, MARLOW = "the key of the lead", "the key of Ellis", "the key of Marlow"
FIRST_PORT = 48201
# the configuration's line of each desk; the first alone is no comment
LINES = [f"    {'#' if k else ''}server 127.0.0.1:{FIRST_PORT + k} max_fails=0;\n" for k in range(16)]
PATIENCE = 60  # seconds that a process has to end


def free_ports(count):
    """So many ports at which nobody listens, below those that the system gives to who connects."""
    found = []
    while len(found) < count:
        port = random.randrange(20000, 32000)
        try:
            socket.create_server(("127.0.0.1", port)).close()
        except OSError:
            continue
        if port not in found:
            found.append(port)
    return found


def answers(port):
    try:
        socket.create_connection(("127.0.0.1", port), timeout=1).close()
        return True
    except OSError:
        return False


def wait_for(port, process):
    for _ in range(1800):
        if process.poll() is not None:
            raise RuntimeError(f"{process.args[0]} ended with {process.returncode}")
        if answers(port):
            return
        time.sleep(0.1)
    raise RuntimeError(f"nobody listens at {port}")


def digest(key):
    return hashlib.sha256(key.encode()).hexdigest()


class Office:
    """Folder is a scratch folder; program the built program, or None for the stand-in; of the batch so many copies, for the stand-in
    alone; and so many desks."""

    def __init__(self, folder, program=None, copies=1, desks=1):
        self.folder, self.program, self.copies = folder, program, copies
        self.processes, self.desk = [], None
        self.ports = [FIRST_PORT + k for k in range(desks)] if program else free_ports(desks)
        self.port = free_ports(1)[0]
        self.url = f"https://127.0.0.1:{self.port}/"
        try:
            self.make_matter()
            self.open_desk()
            self.start_nginx()
            self.take_in_all()
        except BaseException:
            self.close()
            raise

    def take_in_all(self):
        for name, role, key in (("Ellis", "Reviewer", ELLIS), ("Marlow", "Second", MARLOW)):
            self.take_in(name, role, key)

    def take_in(self, name, role, key):
        self.ask(LEAD, "POST", "/staff", dict(name=name, role=role, digest=digest(key)))

    # ---- the desk

    def run(self, *words):
        told = subprocess.run([self.program, *words], cwd=self.folder, capture_output=True, text=True, timeout=5 * PATIENCE, check=False)
        if told.returncode != 0:
            raise RuntimeError(f"{words}: status {told.returncode}, {told.stdout}")
        return told.stdout

    def make_matter(self):
        if self.program:
            os.symlink(BATCH, os.path.join(self.folder, "CVI_001"))
            self.run("init", digest(LEAD))
            self.run("import", "CVI_001")

    def open_desk(self):
        if self.program:
            words = [self.program, "serve", str(len(self.ports)), "100000"]
        else:
            ports = ",".join(map(str, self.ports))
            words = [sys.executable, os.path.join(HERE, "stand_in.py"), ports, BATCH, LEAD, str(self.copies)]
        # where the tests run in the background of a shell, SIGINT is ignored by what they start, and a desk wouldn't end
        self.desk = subprocess.Popen(words, cwd=self.folder, stdout=subprocess.PIPE, text=True,
                                     preexec_fn=lambda: signal.signal(signal.SIGINT, signal.SIG_DFL))
        for port in self.ports:
            wait_for(port, self.desk)

    def close_desk(self):
        self.desk.send_signal(signal.SIGINT)
        return self.desk.communicate(timeout=PATIENCE)[0]

    # ---- nginx, with the configuration that the office gets

    def start_nginx(self):
        self.make_certificate()
        self.put_page()
        temps = "".join(f"{kind}_temp_path {self.folder}/{kind};" for kind in ("client_body", "proxy", "fastcgi", "uwsgi", "scgi"))
        user = "user root;" if os.geteuid() == 0 else ""
        with open(os.path.join(self.folder, "nginx.conf"), "w", encoding="utf-8") as file:
            file.write(f"{user} worker_processes 1; daemon off; pid {self.folder}/nginx.pid; error_log {self.folder}/error.log;"
                       f"events {{ worker_connections 2048; }} http {{ client_header_timeout 600s; {temps}\n{self.site()} }}")
        words = [shutil.which("nginx"), "-p", self.folder, "-c", "nginx.conf", "-e", f"{self.folder}/error.log"]
        nginx = subprocess.Popen(words)
        self.processes.append(nginx)
        wait_for(self.port, nginx)

    def make_certificate(self):
        subprocess.run(
            ["openssl", "req", "-x509", "-newkey", "rsa:2048", "-nodes", "-days", "2", "-subj", "/CN=127.0.0.1",
             "-keyout", "key.pem", "-out", "cert.pem"], cwd=self.folder, check=True, capture_output=True)

    def put_page(self):
        shutil.copytree(os.path.join(HERE, "..", "page"), os.path.join(self.folder, "page"))

    def site(self):
        """The configuration with what an office changes of it."""
        with open(os.path.join(HERE, "..", "nginx", "desk_page.conf"), encoding="utf-8") as file:
            site = file.read()
        changes = {
            "listen 443 ssl": f"listen 127.0.0.1:{self.port} ssl",
            "<review.office.example>": "127.0.0.1",
            "</etc/ssl/certs/review.pem>": f"{self.folder}/cert.pem",
            "</etc/ssl/private/review.key>": f"{self.folder}/key.pem",
            "</srv/desk_page/page>": f"{self.folder}/page",
            f"proxy_pass http://127.0.0.1:{FIRST_PORT};": f"proxy_pass http://127.0.0.1:{self.ports[0]};",
        }
        for k, line in enumerate(LINES):
            changes[line] = f"    server 127.0.0.1:{self.ports[k]} max_fails=0;\n" if k < len(self.ports) else ""
        for old, new in changes.items():
            if site.count(old) != 1:
                raise RuntimeError(f"the configuration has {old} so often: {site.count(old)}")
            site = site.replace(old, new)
        return site

    # ---- requests of another client, by way of nginx

    def request(self, key, method, path, members=None, **fields):
        """Status, fields and bytes of a reply."""
        data = None if members is None else json.dumps(members).encode()
        head = {**({} if key is None else {"Desk-Key": key}), **{name.replace("_", "-"): value for name, value in fields.items()}}
        request = urllib.request.Request(self.url.rstrip("/") + path, data, head, method=method)
        trust = ssl._create_unverified_context()  # the certificate is the test's own
        try:
            with urllib.request.urlopen(request, timeout=60, context=trust) as reply:
                return reply.status, reply.headers, reply.read()
        except urllib.error.HTTPError as reply:
            return reply.code, reply.headers, reply.read()

    def ask(self, key, method, path, members=None):
        status, _, body = self.request(key, method, "/desk" + path, members)
        if status != 200:
            raise RuntimeError(f"{method} {path}: {status} {body.decode()}")
        return json.loads(body)

    def close(self):
        for process in self.processes + [self.desk]:
            if process is not None and process.poll() is None:
                process.terminate()
                try:
                    process.wait(PATIENCE)
                except subprocess.TimeoutExpired:
                    process.kill()
