"""A small matter over the built program, for tests: batches come in, documents are called, boxed and confirmed at a desk, a volume
is produced and checked. A desk is at port 48201: a test that opens one says so where somebody else has it."""
import hashlib
import json
import os
import socket
import subprocess
import time
import urllib.request

HERE = os.path.dirname(os.path.abspath(__file__))
TOP = os.path.dirname(os.path.dirname(HERE))
PORT = 48201
LEAD, SECOND, RECEIVER = "the key of the lead", "the key of Marlow", "the key of the other side"


def built():
    """The program, where it is built from the sources as they stand."""
    path = os.path.join(TOP, "crates", "bp_main", "out", "bp_main")
    words = [os.path.join(TOP, "tivrenan"), "build", "look"]
    return path if subprocess.run(words, capture_output=True, check=False).returncode == 0 else None


def is_open(port=PORT):
    try:
        socket.create_connection(("127.0.0.1", port), timeout=1).close()
        return True
    except OSError:
        return False


def why_not():
    """Why no matter can be tried here, or None."""
    if built() is None:
        return "the program isn't built from the sources as they stand"
    return f"somebody is at port {PORT}" if is_open() else None


def digest(key):
    return hashlib.sha256(key.encode()).hexdigest()


class Matter:
    """A matter in a folder of its own."""

    def __init__(self, folder):
        self.folder, self.program = folder, built()
        os.makedirs(folder, exist_ok=True)

    def run(self, *words, folder=None):
        """The line that a command prints, and its status."""
        done = subprocess.run([self.program, *words], cwd=folder or self.folder, capture_output=True, text=True, timeout=600, check=False)
        return done.stdout.rstrip("\n"), done.returncode

    def begin(self, *batches):
        """Takes these folders in; gives how many documents there are."""
        assert self.run("init", digest(LEAD)) == ("matter made", 0)
        documents = 0
        for batch in batches:
            name = os.path.basename(batch)
            if not os.path.lexists(os.path.join(self.folder, name)):
                os.symlink(os.path.abspath(batch), os.path.join(self.folder, name))
            told, status = self.run("import", name)
            assert status == 0, told
            documents += int(told.split()[3])
        return documents

    def at_desk(self, calls, command=("serve", "1")):
        """Makes these calls (key, target, body) at a desk of as many connections."""
        desk = subprocess.Popen([self.program, *command, str(len(calls))], cwd=self.folder, stdout=subprocess.PIPE, text=True)
        try:
            told = [ask(key, target, body, desk) for key, target, body in calls]
        except BaseException:
            desk.kill()
            raise
        finally:
            desk.communicate(timeout=60)
        return told

    def settle(self, documents, boxes=(), entry=None):
        """Calls each document Produce, those with boxes Redact, which a second person confirms."""
        redacted = {box[0] for box in boxes}
        calls = [(LEAD, "/staff", {"name": "Marlow", "role": "Second", "digest": digest(SECOND)}),
                 (LEAD, "/staff", {"name": "Hale", "role": "Receiver", "digest": digest(RECEIVER)})]
        for doc in range(1, documents + 1):
            treatment = "Redact" if doc in redacted else "Produce"
            calls.append((LEAD, f"/docs/{doc}/call", {"responsive": True, "treatment": treatment, "designation": ""}))
        for number, (doc, page, left, top, width, height) in enumerate(boxes, 1):
            body = {"num": number, "page": page, "left": left, "top": top, "width": width, "height": height, "basis": "AC"}
            calls.append((LEAD, f"/docs/{doc}/box", body))
        for doc in sorted(redacted):
            texts = entry or {"date": "2019-03-04", "author": "Ng", "recipients": "Ortiz, Berg", "description": "Advice of counsel"}
            calls += [(LEAD, f"/docs/{doc}/entry", texts), (SECOND, f"/docs/{doc}/confirm", {})]
        for (_, target, _), (status, told) in zip(calls, self.at_desk(calls)):
            assert status == 200, (target, told)

    def produce(self, documents, volume="VOL001", fields=()):
        """Produces all of it, and checks the volume; gives its folder."""
        told, status = self.run("produce", "R-1", volume, "P-", "6", "1", str(documents), *fields)
        assert status == 0, told
        out = os.path.join(self.folder, "out")
        checked, status = self.run("check", f"{volume}/DATA/{volume}.DAT", f"{volume}/DATA/{volume}.OPT", f"{volume}/MANIFEST.TXT", folder=out)
        assert status == 0 and checked.startswith(f"checked documents {documents} "), checked
        return os.path.join(out, volume)


def ask(key, target, body, desk, seconds=30):
    """Status and reply of one call; waits until the desk is open."""
    request = urllib.request.Request(f"http://127.0.0.1:{PORT}{target}", None if body is None else json.dumps(body).encode(), {"Desk-Key": key})
    until = time.monotonic() + seconds
    while True:
        try:
            with urllib.request.urlopen(request, timeout=seconds) as reply:
                return reply.status, reply.read()
        except urllib.error.HTTPError as error:
            return error.code, error.read()
        except OSError:
            if time.monotonic() > until or desk.poll() is not None:
                raise
            time.sleep(0.02)
