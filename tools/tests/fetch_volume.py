#!/usr/bin/env python3
"""Tries tools/fetch_volume over desks that are made here: one that is cut off in the middle of a file and ended half way, ones that answer 429
and 503, one that gives other bytes, a manifest that leads elsewhere, ones that ask for a password or a certificate as nginx does; and where
the program is built, over `deliver`, which is ended half way and opened again. The copy of the one file is run alone, in a folder without the
others.
"""
import base64
import hashlib
import http.server
import json
import os
import pathlib
import pty
import shutil
import ssl
import subprocess
import sys
import tempfile
import threading
import time
import unittest

sys.dont_write_bytecode = True
HERE = os.path.dirname(os.path.abspath(__file__))
TOP = os.path.dirname(os.path.dirname(HERE))
sys.path.insert(0, HERE)
import matter_day  # noqa: E402

FETCH = os.path.join(TOP, "tools", "fetch_volume")
KEY = "the key of the other side"
PASSWORD = "Hale:a word: of Müller’s"
WHY_NOT = matter_day.why_not()
OPENSSL = shutil.which("openssl")


def volume(count=12):
    """The files of a small volume, with its manifest."""
    files = {f"VOL001/IMAGES/0001/ABC{number:08}.TIF": bytes([number]) * (70_000 + number) for number in range(1, count + 1)}
    files |= {"VOL001/DATA/VOL001.DAT": "Müller".encode(), "VOL001/DATA/empty": b""}
    listed = "".join(f"{hashlib.sha256(data).hexdigest()}  {path}\n" for path, data in files.items())
    return {"VOL001/MANIFEST.TXT": listed.encode(), **files}


class Handler(http.server.BaseHTTPRequestHandler):
    """A desk like that of `deliver`; its server has the files and what is to go wrong."""

    def log_message(self, *words):
        pass

    def do_GET(self):
        server = self.server
        server.asked.append(self.path)
        if server.certificates and not self.connection.getpeercert():
            return self.give(400, b"<html><title>400 No required SSL certificate was sent</title></html>")
        if server.password and self.headers.get("Authorization") != "Basic " + base64.b64encode(server.password.encode()).decode():
            return self.give(401, server.page, ("WWW-Authenticate", 'Basic realm="review"'))
        if self.headers.get("Desk-Key") != KEY:
            return self.give(401, b'{"a":0,"b":0,"line":0,"name":"KeyUnknown","rule":9}')
        fault = server.faults.pop(0) if server.faults else None
        if fault in (429, 503):
            return self.give(fault, b'{"a":0,"b":0,"line":0,"name":"JournalFull","rule":106}', ("Retry-After", "0") if fault == 503 else None)
        if self.path == "/desk/granted":
            return self.give(200, json.dumps([{"first": 1, "id": "R-1", "last": 12}]).encode())
        data = server.files.get(self.path.removeprefix("/desk/granted/R-1/"))
        if data is None:
            return self.give(404, b'{"a":0,"b":0,"line":0,"name":"NoFile","rule":38}')
        if fault == "redirect":
            return self.give(302, b"", ("Location", "http://127.0.0.1:1/"))
        if fault == "other":
            data = data[:-1] + b"?"
        return self.give(200, data, cut=fault == "cut")

    def give(self, status, body, field=None, cut=False):
        self.send_response(status)
        self.send_header("Content-Length", str(len(body)))
        if field:
            self.send_header(*field)
        self.end_headers()
        self.wfile.write(body[: len(body) // 2] if cut else body)
        self.close_connection = True


class Desk:
    """A desk at a port of its own, with what nginx before it asks for: a password; a certificate, of those in a file, where it has its
    own in another."""

    def __init__(self, files, faults=(), port=0, password=None, own=None, certificates=None, page=b"<html>401 Authorization Required</html>"):
        self.server = http.server.ThreadingHTTPServer(("127.0.0.1", port), Handler)
        self.server.files, self.server.faults, self.server.asked = files, list(faults), []
        self.server.password, self.server.certificates, self.server.page = password, certificates, page
        self.port, self.scheme = self.server.server_address[1], "https" if own else "http"
        if own:
            context = ssl.SSLContext(ssl.PROTOCOL_TLS_SERVER)
            context.load_cert_chain(own)
            context.load_verify_locations(certificates)
            context.verify_mode = ssl.CERT_OPTIONAL  # nginx, too, takes who has none as far as a request, and answers 400
            self.server.socket = context.wrap_socket(self.server.socket, server_side=True)
        threading.Thread(target=self.server.serve_forever, daemon=True).start()

    def url(self):
        return f"{self.scheme}://127.0.0.1:{self.port}/desk"

    def end(self):
        self.server.shutdown()
        self.server.server_close()


class Case(unittest.TestCase):
    def setUp(self):
        self.room = tempfile.mkdtemp(prefix="fetch_volume_test.")
        self.addCleanup(shutil.rmtree, self.room)
        # the file alone, as it is handed over
        self.program = os.path.join(self.room, "alone", "fetch_volume.py")
        os.mkdir(os.path.dirname(self.program))
        shutil.copy(FETCH, self.program)

    def begin(self, *words, key=KEY):
        around = {**os.environ, "DESK_KEY": key}
        return subprocess.Popen([sys.executable, "-I", self.program, *words], cwd=self.room, env=around, stdin=subprocess.DEVNULL,
                                stdout=subprocess.PIPE, stderr=subprocess.PIPE, text=True)

    def fetch(self, desk, *words, status=0, key=KEY, id_="R-1", folder="VOL001"):
        process = self.begin(desk.url(), id_, folder, *words, key=key)
        told, self.said = process.communicate(timeout=120)
        self.assertEqual(process.returncode, status, self.said)
        return told

    def there(self):
        found = {}
        for at, _, names in os.walk(os.path.join(self.room, "VOL001")):
            for name in names:
                with open(os.path.join(at, name), "rb") as file:
                    found[os.path.relpath(os.path.join(at, name), self.room)] = file.read()
        return found

    def desk(self, faults=(), files=None, **asks):
        desk = Desk(files or volume(), faults, **asks)
        self.addCleanup(desk.end)
        return desk


class Fetched(Case):
    def test_a_whole_volume_manifest_first(self):
        desk, files = self.desk(), volume()
        told = self.fetch(desk)
        self.assertEqual(self.there(), files)
        self.assertEqual(desk.server.asked[:2], ["/desk/granted", "/desk/granted/R-1/VOL001/MANIFEST.TXT"])
        self.assertIn(f"manifest {hashlib.sha256(files['VOL001/MANIFEST.TXT']).hexdigest()}", told)

    def test_the_list(self):
        process = self.begin(self.desk().url())
        self.assertEqual(process.communicate(timeout=60)[0], "R-1: labels with the numbers 1 to 12\n")

    def test_busy_desks(self):
        self.fetch(self.desk([429, None, 503, 503, None, 429]))
        self.assertEqual(self.there(), volume())
        self.assertIn("the desk is busy (429, rule 106, JournalFull); tries again in 1 s", self.said)
        self.assertIn("the desk is busy (503, rule 106, JournalFull); tries again in 0 s", self.said)

    def test_a_file_that_is_cut_off(self):
        self.fetch(self.desk([None, "cut", None, None, "cut"]))
        self.assertEqual(self.there(), volume())
        self.assertRegex(self.said, "ended|IncompleteRead")

    def test_other_bytes_than_the_manifest_has(self):
        self.fetch(self.desk([None, None, "other"]))
        self.assertEqual(self.there(), volume())
        self.assertIn("it came with another digest", self.said)

    def test_goes_on_with_what_is_missing_alone(self):
        self.fetch(self.desk())
        path = os.path.join(self.room, "VOL001", "IMAGES", "0001", "ABC00000007.TIF")
        os.truncate(path, 100)
        os.remove(path.replace("07.TIF", "08.TIF"))
        with open(path + ".part", "wb") as file:
            file.write(b"half")
        with open(os.path.join(self.room, "VOL001", "OLD.TIF"), "wb") as file:
            file.write(b"of an earlier volume")
        desk = self.desk()
        told = self.fetch(desk)
        self.assertEqual([path for path in desk.server.asked if path.endswith("TIF")], [f"/desk/granted/R-1/VOL001/IMAGES/0001/ABC0000000{n}.TIF" for n in (7, 8)])
        self.assertIn("14 files and the manifest, 12 of them there before", told)
        self.assertIn("VOL001/OLD.TIF stands there, and isn't of this volume", self.said)

    def test_a_desk_that_is_killed_half_way(self):
        """It ends after some files, nobody is there for a while, and another one opens at its port."""
        first = Desk(volume(), [None] * 6 + ["cut"])
        process = self.begin(first.url(), "R-1", "VOL001")
        while len(first.server.asked) < 7 and process.poll() is None:
            time.sleep(0.01)
        first.end()
        time.sleep(1.5)
        second = Desk(volume(), port=first.port)
        self.addCleanup(second.end)
        told, said = process.communicate(timeout=120)
        self.assertEqual(process.returncode, 0, said)
        self.assertEqual(self.there(), volume())
        self.assertIn("tries again in", said)
        self.assertLess(len(second.server.asked), 16)


class Refused(Case):
    def test_a_key_that_isnt_known(self):
        self.fetch(self.desk(), status=1, key="other")
        self.assertIn("status 401, rule 9, KeyUnknown: the desk doesn't know the key", self.said)

    def test_a_production_that_isnt_granted(self):
        self.fetch(self.desk(), status=1, id_="R-2")
        self.assertIn("R-2 isn't granted to you; granted is R-1", self.said)

    def test_a_folder_of_another_name(self):
        self.fetch(self.desk(), status=1, folder="VOL002")
        self.assertIn("FOLDER is to have the volume's name", self.said)
        self.assertFalse(os.path.exists(os.path.join(self.room, "VOL002")))

    def test_another_manifest_than_was_told(self):
        self.fetch(self.desk(), "--manifest", "0" * 64, status=1)
        self.assertEqual(self.there(), {})

    def test_a_manifest_that_leads_elsewhere(self):
        for path in ("VOL001/../../x", "OTHER/x", "/etc/x", "VOL001/C:/x", "VOL001/a\\b", "VOL001"):
            files = {**volume(), "VOL001/MANIFEST.TXT": f"{'0' * 64}  {path}\n".encode()}
            self.fetch(self.desk(files=files), status=1)
            self.assertIn("line 1 of the manifest names no file of VOL001", self.said)
        self.assertEqual(os.listdir(self.room), ["alone"])

    def test_a_redirection_isnt_followed(self):
        self.fetch(self.desk([None, "redirect"]), status=1)
        self.assertIn("status 302", self.said)

    def test_patience_ends(self):
        desk = Desk(volume())
        desk.end()
        self.fetch(desk, "--patience", "0.05", status=1)
        self.assertIn("nothing came for 0.05 minutes", self.said)

    def test_no_desk(self):
        process = self.begin("ftp://127.0.0.1", "R-1", "VOL001")
        self.assertIn("URL begins with https:// or http://", process.communicate(timeout=60)[1])
        self.assertEqual(process.returncode, 2)


class Guarded(Case):
    """nginx before the desk asks for a password, or for a certificate."""

    def file(self, data, name="password"):
        path = os.path.join(self.room, name)
        with open(path, "wb") as file:
            file.write(data)
        return path

    def test_a_password(self):
        for end in ("", "\n", "\r\n"):
            shutil.rmtree(os.path.join(self.room, "VOL001"), ignore_errors=True)
            self.fetch(self.desk(password=PASSWORD), "--password-file", self.file(b"\xef\xbb\xbf" * (end == "\r\n") + (PASSWORD + end).encode()))
            self.assertEqual(self.there(), volume())

    def test_another_password(self):
        desk = self.desk(password=PASSWORD)
        self.fetch(desk, "--password-file", self.file(b"Hale:another\n"), status=1)
        self.assertIn("status 401, Unauthorized: the server before the desk doesn't know the name with the password", self.said)
        self.assertEqual(len(desk.server.asked), 1)
        self.assertNotIn("another", self.said)

    def test_no_password(self):
        for page in (b"<html>401 Authorization Required</html>", b"", b"[]", b'{"message":"Unauthorized"}', b'{"name":"x","rule":1}'):
            self.fetch(self.desk(password=PASSWORD, page=page), status=1)
            self.assertIn("status 401, Unauthorized: the server before the desk asks for a password, and no desk looked at the key", self.said)

    def test_a_key_that_isnt_known_behind_a_password(self):
        self.fetch(self.desk(password=PASSWORD), "--password-file", self.file(PASSWORD.encode()), status=1, key="other")
        self.assertIn("status 401, rule 9, KeyUnknown: the desk doesn't know the key", self.said)

    def test_a_file_without_a_password(self):
        desk = self.desk(password=PASSWORD)
        for data in (b"", b"Hale", b"Hale:", b":word", b"Hale:word\nOsei:word\n", b"Hale:word\n\n", b"Hale:w\x00", "Hale:word".encode("utf-16")):
            self.fetch(desk, "--password-file", self.file(data), status=1)
            self.assertIn("password isn't one line NAME:PASSWORD in UTF-8", self.said)
        self.fetch(desk, "--password-file", "none", status=1)
        self.assertIn("none: No such file or directory", self.said)
        self.assertEqual(desk.server.asked, [])

    def test_what_would_go_in_the_clear(self):
        path = self.file(PASSWORD.encode())
        for words, told in (
            (("http://192.0.2.1/desk", "--password-file", path), "--password-file goes with https://, or with http:// to this machine"),
            (("http://127.0.0.1.example/desk", "--password-file", path), "--password-file goes with https://"),
            (("http://127.0.0.1/desk", "--certificate", path), "--certificate goes with https://"),
            (("https://127.0.0.1/desk", "--certificate-key", path), "--certificate-key goes with --certificate"),
        ):
            process = self.begin(*words)
            self.assertIn(told, process.communicate(timeout=60)[1])
            self.assertEqual(process.returncode, 2)

    @unittest.skipUnless(OPENSSL, "openssl isn't installed")
    def test_a_certificate(self):
        for name, subject in (("desk", "/CN=127.0.0.1"), ("hale", "/CN=Hale"), ("osei", "/CN=Osei")):
            words = ["-newkey", "ec", "-pkeyopt", "ec_paramgen_curve:P-256", "-nodes", "-days", "2", "-subj", subject]
            words += ["-addext", "subjectAltName=IP:127.0.0.1", "-keyout", f"{name}.key", "-out", f"{name}.pem"]
            subprocess.run(["openssl", "req", "-x509", *words], cwd=self.room, check=True, capture_output=True)
        whole = {}
        for name in ("desk", "hale"):
            whole[name] = self.file(b"".join(pathlib.Path(self.room, f"{name}.{end}").read_bytes() for end in ("pem", "key")), f"{name}.whole")
        desk = self.desk(own=whole["desk"], certificates=os.path.join(self.room, "hale.pem"))
        to_desk = ("--cacert", "desk.pem")
        self.fetch(desk, *to_desk, status=1)
        self.assertIn("status 400, Bad Request: the server before the desk refuses it; if it asks for a certificate", self.said)
        for words in (("hale.pem",), ("hale.pem", "--certificate-key", "osei.key"), (self.file(b"none", "text"),)):
            self.fetch(desk, *to_desk, "--certificate", *words, status=1)
            self.assertIn("isn't a certificate as PEM, with its key there or in the file of --certificate-key", self.said)
        self.fetch(desk, *to_desk, "--certificate", "hale.pem", "--certificate-key", "none", status=1)
        self.assertIn("none: No such file or directory", self.said)
        self.assertEqual(len(desk.server.asked), 1)
        for words in (("hale.pem", "--certificate-key", "hale.key"), (whole["hale"],)):
            shutil.rmtree(os.path.join(self.room, "VOL001"), ignore_errors=True)
            self.fetch(desk, *to_desk, "--certificate", *words)
            self.assertEqual(self.there(), volume())


class Asked(Case):
    def test_the_key_is_asked_for_at_a_terminal(self):
        desk = self.desk()
        child, terminal = pty.fork()
        if child == 0:
            os.environ.pop("DESK_KEY", None)
            os.execv(sys.executable, [sys.executable, self.program, desk.url()])
        try:
            self.assertIn(b"Key: ", os.read(terminal, 100))
            os.write(terminal, f"{KEY}\n".encode())
            told = b""
            while b"1 to 12" not in told:
                told += os.read(terminal, 1000)
            self.assertNotIn(KEY.encode(), told)
        finally:
            os.waitpid(child, 0)
            os.close(terminal)


@unittest.skipIf(WHY_NOT, WHY_NOT)
class Delivered(Case):
    """The program's own door, which takes so few connections that it ends half way, and is opened again."""

    def test_deliver(self):
        matter = matter_day.Matter(os.path.join(self.room, "matter"))
        documents = matter.begin(os.path.join(TOP, "examples", "CVI_001"))
        matter.settle(documents)
        written = matter.produce(documents)
        with open(os.path.join(matter.folder, "grants.csv"), "w", encoding="utf-8") as file:
            file.write("3,R-1\n")
        first = subprocess.Popen([matter.program, "deliver", "9", "grants.csv"], cwd=matter.folder, stdout=subprocess.PIPE)
        process = self.begin(f"http://127.0.0.1:{matter_day.PORT}", "R-1", "VOL001")
        first.communicate(timeout=120)
        second = subprocess.Popen([matter.program, "deliver", "1000", "grants.csv"], cwd=matter.folder, stdout=subprocess.PIPE)
        try:
            told, said = process.communicate(timeout=300)
        finally:
            second.kill()
            second.communicate()
        self.assertEqual(process.returncode, 0, said)
        self.assertIn("the desk can't be reached, or ended", said)
        subprocess.run(["diff", "-r", written, os.path.join(self.room, "VOL001")], check=True)
        self.assertIn("whole", told)


def setUpModule():
    if WHY_NOT:
        print(f"fetch_volume.py: the program's own door NOT TRIED: {WHY_NOT}")
    if not OPENSSL:
        print("fetch_volume.py: certificates NOT TRIED: openssl isn't installed")


if __name__ == "__main__":
    unittest.main()
