#!/usr/bin/env python3
"""nginx asks for a password by HTTP's own authentication (auth_basic), before all that it has or before the desks alone, in a headless
Chromium: who gives it has the page, its worker and screens, and is answered by the desks; who doesn't is refused page and call.

    passwords.py SCRATCH [PROGRAM]
"""
import base64
import json
import os
import subprocess
import sys
from contextlib import closing

from frame import window
from office import ELLIS, Office
from person import Person, canvas_is, check, finish

NAME, PASSWORD = "ellis", "a word: of Müller’s"
BASIC = "Basic " + base64.b64encode(f"{NAME}:{PASSWORD}".encode()).decode()
EVERYWHERE, AT_DESKS = "server_tokens off;", "location /desk/ {"  # the lines of the configuration behind which it is asked for
CALL = "fetch('desk/docs/1', { headers: { 'Desk-Key': %s } }).then(({ status }) => status)" % json.dumps(ELLIS)
STATUS = "performance.getEntriesByType('navigation')[0].responseStatus"


class Guarded(Office):
    """An office whose nginx asks for a password; it writes down who was answered with what."""

    def __init__(self, folder, program, place):
        self.place = place
        super().__init__(folder, program)

    def site(self):
        with open(os.path.join(self.folder, "passwords"), "w", encoding="utf-8") as file:
            made = subprocess.run(["openssl", "passwd", "-apr1", "-stdin"], input=PASSWORD.encode(), capture_output=True, check=True)
            file.write(f"{NAME}:{made.stdout.decode()}")
        before, place, behind = super().site().partition(self.place)
        asks = f'auth_basic "The review"; auth_basic_user_file {self.folder}/passwords;'
        kept = f"access_log {self.folder}/came people;"
        return "log_format people '$status $remote_user $uri';\n" + (before + place + asks + behind).replace("access_log off;", kept)

    def request(self, key, method, path, members=None, **fields):
        return super().request(key, method, path, members, **{"Authorization": BASIC, **fields})

    def came(self):
        """Status, name and path of each request so far."""
        with open(os.path.join(self.folder, "came"), encoding="utf-8") as file:
            return [line.split() for line in file]


class Asked(Person):
    """Whom the browser asks for a name and a password; `said` is what they answer, and None where they press Escape."""

    def __init__(self, *words, **more):
        super().__init__(*words, **more)
        self.said, self.asked = None, []
        self("Fetch.enable", handleAuthRequests=True)

    def note(self, event):
        super().note(event)
        told = event["params"]
        if event["method"] == "Fetch.requestPaused":  # who wants to be asked has each request held back, too
            self.send("Fetch.continueRequest", requestId=told["requestId"])
        elif event["method"] == "Fetch.authRequired":
            self.asked.append((told["authChallenge"]["scheme"], told["request"]["url"]))
            given = dict(response="CancelAuth") if self.said is None else dict(zip(("username", "password"), self.said), response="ProvideCredentials")
            self.send("Fetch.continueWithAuth", requestId=told["requestId"], authChallengeResponse=given)

    def send(self, method, **params):
        """A call whose answer nobody waits for: its number is none of those that are waited for."""
        self.socket.send(json.dumps({"id": 0, "method": method, "params": params}))

    def try_key(self, key):
        """The key is given, and what the page says then, if it stays closed."""
        self.js("document.getElementById('key').value = ''; document.getElementById('denied').textContent = ''")
        self.click("#key")
        self.type(key)
        self.key("Enter")
        self.until("document.getElementById('denied').textContent !== '' || !document.getElementById('room').hidden")
        return self.text("denied")


def try_given(office):
    """The password is given at the page, and goes along with all that the page asks for."""
    with window(office, kind=Asked) as person:
        person.said = NAME, PASSWORD
        person.go(office.url)
        check("the browser asks for a password once", person.asked == [("basic", office.url)], person.asked)
        check("and who gives it has the page", person.js(STATUS) == 200 and person.js("document.title") == "Review")
        person.come(ELLIS)
        check("the desks answer", person.text("count") == "12 documents", person.text("count"))
        canvas_is("the first page stands as it was scanned", person, 1, 1)
        person.decide(2, "yp")
        status, _, body = office.request(ELLIS, "GET", "/desk/docs/2")
        check("a call is made", status == 200 and json.loads(body)["editor"] == 2, (status, body))
        person.js("[...document.querySelectorAll('#doors button')].find((it) => it.textContent === 'Screens').click()")
        person.until("document.querySelectorAll('#screens [name=screen]').length === 3")
        check("the files of screens come", True)
        check("the browser asked no more", len(person.asked) == 1, person.asked)
        refused = [row for row in office.came() if row[0] == "401" and row[2].startswith("/desk/")]
        check("and nginx refused no call", not refused, refused)
        wrong = person.js(CALL.replace(json.dumps(ELLIS), "'nobody'"))
        check("a desk's own 401 comes through, and asks for no password", wrong == 401 and len(person.asked) == 1, (wrong, person.asked))
        check("after it a known key is answered, though Chromium may ask again", person.js(CALL) == 200)


def try_withheld(office):
    """Nothing is given, or another password."""
    with window(office, kind=Asked) as person:
        person.go(office.url)
        check("without a password the page is refused", person.js(STATUS) == 401 and person.js("document.title").startswith("401"), person.js(STATUS))
        check("and so is a call", person.js(CALL) == 401)
        for path in ("/", "/main.js", "/screens/list.txt", "/desk/docs/1"):
            for fields in ({}, {"Authorization": "Basic " + base64.b64encode(f"{NAME}:other".encode()).decode()}):
                status, head, _ = Office.request(office, ELLIS, "GET", path, **fields)
                check(f"{path} with {'another' if fields else 'no'} password: 401 of nginx",
                      status == 401 and head["WWW-Authenticate"].startswith("Basic ") and head["Content-Type"].startswith("text/html"), (status, head.items()))


def try_desks(office):
    """The page is anybody's, and the desks ask: at the first call."""
    with window(office, kind=Asked) as person:
        person.go(office.url)
        check("the page asks for nothing", person.js(STATUS) == 200 and not person.asked, person.asked)
        told = person.try_key(ELLIS)
        check("the browser asks at the first call", len(person.asked) == 1, person.asked)
        check("who gives nothing is told so", "A password is asked for before the desks" in told and "(401)" in told, told)
        person.said = NAME, PASSWORD
        told = person.try_key("nobody")
        check("who gives it comes to a desk, which doesn't know a wrong key", "(KeyUnknown)" in told, told)
        told = person.try_key(ELLIS)
        check("and knows the right one", told == "" and person.text("count") == "12 documents", told)


def main():
    scratch, program = sys.argv[1], sys.argv[2] if len(sys.argv) > 2 else None
    for name, place, tries in (("all", EVERYWHERE, (try_given, try_withheld)), ("desks", AT_DESKS, (try_desks,))):
        folder = os.path.join(scratch, name)
        os.mkdir(folder)
        with closing(Guarded(folder, program, place)) as office:
            for one in tries:
                one(office)
    finish("a password before page and desks")


main()
