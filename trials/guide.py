#!/usr/bin/env python3
"""Runs the commands of docs/GUIDE.md, as they stand there and in their order, and compares what they print.

The guide's blocks ```console have commands, each after `$ `, and below each what it prints, on both outputs: `..` in a line
stands for any text, and a line of `..` for any lines. A command ends with status 0, or with the one that the launcher is to
tell there. All are given to one bash; those of a block after the comment `a second terminal` to one of their own that stays
open, and the comment `Ctrl-C` ends it: a block ```text after that has what it printed.

Nothing outside a scratch folder is changed: /usr/local, /srv and /etc stand for folders there, `nginx` and `systemctl` for
Debian's nginx over the configuration there, at a port of its own, and the office's name for this machine. The archive is the
one that tools/dist.sh makes here.

Needs the built program, and Debian's packages that the guide names. Where one of them isn't here it says so, tries nothing and
ends with status 0. Ends with 1 at the first command that does something else than the guide says.
"""
import os
import platform
import random
import re
import select
import shutil
import signal
import socket
import subprocess
import sys
import tempfile
import time

TOP = os.path.dirname(os.path.dirname(os.path.abspath(__file__)))
DESK_PORT = 48201
PACKAGES = {
    "nginx": "nginx", "openssl": "openssl", "pdftoppm": "poppler-utils", "tiffsplit": "libtiff-tools", "tifftopnm": "netpbm",
    "tesseract": "tesseract-ocr", "f2py3": "python3-numpy", "sqlite3": "sqlite3", "curl": "curl",
}
FOLDERS = ("usr/local", "srv", "etc/nginx/sites-available", "etc/nginx/sites-enabled", "etc/ssl/private", "etc/ssl/certs", "home", "shims")
SECONDS = 300  # for one command

NGINX = """#!/bin/sh
# Debian's nginx over the sites below etc/nginx of this folder
set -eu
{
    [ "$(id -u)" -ne 0 ] || echo 'user root;'
    echo 'worker_processes 1; pid ROOM/nginx.pid; error_log ROOM/error.log; events { worker_connections 64; } http {'
    for kind in client_body proxy fastcgi uwsgi scgi; do echo "${kind}_temp_path ROOM/$kind;"; done
    cat ROOM/etc/nginx/sites-enabled/* |
        sed -e 's#\\(/etc/ssl/\\|/srv/\\)#ROOM\\1#g' -e 's#listen 443 ssl#listen 127.0.0.1:PORT ssl#'
    echo '}'
} > ROOM/nginx.conf
exec REAL -p ROOM -c ROOM/nginx.conf -e ROOM/error.log "$@"
"""
SYSTEMCTL = """#!/bin/sh
# systemctl reload nginx
[ "$*" = 'reload nginx' ] || exit 1
if [ -s ROOM/nginx.pid ]; then exec nginx -q -s reload; else exec nginx -q; fi
"""


def stop(why):
    sys.exit(f"guide.py: {why}")


# ---- the guide


def fences(path):
    """What is to be done, in order: ("run", line, commands), ("desk", line, commands), ("Ctrl-C", line, what was printed)."""
    with open(path, encoding="utf-8") as file:
        lines = file.read().splitlines()
    found, kind, told, begins, ends = [], None, [], 0, None
    for number, line in enumerate(lines, 1):
        if kind is not None:
            if line == "```":
                if kind == "console":
                    found.append(("desk" if ends == "desk" else "run", begins, commands_of(told, begins)))
                    ends = None
                elif kind == "text" and ends == "Ctrl-C":
                    found[-1] = ("Ctrl-C", found[-1][1], told)
                    ends = None
                kind = None
            else:
                told.append(line)
        elif line.startswith("```"):
            kind, told, begins = line[3:], [], number
        elif "guide.py: a second terminal" in line:
            ends = "desk"
        elif "guide.py: Ctrl-C" in line:
            ends = "Ctrl-C"
            found.append(("Ctrl-C", number, None))
    return found


def is_whole(command):
    """Whether bash waits for no more of it."""
    return not command.endswith("\\") and subprocess.run(["bash", "-n", "-c", command], capture_output=True, check=False).returncode == 0


def commands_of(lines, begins):
    """Line, command, and the lines that it prints."""
    found, is_open = [], False
    for number, line in enumerate(lines, begins + 1):
        if is_open:
            found[-1][1] += "\n" + line
        elif line.startswith("$ "):
            found.append([number, line[2:], []])
        elif not found:
            stop(f"line {number} of the guide stands in a block of commands, and below none")
        else:
            found[-1][2].append(line)
            continue
        is_open = not is_whole(found[-1][1])
    if is_open:
        stop(f"line {found[-1][0]} of the guide: the command has no end")
    return found


def is_as_due(due, told):
    """Whether what was printed is what the guide says."""
    if not due:
        return not told
    if due[0] == "..":
        return any(is_as_due(due[1:], told[at:]) for at in range(len(told) + 1))
    pattern = ".*".join(re.escape(piece) for piece in due[0].split(".."))
    return bool(told) and re.fullmatch(pattern, told[0]) is not None and is_as_due(due[1:], told[1:])


def status_due(due):
    return next((int(found[1]) for line in due if (found := re.match(r"tivrenan: status (\d+):", line))), 0)


# ---- where it runs


def free_port():
    """One at which nobody listens, below those that the system gives to who connects."""
    return next(port for port in iter(lambda: random.randrange(20000, 32000), None) if not is_open(port))


def is_open(port):
    try:
        socket.create_connection(("127.0.0.1", port), timeout=1).close()
        return True
    except OSError:
        return False


class Machine:
    """A folder that stands for the office's machine."""

    def __init__(self, room):
        self.room, self.desk, port = room, None, free_port()
        for name in FOLDERS:
            os.makedirs(os.path.join(room, name))
        real = shutil.which("nginx", path=os.environ["PATH"] + ":/usr/sbin")
        for name, text in (("nginx", NGINX), ("systemctl", SYSTEMCTL)):
            path = os.path.join(room, "shims", name)
            with open(path, "w", encoding="utf-8") as file:
                file.write(text.replace("ROOM", room).replace("PORT", str(port)).replace("REAL", real))
            os.chmod(path, 0o755)
        with open(os.path.join(room, "home", ".curlrc"), "w", encoding="utf-8") as file:
            file.write(f'connect-to = "review.office.example:443:127.0.0.1:{port}"\n')
        path = f"{room}/shims:{room}/usr/local/bin:{os.environ['PATH']}"
        self.around = {**os.environ, "HOME": f"{room}/home", "PATH": path, "LC_ALL": "C.UTF-8"}
        self.around.pop("CURL_HOME", None)
        self.shell = subprocess.Popen(["bash", "--norc"], cwd=room, env=self.around, stdin=subprocess.PIPE, stdout=subprocess.PIPE,
                                      text=True, start_new_session=True)

    def placed(self, command):
        """The command with its folders in the room, and this machine's archive."""
        command = command.replace("tivrenan-0.1-x86_64", self.archive)
        return re.sub(r"(?<![\w/.-])/(usr/local|srv|etc)(?=[/\s]|$)", rf"{self.room}/\1", command)

    def plain(self, text):
        return text.replace(self.room, "").replace(self.archive, "tivrenan-0.1-x86_64").splitlines()

    def pack(self):
        """The archive of this clone, in the room."""
        told = subprocess.run([os.path.join(TOP, "tools", "dist.sh")], capture_output=True, text=True, check=False)
        if told.returncode:
            stop(f"tools/dist.sh: {told.stderr}")
        path = os.path.join(TOP, told.stdout.strip())
        self.archive = os.path.basename(path).removesuffix(".tar.gz")
        shutil.copy(path, self.room)

    def told(self, command):
        """The one line that the shell prints for what it is given."""
        self.shell.stdin.write(command + "\n")
        self.shell.stdin.flush()
        if not select.select([self.shell.stdout], [], [], SECONDS)[0]:
            stop(f"{command}: it didn't end within {SECONDS} seconds")
        return self.shell.stdout.readline().strip()

    def run(self, command):
        """Status, and the lines that were printed."""
        said = os.path.join(self.room, "said")
        status = int(self.told(f"{{ {self.placed(command)}\n}} > {said} 2>&1 < /dev/null; echo $?"))
        with open(said, encoding="utf-8", errors="replace") as file:
            return status, self.plain(file.read())

    def open_desk(self, command):
        """A second terminal in the shell's folder; Ctrl-C is for it alone."""
        self.desk = subprocess.Popen(
            ["bash", "--norc", "-c", self.placed(command)], cwd=self.told("pwd"), env=self.around, stdin=subprocess.DEVNULL,
            stdout=subprocess.PIPE, stderr=subprocess.STDOUT, text=True, start_new_session=True,
            preexec_fn=lambda: signal.signal(signal.SIGINT, signal.SIG_DFL))
        for _ in range(SECONDS * 10):
            if self.desk.poll() is not None:
                stop(f"{command} ended: {self.desk.stdout.read()}")
            if is_open(DESK_PORT):
                return
            time.sleep(0.1)
        stop(f"{command}: nobody listens")

    def close_desk(self):
        os.killpg(self.desk.pid, signal.SIGINT)
        told, _ = self.desk.communicate(timeout=SECONDS)
        self.desk = None
        return self.plain(told)

    def close(self):
        if self.desk is not None:
            os.killpg(self.desk.pid, signal.SIGKILL)
        if os.path.exists(os.path.join(self.room, "nginx.pid")):
            subprocess.run([os.path.join(self.room, "shims", "nginx"), "-q", "-s", "stop"], check=False)
        os.killpg(self.shell.pid, signal.SIGKILL)
        self.shell.wait()


# ---- what is tried


def compare(number, command, due, told, status=0):
    if status != status_due(due) or not is_as_due(due, told):
        stop("line {} of the guide: {}\nended with {} and printed\n{}\nand not, with {},\n{}".format(
            number, command, status, "\n".join(told), status_due(due), "\n".join(due)))


def follow(guide, machine):
    count = 0
    for kind, begins, what in fences(guide):
        if kind == "Ctrl-C":
            told = machine.close_desk()
            print("^C", *told, sep="\n")
            if what is not None and not is_as_due(what, told):
                stop(f"line {begins} of the guide: Ctrl-C: printed {told}, and not {what}")
            continue
        for number, command, due in what:
            count += 1
            print(f"$ {command}")
            if kind == "desk":
                machine.open_desk(command)
            else:
                status, told = machine.run(command)
                print(*told, sep="\n", end="\n" if told else "")
                compare(number, command, due, told, status)
    return count


def why_not():
    """Why nothing can be tried here, or None."""
    path = os.environ["PATH"] + ":/usr/sbin"
    missing = sorted({package for tool, package in PACKAGES.items() if not shutil.which(tool, path=path)})
    if missing:
        return f"{', '.join(missing)} isn't installed (Debian's packages of these names)"
    if subprocess.run([os.path.join(TOP, "tivrenan"), "build", "look"], capture_output=True, check=False).returncode:
        return "the program isn't built from the sources as they stand (./tivrenan build)"
    if is_open(DESK_PORT):
        return f"somebody is at port {DESK_PORT}"
    return None


def main():
    why = why_not()
    if why is not None:
        print(f"guide.py: NOT TRIED: {why}")
        return
    room = tempfile.mkdtemp(prefix="guide-")
    machine = Machine(room)
    try:
        machine.pack()
        count = follow(os.path.join(TOP, "docs", "GUIDE.md"), machine)
    finally:
        machine.close()
        shutil.rmtree(room, ignore_errors=True)
    print(f"{count} commands of the guide do on {platform.machine()} what it says")


main()
