#!/usr/bin/env python3
"""Tries the units of systemd, nginx' configuration for many matters, backup, restore and the audit trail in a booted system: a clean root in
which the package is installed is booted by systemd-nspawn, without a network but its loopback, and services_trial.py runs there. Needs root,
the built program, systemd-nspawn (Debian's systemd-container), and a root with systemd, nginx and its njs; says what is left out."""
import os
import re
import shutil
import subprocess
import sys

sys.dont_write_bytecode = True
import rooms  # noqa: E402

HERE = os.path.dirname(os.path.abspath(__file__))
TOP = os.path.dirname(os.path.dirname(HERE))
MINUTES = 9
UNIT = """[Unit]
Description=Trial
After=basic.target nginx.service dbus.service systemd-logind.service

[Service]
Type=oneshot
ExecStart=/usr/bin/python3 /srv/services_trial.py
StandardOutput=file:/srv/trial.out
StandardError=file:/srv/trial.out
ExecStopPost=/usr/bin/systemctl poweroff --no-block
"""


def not_tried(why):
    print(f"services.py: NOT TRIED: {why}")
    sys.exit(0)


def furnish(root, run, package):
    """Installs the package, and has the trial run once the system is up."""
    lacking = [name for name in rooms.PACKAGES_OF_SERVICES if not os.path.exists(f"{root}/{name}")]
    if lacking or not os.path.exists(f"{root}/usr/lib/nginx/modules/ngx_http_js_module.so"):
        raise rooms.NotHere(f"the root has no {', '.join(lacking) or 'libnginx-mod-http-js'}")
    shutil.copy(package, f"{root}/srv/tivrenan.deb")
    told = run("dpkg", "-i", "/srv/tivrenan.deb")
    if told.returncode:
        sys.exit(f"services.py: the package couldn't be installed: {told.stdout}{told.stderr}")
    shutil.copy(f"{HERE}/services_trial.py", f"{root}/srv/")
    with open(f"{root}/lib/systemd/system/trial.service", "w", encoding="ascii") as file:
        file.write(UNIT)
    with open(f"{root}/lib/systemd/system/trial.target", "w", encoding="ascii") as file:
        file.write("[Unit]\nRequires=basic.target\nWants=trial.service nginx.service\nAfter=basic.target\nAllowIsolate=yes\n")
    for name in ("machine-id",):
        with open(f"{root}/etc/{name}", "w", encoding="ascii") as file:
            file.write("")


def boot(root):
    """Boots it, and passes on what the trial says; its status, or None where it didn't run."""
    words = ["systemd-nspawn", "-q", "-D", root, "--register=no", "--keep-unit", "--private-network", "--kill-signal=SIGRTMIN+4", "-b",
             "systemd.unit=trial.target"]
    try:
        told = subprocess.run(words, stdin=subprocess.DEVNULL, capture_output=True, text=True, errors="replace", timeout=60 * MINUTES, check=False)
        said = told.stdout + told.stderr
    except subprocess.TimeoutExpired as ended:
        said = str(ended.stdout)
    path = f"{root}/srv/trial.out"
    if not os.path.exists(path):
        print("\n".join(said.splitlines()[-15:]))
        return None
    with open(path, encoding="utf-8", errors="replace") as file:
        text = file.read()
    print(text, end="")
    return 0 if re.search(r"^\d+ checks, 0 not as expected$", text, re.MULTILINE) else 1


def main():
    if not shutil.which("systemd-nspawn"):
        not_tried("systemd-nspawn isn't here (Debian's systemd-container)")
    if subprocess.run([os.path.join(TOP, "tivrenan"), "build", "look"], capture_output=True, check=False).returncode:
        not_tried("the program isn't built from the sources as they stand")
    told = subprocess.run([os.path.join(TOP, "tools/deb.sh")], capture_output=True, text=True, check=True)
    try:
        with rooms.clean_root() as (root, how):
            print(f"services.py: booted by systemd-nspawn, in {how}", flush=True)
            with rooms.inside(root) as run:
                furnish(root, run, os.path.join(TOP, told.stdout.strip()))
            for name in ("proc", "sys", "dev"):
                rooms.run("umount", "-R", "-l", f"{root}/{name}")
            status = boot(root)
            if status is None:
                not_tried("the system couldn't be booted here")
            sys.exit(status)
    except rooms.NotHere as why:
        not_tried(why)


main()
