"""The desks of a matter under systemd: ended for a while, and begun again whatever happens meanwhile."""
import contextlib
import os
import shutil
import subprocess

KINDS = ("tivrenan-desk", "tivrenan-deliver")


def systemctl(*words):
    return subprocess.run(["systemctl", *words], stdin=subprocess.DEVNULL, capture_output=True, text=True, check=False)


def units_of(folder):
    """The units that would serve this matter: those of its folder's name, where systemd runs here."""
    if not shutil.which("systemctl") or not os.path.isdir("/run/systemd/system") or os.path.dirname(folder) != "/srv/matters":
        return []
    return [f"{kind}@{os.path.basename(folder)}.service" for kind in KINDS]


@contextlib.contextmanager
def ended(folder):
    """Ends those that are open, and yields a function that begins them again, which is called at the end where it wasn't before."""
    found = [unit for unit in units_of(folder) if systemctl("is-active", "--quiet", unit).returncode == 0]
    for unit in found:
        told = systemctl("stop", unit)
        if told.returncode:
            raise OSError(f"systemctl stop {unit}: {told.stderr.strip()}")

    def begin():
        while found:
            unit = found.pop()
            told = systemctl("start", unit)
            if told.returncode:
                print(f"{unit} couldn't be begun again: {told.stderr.strip()}", flush=True)

    try:
        yield begin
    finally:
        begin()
