"""A clean root for a trial: what TIVRENAN_ROOT names, made by clean_root.sh, or this machine's own files; over it a layer in memory, so that
nothing of it is changed. Needs root and Linux' overlay."""
import contextlib
import os
import subprocess
import tempfile

import apart

NEWNS = 0x20000  # of unshare(2)
PACKAGES_OF_SERVICES = ("lib/systemd/systemd", "usr/sbin/nginx", "usr/bin/openssl", "usr/bin/curl", "usr/bin/python3")


class NotHere(Exception):
    """Why no such root can be had, in words."""


def run(*words, **more):
    return subprocess.run(words, capture_output=True, text=True, errors="replace", check=False, **more)


def in_own_mounts():
    """Has what is mounted from now on seen by this process, and what it begins, alone."""
    if os.geteuid() != 0:
        raise NotHere("needs root")
    if apart.LIBC.unshare(NEWNS) != 0 or run("mount", "--make-rprivate", "/").returncode:
        raise NotHere("the system gives no mounts of one's own")


@contextlib.contextmanager
def clean_root():
    """The root, and how it came about, in words."""
    named = os.environ.get("TIVRENAN_ROOT", "")
    told = f"a root made by debootstrap, {named}" if named else "this machine's own files under a layer of memory, as TIVRENAN_ROOT names no clean root"
    in_own_mounts()
    with tempfile.TemporaryDirectory(prefix="root-") as room:
        if run("mount", "-t", "tmpfs", "-o", "mode=755", "none", room).returncode:
            raise NotHere("no file system in memory can be mounted")
        for name in ("upper", "work", "root"):
            os.mkdir(f"{room}/{name}")
        root = f"{room}/root"
        mounted = run("mount", "-t", "overlay", "overlay", "-o", f"lowerdir={named or '/'},upperdir={room}/upper,workdir={room}/work", root)
        try:
            if mounted.returncode:
                raise NotHere(f"no layer can be mounted: {mounted.stderr.strip()}")
            yield root, told
        finally:
            run("umount", "-R", "-l", root)
            run("umount", "-l", room)


@contextlib.contextmanager
def inside(root):
    """A function that runs words in the root, with the kernel's files there."""
    for kind, where in (("proc", "proc"), ("sysfs", "sys")):
        run("mount", "-t", kind, kind, f"{root}/{where}")
    run("mount", "--bind", "/dev", f"{root}/dev")
    yield lambda *words, **more: run("chroot", root, *words, env={"PATH": "/usr/sbin:/usr/bin:/sbin:/bin", "LC_ALL": "C.UTF-8",
                                                                   "DEBIAN_FRONTEND": "noninteractive", "HOME": "/root"}, **more)
