"""What keeps trials apart from the machine: a network that has a loopback alone, and an end of all that a trial began. Linux."""
import ctypes
import fcntl
import os
import signal
import socket
import struct
import time

NEWUSER, NEWNET = 0x10000000, 0x40000000  # of unshare(2)
PR_SET_CHILD_SUBREAPER = 36
SIOCSIFFLAGS, IFF_UP, IFF_RUNNING = 0x8914, 0x1, 0x40
DESK_PORTS = "48201-48216"
LIBC = ctypes.CDLL(None, use_errno=True)


# ---- a network of its own


def put(path, text):
    with open(path, "w", encoding="ascii") as file:
        file.write(text)


def raise_loopback():
    with socket.socket() as any_socket:
        fcntl.ioctl(any_socket, SIOCSIFFLAGS, struct.pack("16sH14x", b"lo", IFF_UP | IFF_RUNNING))


def keep_desk_ports():
    """Has the system give no client a desk's port: a port that a client had is taken for another minute."""
    try:
        put("/proc/sys/net/ipv4/ip_local_reserved_ports", DESK_PORTS)
    except OSError:
        pass  # a desk tries its port again until it is free


def leave_network(flags):
    """Has this process in a network of its own; by NEWUSER it becomes root of a room of its own, too."""
    user, group = os.geteuid(), os.getegid()
    if LIBC.unshare(flags) != 0:
        raise OSError(ctypes.get_errno(), "unshare")
    if flags & NEWUSER:
        put("/proc/self/setgroups", "deny")
        put("/proc/self/uid_map", f"0 {user} 1")
        put("/proc/self/gid_map", f"0 {group} 1")
    raise_loopback()
    keep_desk_ports()


def can_leave(flags):
    """Whether the system allows that: a child tries it."""
    child = os.fork()
    if child == 0:
        try:
            leave_network(flags)
            os._exit(0)
        except BaseException:  # whatever it was, the child ends here
            os._exit(1)
    return os.waitpid(child, 0)[1] == 0


def in_own_network():
    """Whether this process, and all that it begins, is in a network of its own from now on. To be called before any thread is."""
    flags = next((flags for flags in (NEWNET, NEWUSER | NEWNET) if can_leave(flags)), None)
    if flags is not None:
        leave_network(flags)
    return flags is not None


# ---- what was begun


def adopt():
    """From now on a process whose parent ends comes to this one, and so is still below it."""
    LIBC.prctl(PR_SET_CHILD_SUBREAPER, 1, 0, 0, 0)


def begun():
    """The processes below this one."""
    below = {}
    for name in filter(str.isdigit, os.listdir("/proc")):
        try:
            with open(f"/proc/{name}/stat", encoding="ascii", errors="replace") as file:
                parent = int(file.read().rpartition(")")[2].split()[1])
        except OSError:
            continue  # it has ended
        below.setdefault(parent, []).append(int(name))
    found, todo = [], [os.getpid()]
    while todo:
        more = below.get(todo.pop(), [])
        found += more
        todo += more
    return found


def end_begun():
    """Ends all that was begun below this process, and waits for it."""
    for _ in range(200):
        for each in begun():
            try:
                os.kill(each, signal.SIGKILL)
            except ProcessLookupError:
                pass
        try:
            while os.waitpid(-1, os.WNOHANG)[0]:
                pass
        except ChildProcessError:
            return
        time.sleep(0.05)
