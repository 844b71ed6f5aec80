"""Where the files are that a producer's load files name: with drives, other roots, backslashes and other capitals."""
import os
import re
import unicodedata


def parts_of(path):
    """The parts of a path, without a drive, a share's name, or points."""
    path = re.sub(r"^[A-Za-z]:", "", path.strip().strip('"')).replace("\\", "/")
    return [part for part in path.split("/") if part not in ("", ".")]


def folded(parts):
    return tuple(unicodedata.normalize("NFC", part).casefold() for part in parts)


class Files:
    """The files below a folder, found by what a load file says."""

    def __init__(self, root):
        self.root, self.paths = root, []
        for at, folders, names in os.walk(root) if "\0" not in root else ():
            folders.sort()
            self.paths += [os.path.relpath(os.path.join(at, name), root) for name in sorted(names)]
        self.known = set(self.paths)
        self.by_tail = {}
        for path in self.paths:
            key = folded(path.split("/"))
            for at in range(len(key)):
                self.by_tail.setdefault(key[at:], []).append(path)

    def find(self, told):
        """The path below the root, or None; what is said without the root's folders, or with others before them, is found where it
        is one file alone."""
        parts = parts_of(told)
        if "/".join(parts) in self.known:
            return "/".join(parts)
        for at in range(len(parts)):
            found = self.by_tail.get(folded(parts[at:]), [])
            exact = [path for path in found if path.split("/")[-len(parts[at:]) :] == parts[at:]]
            if len(found) == 1 or len(exact) == 1:
                return (exact or found)[0]
            if found:
                return None
        return None

    def full(self, path):
        return os.path.join(self.root, path)


def changes_of(told, found):
    """What was changed of a path that a load file says, in words; none where it is the profile's."""
    changes = []
    if re.match("[A-Za-z]:", told.strip()):
        changes.append("without a drive")
    elif told.strip().startswith(("/", "\\")):
        changes.append("without \\ or / at their front")
    plain = "/".join(parts_of(told))
    tail = "/".join(found.split("/")[-len(plain.split("/")) :])
    if plain == found:
        return changes
    if plain.casefold() == found.casefold():
        return [*changes, "in other capitals"]
    if tail != plain and tail.casefold() == plain.casefold():
        changes.append("in other capitals")
    return [*changes, "below another folder"]
