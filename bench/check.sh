#!/bin/sh
# A check by the command of a volume of letter pages (300 dots an inch, Group 4, three a document, with texts and a manifest) beside public
# tools in the same run: `sha256sum -c` over its manifest, and `tiffinfo` over each image, which reads its fields and not its
# pixels; and beside `tiffinfo -D` over all images at once, which reads the pixels too, and starts once. Processor time and time
# on the clock, the least of three rounds, in which they take turns; the files stand in a file system in memory where there is
# one. Then the growth up to ten times as many pages, where the memory is to stay. At most 1.2 times the processor time of the first two
# is wanted. A word: how many pages, 2,000 where none is given. Needs rt on PATH where the program isn't built; python3, sha256sum
# and tiffinfo (libtiff-tools).
set -eu
here=$(CDPATH='' cd -- "$(dirname -- "$0")" && pwd)
. "$here/../trials/common.sh"
pages=${1:-2000}
[ -d /dev/shm ] && TMPDIR=${TMPDIR:-/dev/shm} && export TMPDIR
make_scratch
build

cat > "$scratch/turns.py" << 'END'
import os, resource, subprocess, sys, time
program, volume, pages = sys.argv[1], sys.argv[2], int(sys.argv[3])
images = sorted(f"I/{name}" for name in os.listdir(f"{volume}/I"))
check = [[program, "check", "load.dat", "load.opt", "MANIFEST.TXT"]]
tools = {
    "check": check,
    "sha256sum": [["sha256sum", "--quiet", "-c", "MANIFEST.TXT"]],
    "tiffinfo": [["tiffinfo", image] for image in images],
    "tiffinfo -D": [["tiffinfo", "-D", *images[at : at + 1000]] for at in range(0, len(images), 1000)],
}
if len(sys.argv) > 4:
    tools = {"check": check}
least, memory = {}, 0
for _ in range(3):
    for name, commands in tools.items():
        before, begun = resource.getrusage(resource.RUSAGE_CHILDREN), time.monotonic()
        for command in commands:
            subprocess.run(command, check=True, stdout=subprocess.DEVNULL, cwd=volume)
        after, clock = resource.getrusage(resource.RUSAGE_CHILDREN), time.monotonic() - begun
        used = after.ru_utime + after.ru_stime - before.ru_utime - before.ru_stime
        if name == "check":
            with subprocess.Popen(commands[0], stdout=subprocess.DEVNULL, cwd=volume) as process:
                _, _, usage = os.wait4(process.pid, 0)
                process.returncode = 0
            memory = max(memory, usage.ru_maxrss)
        had = least.get(name, (used, clock))
        least[name] = (min(had[0], used), min(had[1], clock))
for name, (used, clock) in least.items():
    print(f"{pages:6} pages: {name:12} {used:7.2f} s of the processor, {clock:7.2f} s on the clock")
print(f"{pages:6} pages: check takes {1000 * least['check'][0] / pages:.2f} ms a page and {memory / 1024:.0f} MB")
if "tiffinfo" in least:
    both = least["sha256sum"][0] + least["tiffinfo"][0]
    pixels = least["sha256sum"][0] + least["tiffinfo -D"][0]
    print(f"{pages:6} pages: {least['check'][0] / both:.2f} times sha256sum and tiffinfo, {least['check'][0] / pixels:.2f} times sha256sum and tiffinfo -D")
END

python3 "$here/make_volume.py" "$scratch/volume" "$pages" "$letter"
python3 "$scratch/turns.py" "$program" "$scratch/volume" "$pages"
rm -rf "$scratch/volume"
for count in $((pages * 3)) $((pages * 10)); do
    python3 "$here/make_volume.py" "$scratch/volume" "$count" "$letter"
    python3 "$scratch/turns.py" "$program" "$scratch/volume" "$count" alone
    rm -rf "$scratch/volume"
done
