#!/bin/sh
# Real clients at a desk: each gets the status that is due, the desk goes on after it, and afterwards the rows of matter.db
# are those of the calls that were answered, no more and no less.
#   curl              HTTP/1.1; with Expect and a body of 4,000 bytes; as HTTP/1.0; a chunked body; a body of a megabyte and
#                     a byte; without a key; with an unknown key; a document that isn't there
#   http.client       of Python, which sends head and body apart
#   a byte a second   a raw socket that sends a head so
#   head alone        one that sends the head of a POST and ends; and one that closes there
#   garbage           20,000 bytes that are no head
#   half a line       one that sends no more of a head, and ends
#   too many fields   a head with 33 fields, whose sender then waits for the reply
#   a megabyte first  one that sends a megabyte, which is no head, before it reads: the reply comes whole
#   nothing           one that is silent: the desk hangs up after 10 seconds, without a reply
# Needs rt on PATH where the program isn't built; curl, python3, and Debian's sqlite3.
set -eu
here=$(CDPATH='' cd -- "$(dirname -- "$0")" && pwd)
. "$here/common.sh"
need 'curl, python3, sqlite3' curl python3 sqlite3
"$tivrenan" build
make_scratch
enter_room "$scratch/matter"

key='k'
run 0 'matter made' init "$(digest "$key")"
run 0 'batch *' import CVI_001
open_desk serve 1 20

cat > clients.py << 'END'
"""The clients that curl can't be. Words: port, key, way. Prints the status of the reply and the number of its rule, if any."""
import http.client
import json
import socket
import sys
import time

port, key, way = int(sys.argv[1]), sys.argv[2], sys.argv[3]


def call(document):
    return json.dumps({"responsive": True, "treatment": "Produce", "designation": f"BY {way.upper()}"}), f"/docs/{document}/call"


def tell(status, body):
    refusal = json.loads(body) if body[:1] == b"{" else {}
    print(status, refusal.get("rule", ""))
    sys.exit()


def raw():
    peer = socket.create_connection(("127.0.0.1", port), timeout=120)
    peer.setsockopt(socket.IPPROTO_TCP, socket.TCP_NODELAY, 1)
    return peer


def reply(peer):
    came = b""
    while piece := peer.recv(65536):
        came += piece
    head, _, body = came.partition(b"\r\n\r\n")
    if b"Content-Length: %d" % len(body) not in head:
        sys.exit("the reply isn't whole")
    tell(int(head.split()[1]), body)


if way == "http.client":
    client = http.client.HTTPConnection("127.0.0.1", port, timeout=30)
    body, target = call(4)
    client.request("POST", target, body, {"Desk-Key": key})
    answer = client.getresponse()
    tell(answer.status, answer.read())
peer = raw()
if way == "slow":
    for byte in f"GET /docs/1 HTTP/1.1\r\nDesk-Key: {key}\r\n\r\n".encode():
        peer.sendall(bytes([byte]))
        time.sleep(1)
elif way in ("ends", "closes"):
    body, target = call(5)
    peer.sendall(f"POST {target} HTTP/1.1\r\nDesk-Key: {key}\r\nContent-Length: {len(body)}\r\n\r\n".encode())
    if way == "closes":
        peer.close()
        print("closed")
        sys.exit()
    peer.shutdown(socket.SHUT_WR)
elif way == "half":
    peer.sendall(b"GET /docs")
    peer.shutdown(socket.SHUT_WR)
elif way == "megabyte":
    peer.sendall(b"x" * 1048576)
elif way == "nothing" and not peer.recv(1):
    print("no reply")
    sys.exit()
elif way == "garbage":
    peer.sendall(bytes(range(1, 201)) * 100)
elif way == "fields":
    fields = "".join(f"Field-{number}: x\r\n" for number in range(32))
    peer.sendall(f"GET /docs/1 HTTP/1.1\r\nDesk-Key: {key}\r\n{fields}\r\n".encode())
reply(peer)
END

failed=0
# what is due, the client, its command
expect() {
    due=$1 client=$2
    shift 2
    told=$("$@") || told="no reply"
    if [ "$told" = "$due" ]; then
        printf '%-26s %s\n' "$client" "$told"
    else
        printf '%-26s NOT AS DUE: %s in place of %s\n' "$client" "$told" "$due"
        failed=1
    fi
}

# the status of a reply to curl, and the number of its rule, if any
status_of() {
    target=$1
    shift
    code=$(curl -s --retry 60 --retry-connrefused --retry-delay 1 -o body -w '%{http_code}' "$@" "http://127.0.0.1:$port$target")
    echo "$code $(sed -n 's/.*"rule":\([0-9]*\).*/\1/p' body)"
}
raw() { python3 clients.py "$port" "$key" "$1"; }

# designation, more of the body
body() { printf '{"responsive":true,"treatment":"Produce","designation":"%s"%s}' "$1" "${2-}"; }

held="Desk-Key: $key"
padding=$(printf '%4000s' '' | tr ' ' x)
expect '200 ' 'curl' status_of /docs/1/call -H "$held" --data-binary "$(body 'BY CURL')"
expect '200 ' 'curl, Expect' status_of /docs/2/call -H "$held" -H 'Expect: 100-continue' --data-binary "$(body 'BY EXPECT' ",\"note\":\"$padding\"")"
expect '200 ' 'curl, HTTP/1.0' status_of /docs/3/call -H "$held" --http1.0 --data-binary "$(body 'BY HTTP-1.0')"
expect '400 102' 'curl, chunked' status_of /docs/6/call -H "$held" -H 'Transfer-Encoding: chunked' --data-binary "$(body 'BY CHUNKS')"
head -c 1048577 /dev/zero | tr '\0' ' ' > long
expect '413 103' 'curl, too long a body' status_of /docs/6/call -H "$held" -H 'Expect:' --data-binary @long
expect '401 104' 'curl, no key' status_of /docs/6/call --data-binary "$(body 'BY NOBODY')"
expect '401 9' 'curl, an unknown key' status_of /docs/6/call -H 'Desk-Key: another' --data-binary "$(body 'BY ANOTHER')"
expect '404 105' 'curl, no document 0' status_of /docs/0 -H "$held"
expect '404 10' 'curl, no document 13' status_of /docs/13 -H "$held"
expect '200 ' 'http.client' raw http.client
expect '400 102' 'head alone' raw ends
expect 'closed' 'head alone, and closes' raw closes
expect '400 101' 'garbage' raw garbage
expect '400 101' 'half a line' raw half
expect '400 101' 'too many fields' raw fields
expect '400 101' 'a megabyte first' raw megabyte
expect 'no reply' 'nothing' raw nothing
expect '200 ' 'a byte a second' raw slow
expect '200 ' 'curl, a page' status_of /docs/1/pages/1 -H "$held"
expect '200 ' 'curl again' status_of /docs/12/call -H "$held" --data-binary "$(body 'BY CURL AGAIN')"

wait "$desk" || { echo "clients.sh: the desk ended with $?" >&2; failed=1; }
desk=''
# the history has each call that was read: 5 decisions, 2 of documents and pages seen, 2 that a rule refused
expect 'served 9' 'the desk' cat served

python3 - << 'END' || failed=1
import sqlite3
import struct
import sys

due = {1: "BY CURL", 2: "BY EXPECT", 3: "BY HTTP-1.0", 4: "BY HTTP.CLIENT", 12: "BY CURL AGAIN"}


def row(designation):
    text = designation.encode()
    return b"\1" + struct.pack("<BIIBBI", 1, 1, 0, 1, 0, len(text)) + text


rows = dict(sqlite3.connect("matter.db").execute("SELECT k1, body FROM kept WHERE kind = 5"))
if rows != {document: row(designation) for document, designation in due.items()}:
    sys.exit(f"clients.sh: other calls are kept than were answered: {rows}")
print("the rows               those of the calls that were answered")
END
[ "$failed" -eq 0 ]
