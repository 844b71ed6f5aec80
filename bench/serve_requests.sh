# Sourced by serve.sh and serve_desks.sh: the requests that clients make at a desk of bp_bench_desk.
# shellcheck shell=sh disable=SC2034,SC2154 # names of this file are for those who source it, and `port` is common.sh's

key='the key of Ellis'
# a request: its first line, and its body where it has one
request() {
    printf '%s HTTP/1.1\r\nHost: 127.0.0.1:%s\r\nUser-Agent: curl/8.5.0\r\nAccept: */*\r\nDesk-Key: %s\r\n' "$1" "$port" "$key"
    [ -z "${2-}" ] || printf 'Content-Length: %s\r\nContent-Type: application/json\r\n' "${#2}"
    printf '\r\n%s' "${2-}"
}

# the requests of SetCall and SeePage, and what a reviewer asks of a document one after another, in files: a `@` is the number of a
# document, a `~` changes each time (serve_client.c). None is refused, whatever other reviewers asked before
write_requests() {
    request 'POST /docs/@/call' '{"responsive":true,"treatment":"Redact","designation":"CONFIDENTIAL ~"}' > "$1/call"
    request 'GET /docs/@/pages/1' > "$1/page"
    request 'GET /docs/@' > "$1/see"
    request 'GET /docs/@/pages/1/words' > "$1/words"
    request 'POST /docs/@/box' '{"num":1,"page":1,"left":0,"top":0,"width":2,"height":1,"basis":"PI"}' > "$1/box"
    request 'POST /docs/@/hold' '{"field":"AUTHOR","basis":"PI"}' > "$1/hold"
    request 'POST /docs/@/entry' '{"date":"2024-01-01","author":"Ng","recipients":"Ortiz","description":"a name ~"}' > "$1/entry"
    # a body of almost a megabyte, in members that are passed over
    more=$(awk 'BEGIN { for (at = 0; at < 66000; at++) printf ",\"m%06d\":%d", at, at }')
    request 'POST /docs/@/call' "{\"responsive\":true,\"treatment\":\"Redact\",\"designation\":\"CONFIDENTIAL ~\"$more}" > "$1/long"
    mix=$1/see,$1/words,$1/call,$1/box,$1/hold,$1/entry
}
