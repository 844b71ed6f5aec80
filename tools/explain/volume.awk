# What stands in a volume where a rule of `check` was met, and what was due. From the environment: rule, line, place (A), found (B), and
# the paths dat, opt and manifest.

# the lines of a load file, as they are counted: empty ones are none; of a manifest each line is one
function rows(file, into, all,    text, count) {
    gsub(/\\/, "/", file)
    while ((getline text < file) > 0) {
        if (!all) sub(/\r$/, "", text)
        if (!all && !count) sub(/^\357\273\277/, "", text)
        if (all || text != "") into[++count] = text
    }
    return count + 0
}
function cut(text) { return length(text) > 160 ? substr(text, 1, 160) " .." : text }
function slashes(path) { gsub(/\\/, "/", path); return path }
# the fields of a line of the OPT; the values of a line of the DAT
function field(at, number,    found) { split(opt[at], found, ","); return found[number] }
function values(text, into) {
    sub(/^\303\276/, "", text)
    sub(/\303\276$/, "", text)
    return split(text, into, "\303\276\024\303\276")
}
function value(record, name,    found) {
    if (!(name in column)) return ""
    values(dat[record + 1], found)
    return found[column[name]]
}
# the last line of the document that begins at a line; which document that is
function last(at) { while (at < lines && field(at + 1, 4) != "Y") at++; return at }
function document(at,    count) { for (; at > 0; at--) count += field(at, 4) == "Y"; return count + 0 }
function span(from, to) { return from == to ? from : from " to " to }
# of the paths of DAT, OPT, images and texts the one at a place
function path_at(place,    record) {
    if (place == 0) return ENVIRON["dat"]
    if (place == 1) return ENVIRON["opt"]
    if (place < lines + 2) return field(place - 1, 3)
    place -= lines + 2
    for (record = 1; record <= records; record++)
        if (value(record, "TEXTPATH") != "" && place-- == 0) return value(record, "TEXTPATH")
}
function path_of_read(place) {
    if (place == 3) return field(line, 3)
    if (place == 4) return value(line, "TEXTPATH")
    if (place == 5) return substr(manifest[line], 67)
    return ENVIRON[place == 0 ? "dat" : place == 1 ? "opt" : "manifest"]
}
function breaks(    k) {
    k = document(line)
    if (line > lines) return "the OPT ends with its document " k ", and the DAT has " records " records"
    if (field(line, 4) != "Y") return "line 1 of the OPT has no Y in its fourth field, so no document begins there"
    if (k > records) return "line " line " of the OPT begins the document " k ", and the DAT has " records " records"
    return "document " k " is " span(field(line, 1), field(last(line), 1)) " in the OPT, and " \
        span(value(k, "BEGDOC"), value(k, "ENDDOC")) " in the DAT"
}
function counts() {
    if (field(line, 4) != "Y") return "line " line " of the OPT begins no document, and has " field(line, 7) " in its last field"
    return "the document of line " line " of the OPT has " last(line) - line + 1 " lines; its last field has " \
        (field(line, 7) == "" ? "nothing" : field(line, 7)) ", and PAGECOUNT has " \
        (value(document(line), "PAGECOUNT") == "" ? "nothing" : value(document(line), "PAGECOUNT"))
}
# what is wrong with a path, or nothing
function fault(path,    parts, count, at, real) {
    path = slashes(path)
    if (path == "") return "which is empty"
    if (path ~ /^\//) return "which has / or \\ at its front"
    if (path ~ /:/) return path ~ /^[A-Za-z]:/ ? "which has a drive" : "which has the sign :"
    count = split(path, parts, "/")
    for (at = 1; at <= count; at++) {
        if (parts[at] == "") return at == count ? "which ends with / or \\" : "which has // or \\\\ in it"
        if (parts[at] == "..") return "which has the part .., to a folder above"
        if (parts[at] != ".") real = 1
    }
    return real ? "" : "which names no file"
}
function refused_path(    name) {
    if (line == 0) {
        for (name in ENVIRON)
            if (name ~ /^(dat|opt|manifest)$/ && ENVIRON[name] != "" && fault(ENVIRON[name]) != "")
                return "it is the word " toupper(name) ": " ENVIRON[name] ", " fault(ENVIRON[name])
        return ""
    }
    if (fault(field(line, 3)) != "") return "it is the path of the image in line " line " of the OPT: " field(line, 3) ", " fault(field(line, 3))
    return "it is TEXTPATH of record " line " of the DAT: " value(line, "TEXTPATH") ", " fault(value(line, "TEXTPATH"))
}
# the column of this profile that a column of another vendor is, as far as its name tells
function column_of(name,    plain) {
    plain = toupper(name)
    gsub(/[^A-Z0-9]/, "", plain)
    if (plain == "BEGDOC" || plain == "ENDDOC") return plain
    sub(/NUMBER|NUM|NO$/, "", plain)
    if (plain ~ /^(PROD)?(BEG(IN|INNING)?|FIRST|START)(BATES|PAGE|DOC|PROD|DOCID|CONTROL)?$/) return "BEGDOC"
    if (plain ~ /^(BATES|PROD(UCTION)?|DOC|CONTROL)(BEG(IN|INNING)?|START|FIRST)$/) return "BEGDOC"
    if (plain ~ /^(PROD)?(END(ING)?|LAST|STOP)(BATES|PAGE|DOC|PROD|DOCID|CONTROL)?$/) return "ENDDOC"
    if (plain ~ /^(BATES|PROD(UCTION)?|DOC|CONTROL)(END(ING)?|LAST|STOP)$/) return "ENDDOC"
    return ""
}
function columns_found(    count, at, all, like, hints, seen) {
    count = values(dat[1], name)
    for (at = 1; at <= count; at++) {
        all = all (at > 1 ? ", " : "") name[at]
        if (seen[name[at]]++) hints = hints "; " name[at] " stands twice"
        like = column_of(name[at])
        if (like != "" && like != name[at] && !(like in column)) hints = hints "; " name[at] " looks like " like
    }
    return "the DAT has the columns " cut(all) hints
}
function is_hex(text, digits) { return length(text) == digits && text !~ /[^0-9a-fA-F]/ }
# what is wrong with a line of a manifest, or nothing
function manifest_fault(text,    digest) {
    if (text ~ /\r$/) { sub(/\r$/, "", text); if (manifest_fault(text) == "") return "the line ends in CR LF" }
    if (text ~ /^\357\273\277/) return "the file begins with a byte order mark: it has to be UTF-8 without one"
    if (text == "") return "the line is empty"
    digest = text
    sub(/[ \t,*].*$/, "", digest)
    if (is_hex(digest, 32)) return "the digest is an MD5, of 32 characters; SHA-256 has 64"
    if (is_hex(digest, 40)) return "the digest is a SHA-1, of 40 characters; SHA-256 has 64"
    if (is_hex(digest, 64) && digest ~ /[A-F]/) return "the digest has capitals, as PowerShell writes them; due are 0-9 and a-f"
    if (is_hex(digest, 64) && substr(text, 65, 2) == " *")
        return "before the path stands a space and *, as sha256sum writes it for --binary; due are two spaces"
    if (is_hex(digest, 64) && substr(text, 65, 2) != "  ") return "between digest and path due are two spaces"
    if (is_hex(digest, 64)) return length(text) == 66 ? "it has no path" : ""
    if (match(text, /[0-9a-fA-F]+"?\r?$/) && RLENGTH >= 64) return "the digest stands behind the path; it is due before it"
    return "it doesn't begin with a SHA-256, of 64 characters"
}
function ends_in(text, end) { return length(text) >= length(end) && substr(text, length(text) - length(end) + 1) == end }
# a file that isn't in the manifest: how it stands there in another way
function other_line(path,    at, text, count) {
    path = slashes(path)
    count = listed
    for (at = 1; at <= count; at++) {
        text = slashes(substr(manifest[at], 67))
        if (text == path "\r")
            return "the lines of the manifest end in CR LF, so that each path has a CR at its end; due is LF alone: " \
                "tr -d \"\\r\" < MANIFEST > copy"
        sub(/\r$/, "", text)
        if (tolower(text) == tolower(path)) return "line " at " of the manifest has " text ": capitals and small letters differ"
        if (ends_in(text, "/" path) || ends_in(path, "/" text))
            return "line " at " of the manifest has " text ": its paths begin in another folder"
    }
    return ""
}
# what parts the values of a DAT that has no þ
function other_signs() {
    if (dat[1] ~ /\303\276/) return ""
    return dat[1] ~ /\t/ ? "it has tabs between values, and no þ around them" : \
        dat[1] ~ /,/ ? "it has commas between values, and no þ around them" : ""
}
# an OPT whose images are files of several pages has a line a document
function many_pages(    pages) {
    pages = field(line - 1, 7)
    if (field(line - 1, 4) == "Y" && field(line, 4) == "Y" && pages > 1 && found - place == pages - 1)
        return "line " line - 1 " stands for a document of " pages " pages, and is its only line: its file has all its pages. " \
            "Due is a file and a line a page; tiffsplit makes such files"
    return ""
}
function told() {
    if (rule == 54) return "looked for " slashes(path_of_read(place))
    if (rule == 55) return "the file is " slashes(path_of_read(place))
    if (rule == 50) return "line " line " of the DAT is: " cut(dat[line]) "\n" other_signs()
    if (rule == 63) return refused_path()
    if (rule == 110) return columns_found()
    if (rule == 53) return "line " line " of the OPT is: " cut(opt[line])
    if (rule == 62 || rule >= 70 && rule <= 87) return "the image is " slashes(field(line, 3)) ", of line " line " of the OPT"
    if (rule == 111) return "line " line " of the OPT has the image id " field(line, 1)
    if (rule == 112) return "line " line - 1 " of the OPT has the image id " field(line - 1, 1) ", and line " line " has " field(line, 1) "\n" many_pages()
    if (rule == 113) return breaks()
    if (rule == 114) return counts()
    if (rule == 115) return "line " line " of the manifest is: " cut(manifest[line]) "\n" manifest_fault(manifest[line])
    if (rule == 116) return "the file is " slashes(substr(manifest[line], 67)) ", and the digest that was due " substr(manifest[line], 1, 64)
    if (rule == 117) return "the file is " slashes(path_at(place)) "\n" other_line(path_at(place))
}
BEGIN {
    rule = ENVIRON["rule"] + 0
    line = ENVIRON["line"] + 0
    place = ENVIRON["place"] + 0
    found = ENVIRON["found"] + 0
    lines = rows(ENVIRON["opt"], opt)
    records = rows(ENVIRON["dat"], dat) - 1
    listed = rows(ENVIRON["manifest"], manifest, 1)
    for (at = values(dat[1], name); at > 0; at--) column[name[at]] = at
    said = told()
    # no sign of a volume reaches a terminal as a control character
    gsub(/[\001-\011\013-\037\177]|\302[\200-\237]/, " ", said)
    sub(/\n+$/, "", said)
    if (said != "") print said
}
