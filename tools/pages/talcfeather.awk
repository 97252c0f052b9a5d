# talcfeather(3), from the header. A comment at the margin opens a group, which runs to the next: a
# call, or constants. The first comment of all is the description. What is not known is refused.

# Text with its names marked: calls, and what stands in backquotes.
function told(s,    out, name) {
    out = ""
    while (match(s, /`[^`]+`|talc_[a-z0-9_]+\(\)/)) {
        name = substr(s, RSTART, RLENGTH)
        out = out plain(substr(s, 1, RSTART - 1))
        s = substr(s, RSTART + RLENGTH)
        gsub(/`/, "", name)
        out = out bold(name)
    }
    return out plain(s)
}

# Where text begins in a list's entry that is set in, after a name and two spaces; else 0.
function begins(s) {
    return s ~ /^ / && match(s, /[^ ]  +[^ ]/) ? RSTART + RLENGTH - 1 : 0
}

# Where text begins in a list whose entries start at the margin, with what follows set in; else 0.
function hangs(i,    at) {
    while (comment[i] ~ /^[^ ]/)
        i++
    if (comment[i] !~ /^ / || begins(comment[i]))
        return 0
    match(comment[i], /^ +/)
    at = RLENGTH + 1
    return hung(comment[i - 1], at) ? at : 0
}

function hung(s, at) {
    return at && s ~ /^[^ ]/ && substr(s, at - 1, 2) ~ /^ [^ ]$/
}

# What has to stand between what is now and a line of that kind: start, text, list or code.
function into(kind,    out) {
    out = ""
    if (now == "list" && kind != "list")
        out = ".PD\n"
    if (now == "code" && kind != "code")
        out = out ".fi\n"
    if (kind == "list" && !(now == "start" || now == "text" && gap))
        out = out ".PD 0\n"
    if ((kind == "text" || kind == "code") && now != "start" && (now != kind || gap))
        out = out ".PP\n"
    if (kind == "code" && now != "code")
        out = out ".nf\n"
    now = kind
    gap = 0
    return out
}

# One line of a comment; `at` is where text begins if it is a list's entry.
function laid(s, at,    name) {
    if (at) {
        name = substr(s, 1, at - 1)
        sub(/ +$/, "", name)
        return into("list") ".TP " at - 1 "\n" line(fixed(name)) line(told(substr(s, at)))
    }
    if (s ~ /^ / && now == "list") {
        sub(/^ +/, "", s)
        return line(told(s))
    }
    if (s ~ /^ /)
        return into("code") line(fixed(s))
    if (now == "text" && !gap && s ~ /^[A-Z][a-z]+( \([0-9]+\))?: /)
        return ".br\n" line(told(s))
    return into("text") line(told(s))
}

# The comment from line i on, below what there is of the section.
function text_from(i, kind,    s, at, out) {
    out = ""
    now = kind
    gap = 1
    at = hangs(i)
    for (; i <= lines; i++) {
        s = comment[i]
        if (s == "") {
            gap = 1
            at = hangs(i + 1)
        } else if (s ~ /^-+$/)
            out = out into("start") ".SS " told(comment[++i]) "\n"
        else
            out = out laid(s, hung(s, at) ? at : begins(s))
    }
    return out into("start")
}

# Constants that stand together: as they are, or as a list if any has a note.
function table(    i, wide, noted, item) {
    for (i = 1; i <= constants; i++) {
        wide = length(constant[i]) > wide ? length(constant[i]) : wide
        noted = noted note[i]
    }
    for (i = 1; i <= constants; i++) {
        item = fixed(constant[i]) "\n"
        if (noted != "")
            item = (i == 2 ? ".PD 0\n" : "") ".TP " wide + 2 "\n" item
        tables = tables (noted == "" && i == 1 ? ".PP\n.nf\n" : "") item
        tables = tables (note[i] == "" ? "" : line(told(note[i])))
    }
    if (constants)
        tables = tables (noted == "" ? ".fi\n" : ".PD\n")
    constants = 0
}

# A heading for constants: what their comment says first. Where it says no more, it is used up.
function about(    i, all, cut) {
    for (i = 1; i <= lines; i++)
        all = all (all == "" ? "" : " ") comment[i]
    cut = match(all, /[.,:;]/) ? RSTART : length(all) + 1
    if (cut >= length(all))
        lines = 0
    return plain(substr(all, 1, cut - 1))
}

function close_group(    text) {
    table()
    if (calls != "") {
        called = called ".SS " calls "\n.nf\n" declared ".fi\n"
        called = called text_from(1, "text") tables
    } else if (lines) {
        valued = valued ".SS " about() "\n"
        text = text_from(1, "start")
        if (text == "")
            sub(/^\.PP\n/, "", tables)
        valued = valued text tables
    } else if (tables != "")
        refuse("constants without a comment")
    lines = 0
    calls = declared = tables = ""
}

# The first comment: its first line is "Name: what it is."
function describe(    i) {
    for (i = 1; comment[i] == ""; i++)
        ;
    name = comment[i]
    description = text_from(i + 1, "start")
    lines = 0
}

# A line of a declaration. The second and later ones are set in by four: aligned, they are too wide.
function declare(s,    ends, i, code) {
    ends = s ~ /[;{]/
    depth = braces(s)
    inside = !ends ? "declaration" : depth ? "body" : ""
    sub(/ *[;{].*/, "", s)
    sub(/^ +/, "    ", s)
    if (s != "")
        part[++parts] = s
    if (!ends)
        return
    if (!match(part[1], /talc_[a-z0-9_]+\(/))
        refuse("a declaration of no call")
    calls = calls (calls == "" ? "" : ", ") plain(substr(part[1], RSTART, RLENGTH) ")")
    for (i = 1; i <= parts; i++)
        code = code bold(part[i] (i == parts ? ";" : "")) "\n"
    declared = declared code
    synopsis = synopsis ".PP\n" code
    parts = 0
}

function braces(s) {
    return gsub(/[{]/, "", s) - gsub(/[}]/, "", s)
}

# A constant, or a macro that takes arguments: of that, what it takes.
function define(s,    at) {
    sub(/^#define +/, "", s)
    at = index(s, "/*")
    note[++constants] = ""
    constant[constants] = at ? substr(s, 1, at - 1) : s
    if (s ~ /^[A-Z_0-9]+\(/)
        constant[constants] = substr(s, 1, index(s, ")"))
    sub(/ +$/, "", constant[constants])
    if (at)
        annotate(substr(s, at + 2))
    else if (s ~ /\\$/)
        inside = "macro"
}

# What stands behind a constant, which may go on in the next line.
function annotate(s) {
    inside = s ~ /\*\// ? "" : "note"
    sub(/ *\*\/.*/, "", s)
    sub(/^ +/, "", s)
    note[constants] = note[constants] (note[constants] == "" ? "" : " ") s
}

function refuse(why) {
    printf "tools/man: include/talcfeather.h, line %d: %s\n", FNR, why | "cat >&2"
    refused = 1
    exit 1
}

inside == "" && /^\/\*/ {
    close_group()
    inside = "comment"
}

inside == "comment" {
    s = $0
    sub(/ *\*\/.*/, "", s)
    comment[++lines] = substr(s, 4)
    comment[lines + 1] = ""
    if (/\*\//) {
        inside = ""
        if (name == "")
            describe()
    }
    next
}

inside == "note" { annotate($0); next }

inside == "macro" {
    if (!/\\$/)
        inside = ""
    next
}

# Of a function that stands here as a whole, the head is enough.
inside == "body" {
    depth += braces($0)
    if (!depth)
        inside = ""
    next
}

/^#define [A-Z_]+$/ { next }
/^#define / { define($0); next }
/^#(include|ifdef|ifndef|if|else|endif)/ || /^extern "C"/ || /^}$/ { next }
/^$/ { table(); next }
inside == "declaration" || /^[a-z]/ { declare($0); next }
{ refuse("what is this?") }

END {
    if (refused)
        exit 1
    close_group()
    what = name
    sub(/^[^:]*: */, "", what)
    sub(/\.$/, "", what)
    heading("TALCFEATHER", 3, "talcfeather " version)
    printf ".SH NAME\ntalcfeather \\- %s\n", plain(what)
    printf ".SH SYNOPSIS\n.nf\n%s\n%s.fi\n.PP\n", bold("#include <talcfeather.h>"), synopsis
    printf "%s\n", bold("cc .. $(pkg-config --cflags --libs talcfeather)")
    printf ".SH DESCRIPTION\n%s.SH CALLS\n%s.SH CONSTANTS\n%s", description, called, valued
    printf ".SH SEE ALSO\n.BR talc (1)\n"
}
