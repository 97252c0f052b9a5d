# What both pages need: text as roff has it.

BEGIN {
    glyph["\\"] = "\\e"
    glyph["'"] = "\\(aq"
    glyph["`"] = "\\(ga"
    glyph["\""] = "\\(dq"
    glyph["^"] = "\\(ha"
    glyph["~"] = "\\(ti"
}

# Nothing in it is taken for a command. What is neither code nor between letters is no hyphen.
function plain(s, code,    i, c, out) {
    out = ""
    for (i = 1; i <= length(s); i++) {
        c = substr(s, i, 1)
        if (c in glyph)
            c = glyph[c]
        else if (c == "-" && (code || substr(s, i - 1, 3) !~ /^[A-Za-z]-[A-Za-z]$/))
            c = "\\-"
        out = out c
    }
    return out
}

function bold(s) {
    return "\\fB" plain(s, 1) "\\fR"
}

# Code with every space kept.
function fixed(s,    i, c, out) {
    out = ""
    for (i = 1; i <= length(s); i++) {
        c = substr(s, i, 1)
        out = out (c == " " ? "\\ " : plain(c, 1))
    }
    return out
}

# A line of text. A dot at its start is no command, and one at its end no reason for two spaces.
function line(s) {
    return (s ~ /^\./ ? "\\&" : "") s (s ~ /[.?!][)]*$/ ? "\\&" : "") "\n"
}

function heading(name, section, version) {
    printf ".TH %s %s \"\" \"%s\" Talcfeather\n", name, section, plain(version, 1)
    # Words are not cut, and lines not stretched: names and tables stay as they are.
    printf ".nh\n.ad l\n"
}
