# talc(1), from the help text. An entry of a list is set in by two spaces, its text by more.

# A word that is to be typed, or stands for what is.
function typed(word) {
    return word ~ /^[A-Z]/ ? "\\fI" plain(word, 1) "\\fR" : bold(word)
}

# A word of the text, marked if it is an option or stands for something.
function told(word,    before, after) {
    match(word, /^[(]*/)
    before = substr(word, 1, RLENGTH)
    word = substr(word, RLENGTH + 1)
    match(word, /[.,;:)]*$/)
    after = substr(word, RSTART)
    word = substr(word, 1, RSTART - 1)
    return before (word in stands || word ~ /^--/ ? typed(word) : plain(word)) after
}

function words(s, typing,    n, word, i, out) {
    out = ""
    n = split(s, word, " ")
    for (i = 1; i <= n; i++)
        out = out (i > 1 ? " " : "") (typing ? typed(word[i]) : told(word[i]))
    return out
}

function add(s) {
    said[part] = said[part] s
}

{
    entry = ""
    text = $0
}

/^  [^ ]/ {
    cut = match($0, /[^ ]  +[^ ]/) ? RSTART : length($0)
    entry = substr($0, 3, cut - 2)
    text = substr($0, cut + 1)
    part = entry ~ /^talc / ? "commands" : entry ~ /^-/ ? "options" : "statuses"
}

# The first time, only what stands for something is taken, and how wide the statuses are.
NR == FNR {
    n = split(entry, named, /[ .]+/)
    for (i = 1; i <= n; i++)
        if (named[i] ~ /^[A-Z]+$/)
            stands[named[i]] = 1
    if (part == "statuses" && length(entry) > wide)
        wide = length(entry)
    next
}

FNR == 1 {
    name = $1
    does = plain(substr($0, length($1) + 2))
    sub(/\.$/, "", does)
}

/^[^ ]/ { part = "description" }

# Its heading is the page's own.
/^Exit status:$/ { next }

entry != "" {
    add(".TP" (part == "statuses" ? " " wide + 2 : "") "\n" words(entry, 1) "\n")
    if (part == "commands")
        synopsis = synopsis words(entry, 1) " [\\fIOPTION\\fR ..]\n"
}

text ~ /[^ ]/ {
    if (part == "description" && was == "" && FNR > 1)
        add(".PP\n")
    add(line(words(text)))
}

{ was = $0 }

END {
    heading("TALC", 1, name " " version)
    printf ".SH NAME\n%s \\- %s\n", name, does
    printf ".SH SYNOPSIS\n.nf\n%s.fi\n", synopsis
    printf ".SH DESCRIPTION\n%s", said["description"]
    printf ".SH COMMANDS\n%s", said["commands"]
    printf ".SH OPTIONS\n%s", said["options"]
    printf ".SH EXIT STATUS\n%s", said["statuses"]
    printf ".SH SEE ALSO\n.BR talcfeather (3)\n"
}
