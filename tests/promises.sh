#!/bin/sh
# Holds every public function of every crate to the rule that its promise settles everything.
#
#     promises.sh [ROOT]
#
# A function falls short where
#   - it has a requires, or no ensures;
#   - its ensures doesn't speak of its result, or of what is left in a table lent for writing;
#   - docs/TRACE.md doesn't list it under "The public functions" with the ground on which two results are equal. That
#     ground is a law (its file and name, and the file speaks of the promise), or "by the equation" where the ensures is
#     written as equations and nothing else.
# docs/DECISIONS.md may name it under "Promises: exceptions", one line each: - `crate::function`: grounds.
# A row or an exception for what isn't there, or doesn't fall short, is a fault too, so both lists stay true.
# What an impl gives for a function of a trait of these crates has the trait's promise, and is judged there.
# A program's main is no public function: nobody can call it.
cd "${1:-$(dirname "$0")/..}" || exit 2
sources=$(find crates -path '*/out' -prune -o -path '*/src/*' -name '*.rt' -print | sort)
[ -n "$sources" ] || { echo "no sources under crates/" >&2; exit 2; }
# The names have no blanks, so the list may be split.
# shellcheck disable=SC2086
LC_ALL=C awk '
function fault(what) { faults++; print what }

# The exceptions: function to grounds.
FILENAME == "docs/DECISIONS.md" {
    if (/^## /) section = $0
    if (section == "## Promises: exceptions" && /^- `/) {
        split($0, part, "`")
        grounds = $0
        sub(/^- `[^`]*`:? */, "", grounds)
        if (grounds == "") fault("docs/DECISIONS.md: no grounds for " part[2])
        excepted[part[2]] = grounds
    }
    next
}

# The table: function to the ground on which two results are equal.
FILENAME == "docs/TRACE.md" {
    if (/^## /) section = $0
    if (section == "## The public functions" && /^\| [a-z_0-9]+ `/) {
        split($0, cell, "|")
        split(cell[2], word, " ")
        n = split(cell[2], part, "`")
        for (i = 2; i <= n; i += 2) row[word[1] "::" part[i]] = cell[4]
    }
    next
}

# The sources, without comments and literals, one text for each crate.
{
    split(FILENAME, folder, "/")
    if (!(folder[2] in text)) crate[++crates] = folder[2]
    line = $0
    gsub(/\\"/, "", line)
    gsub(/"[^"]*"/, "\"\"", line)
    gsub(/\047(\\.|[^\047])\047/, "0", line)
    # lifetimes
    gsub(/\047[A-Za-z_]+ ?/, "", line)
    sub(/\/\/.*/, "", line)
    text[folder[2]] = text[folder[2]] line "\n"
}

# The next bracket, semicolon or word of the text at hand.
function token(    found) {
    if (!match(T, /[{}();]|\[|\]|[A-Za-z_][A-Za-z0-9_]*/)) { T = ""; return "" }
    found = substr(T, RSTART, RLENGTH)
    before = substr(T, 1, RSTART - 1)
    T = substr(T, RSTART + RLENGTH)
    return found
}

# What stands up to the bracket that closes the one just read.
function closed(opening, closing,    inside, t, deep) {
    deep = 1
    while (deep > 0 && (t = token()) != "") {
        if (t == opening) deep++
        if (t == closing) deep--
        inside = inside before (deep > 0 ? t : "")
    }
    return inside
}

# A function from its name on: its parameters, its result and its clauses; the bracket that opens its body is read.
function header(    t, clause) {
    name = token()
    params = ""; result = ""; requires = ""; ensures = ""
    while ((t = token()) != "") {
        if (t == "(") {
            if (params == "") params = closed("(", ")") " "
            else closed("(", ")")
        } else if (t == "[") closed("[", "]")
        else if (t == "{") {
            if (clause == "requires") requires = requires closed("{", "}") " "
            else if (clause == "ensures") ensures = ensures closed("{", "}") " × "
            else return t
            clause = ""
        } else if (t == ";") return t
        if (params != "" && index(before, "->")) result = 1
        # a clause may have a name
        if (t == "requires" || t == "ensures") clause = t
    }
    return t
}

# Whether the ensures is equations and nothing else.
function equations(    part, n, i) {
    n = split(ensures, part, " × ")
    for (i = 1; i <= n; i++) if (part[i] ~ /[^ ]/ && !index(part[i], " ≡ ")) return 0
    return 1
}

# The word that the promise begins with, where it is a relation.
function relation(    words) {
    words = ensures
    sub(/^ */, "", words)
    sub(/[^A-Za-z0-9_].*/, "", words)
    return words
}

# Whether a law stands in a file that also speaks of the relation, if there is one.
function law(file, called, about,    l, stripped, there, spoken) {
    spoken = about == ""
    while ((getline l < ("crates/" file)) > 0) {
        # a law of a section is indented
        stripped = l
        sub(/^ +/, "", stripped)
        if (index(stripped, "pub " called " :") == 1) there = 1
        if (about != "" && index(l, about)) spoken = 1
    }
    close("crates/" file)
    return there && spoken
}

# What is wrong with the ground that the table gives; nothing if it is good.
function unfounded(ground,    n, word, i, file, laws) {
    n = split(ground, word, /[ ,;]+/)
    for (i = 1; i <= n; i++) {
        if (word[i] ~ /\.antt$/) file = word[i]
        else if (file != "" && word[i] ~ /^`.*`$/) {
            gsub(/`/, "", word[i])
            laws++
            if (!law(file, word[i], equations() ? "" : relation())) return "no law " word[i] " about its promise in " file
        }
    }
    if (laws > 0) return ""
    if (ground !~ /by (the|its) (two )?equation/) return "docs/TRACE.md does not say why two results are equal"
    if (!equations()) return "its promise " relation() " is no equation, and docs/TRACE.md names no law that makes two results equal"
    return ""
}

function shortfalls(function_,    said, n, p, i, lent) {
    if (requires != "") said = said "; it has a requires"
    if (ensures == "") return said "; it has no ensures"
    if (result && " " ensures !~ /[^A-Za-z0-9_.]result[^A-Za-z0-9_]/)
        said = said "; its ensures does not speak of the result"
    n = split(params, p, ",")
    for (i = 1; i <= n; i++) if (index(p[i], "&mut")) {
        lent = p[i]
        if (lent ~ /&mut self/) lent = "self"
        sub(/:.*/, "", lent)
        gsub(/[^A-Za-z0-9_]|mut /, "", lent)
        if (" " ensures !~ ("[^A-Za-z0-9_.]" lent "[.]new[^A-Za-z0-9_]")) said = said "; its ensures does not speak of what is left in " lent
    }
    if (!(function_ in row)) return said "; docs/TRACE.md does not list it"
    p[1] = unfounded(row[function_])
    return said (p[1] == "" ? "" : "; " p[1])
}

function judge(function_,    said) {
    all++
    there[function_] = 1
    said = shortfalls(function_)
    sub(/^; /, "", said)
    if (said == "" && function_ in excepted) fault(function_ ": docs/DECISIONS.md excepts it, and it does not fall short")
    if (said == "") return
    if (function_ in excepted) { exceptions++; print function_ ": excepted" }
    else fault(function_ ": " said)
}

# Whether what an impl gives promises what a trait of these crates says, and nothing else; it is judged where the trait says it.
function promised(bound, name,    f) {
    if (bound == "" || requires != "" || ensures != "") return 0
    for (f in row) if (index(f "$", "::" bound "::" name "$")) return 1
    return 0
}

# A crate: functions marked pub, and those of a trait, which are public without the mark.
function in_crate(called,    t, deep, public, owner, at, trait, bound) {
    T = text[called]
    deep = 0; at = -1
    while ((t = token()) != "") {
        if (t == "pub") public = 1
        if (t == "impl" || t == "trait") {
            trait = t == "trait"; owner = ""; bound = ""
            while ((t = token()) != "" && t != "{") {
                if (t == "for") { trait = 1; bound = owner }
                owner = t
            }
            at = deep
        } else if (t == "fn") {
            public = public || (at >= 0 && trait)
            t = header()
            if (public && !(at >= 0 && promised(bound, name))) judge(called "::" (at >= 0 ? owner "::" : "") name)
        }
        if (t == "{") deep++
        if (t == "}" && --deep == at) at = -1
        if (t ~ /[{};]/) public = 0
    }
}

END {
    for (i = 1; i <= crates; i++) in_crate(crate[i])
    for (f in row) if (!(f in there)) fault(f ": docs/TRACE.md lists it, and it is not there")
    for (f in excepted) if (!(f in there)) fault(f ": docs/DECISIONS.md excepts it, and it is not there")
    printf "%d public functions, %d of them exceptions with grounds, %d faults\n", all, exceptions, faults
    exit faults > 0 || all == 0
}
' docs/DECISIONS.md docs/TRACE.md $sources
