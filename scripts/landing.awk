# landing.awk: the file at BASE and the file now, read for landing.sh. With kind=definitions a definition is a name at the left edge with all
# lines up to the next one; with kind=ensures a function is its name with its `requires` and `ensures`. Prints which are new, changed and gone.

FNR == 1 {
    side = FILENAME == ARGV[1] ? 1 : 2
    name = ""
    type = ""
}
/^ *(--|\/\/)/ || /^ *$/ || /^(pub )?(use|mod|ghost|import) / { next }

kind == "definitions" && /^[^ \t})]/ {
    word = $0
    sub(/^((abbrev|unfoldable|pub|record|data|opaque|infix[lr]?) +)+/, "", word)
    sub(/[ :].*/, "", word)
    if (word != "unfolding") name = word
}
kind == "ensures" && /^impl / {
    type = $2 "::"
    next
}
kind == "ensures" && /^}/ { type = "" }
kind == "ensures" && /^ *(pub )?(extern "C" )?fn / {
    name = $0
    sub(/^.*fn /, "", name)
    sub(/[(<].*/, "", name)
    name = type name
    note(name, "")
}
kind == "definitions" && name != "" || /^ *(requires|ensures)/ { note(name, $0) }

function note(what, line) {
    if (!((side, what) in text)) {
        if (!(what in place)) {
            place[what] = ++known
            named[known] = what
        }
        text[side, what] = "."
        lines[side, what] = 0
    }
    if (line != "") {
        text[side, what] = text[side, what] "\n" line
        lines[side, what]++
    }
}

function told(how, list) {
    if (list != "") print "  " (kind == "ensures" ? "ensures" : "specs") ": " file ": " how list
}

END {
    for (i = 1; i <= known; i++) {
        what = named[i]
        before = (1, what) in text
        after = (2, what) in text
        if (!before && lines[2, what]) fresh = fresh " " what " (" lines[2, what] ")"
        else if (!after && lines[1, what]) gone = gone " " what " (" lines[1, what] ")"
        else if (before && after && text[1, what] != text[2, what]) changed = changed " " what " (" lines[1, what] " to " lines[2, what] ")"
    }
    told("new", fresh)
    told("changed", changed)
    told("gone", gone)
}
