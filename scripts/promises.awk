# promises.awk: the reading behind promises.sh. It is handed the names of all edits on standard input, then docs/PROMISES.md, the
# files Settled.antt and the sources, in this order. Bytes, not characters, are looked at, so that every awk reads the same.

function crate_of(path) {
    sub(/^crates\//, "", path)
    sub(/\/.*/, "", path)
    return path
}

# the next word between backquotes of cell; REST is what follows it
function quoted(cell,    at) {
    at = index(cell, "`")
    if (at == 0) return ""
    cell = substr(cell, at + 1)
    at = index(cell, "`")
    REST = substr(cell, at + 1)
    return substr(cell, 1, at - 1)
}

# a call without its type, its module and its arguments
function plain(call) {
    sub(/[(<].*/, "", call)
    sub(/.*::/, "", call)
    return call
}

# ---- the edits: edit[path], and named[path] once a row has it
FILENAME == "-" || FILENAME == "" || FILENAME == "/dev/stdin" {
    edit[$0] = 1
    next
}

# name_edits CRATE CELL SURE: those that a cell has between backquotes; where it has nothing else, each must be there
function name_edits(crate, cell, sure,    word, path) {
    REST = cell
    while ((word = quoted(REST)) != "") {
        path = "crates/" crate "/" (word ~ /^wrong\// ? word : "must-fail/" word) ".edit"
        if (path in edit) named[path] = 1
        else if (sure) {
            print "docs/PROMISES.md:" FNR ": there is no " path
            failed++
        }
    }
}

# ---- docs/PROMISES.md: row[crate call], theorems[crate call], home[crate call]
function read_call(    n, cell, crate, word, list, where, at) {
    n = split($0, cell, "|")
    crate = cell[2]
    gsub(/[ `]/, "", crate)
    if (n < 8 || crate == "crate" || crate ~ /^-/) return
    list = ""
    REST = cell[6]
    while ((word = quoted(REST)) != "") list = list " " word
    where = crate
    if (match(cell[6], /\(crates\/[a-z_0-9]+\)/)) where = substr(cell[6], RSTART + 8, RLENGTH - 9)
    name_edits(crate, cell[7], 1)
    REST = cell[3]
    while ((word = quoted(REST)) != "") {
        at = crate " " plain(word)
        row[at] = 1
        theorems[at] = theorems[at] list
        home[at] = where
    }
}

# and of those without a full promise: excused[crate call], bare[crate call] where nothing at all is promised
function read_ground(    n, i, k, cell, crate, word) {
    n = split($0, cell, "|")
    if (n < 6 || cell[5] !~ /[a-z]/) return
    k = split(cell[2], crate, ",")
    for (i = 1; i <= k; i++) {
        gsub(/[ `]/, "", crate[i])
        name_edits(crate[i], cell[4], 0)
        REST = cell[3]
        while ((word = quoted(REST)) != "") {
            excused[crate[i] " " plain(word)] = 1
            if (cell[4] ~ /safe and ending, no more/) bare[crate[i] " " plain(word)] = 1
        }
    }
}

# and of the theorems that a wrong definition loses: their edits
function read_loss(    n, cell, crate) {
    n = split($0, cell, "|")
    crate = cell[2]
    gsub(/[ `]/, "", crate)
    if (n >= 5 && crate != "crate" && crate !~ /^-/) name_edits(crate, cell[4], 1)
}

FILENAME ~ /PROMISES\.md$/ {
    if (/^## /) {
        without = /^## Calls without/
        losing = /^## Theorems that a wrong definition loses/
    }
    if (/^\|/ && losing) read_loss()
    else if (/^\|/ && without) read_ground()
    else if (/^\|/) read_call()
    next
}

# ---- Settled.antt: statement[crate theorem]
FILENAME ~ /Settled\.antt$/ {
    if (/^pub [a-z]/) {
        theorem = $2
        said = crate_of(FILENAME) " " theorem
        statement[said] = $0
    } else if (theorem != "" && $1 == theorem) theorem = ""
    else if (theorem != "" && $0 !~ /^--/) statement[said] = statement[said] " " $0
    next
}

# ---- the sources
/^ *pub (extern "C" )?fn / {
    head = $0
    file = FILENAME
    line = FNR
    clauses = 0
    bound = 0
    reading = 1
}
reading && /^ *requires/ { bound = 1 }
reading && /^ *ensures/ {
    clauses++
    clause[clauses] = $0
}
reading && FNR != line && !/^ *(ensures|requires|\{)/ { head = head " " $0 }
reading && (/^ *\{ *$/ || (/\{ *$/ && !/^ *ensures/)) {
    reading = 0
    judge()
}

# ---- terms: tokens between spaces and parentheses. In a promise `x.now` and `x.old` are x, `x.new` is @x and `result` is @answer; in a theorem a
# variable with the numbers behind it, `i.0`, is one token. A field, `.walk`, is a token behind the one that it is of. A name loses the module
# before it, and parentheses around one token go.

# tokens of text into term[1..]; the number of them. `from` says what the text is of: "promise", "theorem", or "binders" where no variable is known yet
function tokens(text, from,    n, i, k, word, parts, part, j, changed) {
    gsub(/[()]/, " & ", text)
    n = split(text, word, " ")
    k = 0
    split("", term)
    for (i = 1; i <= n; i++) {
        # one that is no name with parts behind it: an operator, a number, the point behind the names of a λ
        if (from == "binders" || word[i] !~ /^[A-Za-z_.][A-Za-z_0-9\047]*(\.[A-Za-z_0-9\047]+)*$/ || word[i] == ".") {
            term[++k] = word[i]
            continue
        }
        parts = split(word[i], part, ".")
        j = 1
        # a field behind a parenthesis has no name before its point
        if (part[1] == "") ;
        else if (from == "promise" && part[1] in place_named) {
            term[++k] = part[1] == "result" ? "@answer" : part[1]
            if (parts > 1 && part[2] ~ /^(now|old|new)$/) {
                if (part[2] == "new") term[k] = "@" term[k]
                j = 2
            }
        } else if (from == "theorem" && part[1] in variable) {
            term[++k] = part[1]
            while (j < parts && part[j + 1] ~ /^[0-9]+$/) term[k] = term[k] "." part[++j]
        } else {
            # the modules before a name, as in queues.packets
            term[++k] = part[parts]
            j = parts
        }
        while (j < parts) term[++k] = "." part[++j]
    }
    do {
        changed = 0
        n = k
        k = 0
        for (i = 1; i <= n; i++) {
            if (term[i] == "(" && i + 2 <= n && term[i + 2] == ")" && term[i + 1] != "(") {
                term[++k] = term[i + 1]
                i += 2
                changed = 1
            } else term[++k] = term[i]
        }
    } while (changed)
    return k
}

function is_variable(token) {
    sub(/\..*/, "", token)
    return token in variable
}

# where the parenthesis at `at` closes
function closing(at, n,    i, depth) {
    for (i = at; i <= n; i++) {
        if (term[i] == "(") depth++
        if (term[i] == ")" && --depth == 0) return i
    }
    return n
}

# the parts of term[from..to], joined by ×, each one line of PARTS
function split_parts(from, to,    i, depth, last, arrow) {
    while (term[from] == "(" && closing(from, to) == to) {
        from++
        to--
    }
    last = 0
    for (i = from; i <= to; i++) {
        if (term[i] == "(") depth++
        if (term[i] == ")") depth--
        if (depth == 0 && term[i] == "→") arrow = 1
        if (depth == 0 && term[i] == "×" && !last) last = i
    }
    if (last && !arrow) {
        split_parts(from, last - 1)
        split_parts(last + 1, to)
        return
    }
    for (i = from; i <= to; i++) PARTS = PARTS (i > from ? " " : "") term[i]
    PARTS = PARTS "\n"
}

# the promise: promise[1..promises]
function read_promise(    i, n, text) {
    PARTS = ""
    split("", variable)
    for (i = 1; i <= clauses; i++) {
        text = clause[i]
        sub(/^ *ensures *[a-z_0-9]* *\{ */, "", text)
        sub(/ *\} *$/, "", text)
        n = tokens(text, "promise")
        split_parts(1, n)
    }
    promises = split(PARTS, promise, "\n") - 1
}

# a theorem: law[1..laws], variable[], and `outcome`, the variable of what is settled; 0 where it is no theorem `Settles ..`
function read_theorem(text,    n, i, k, colon) {
    split("", variable)
    outcome = ""
    laws = 0
    n = tokens(text, "binders")
    for (i = 1; i <= n && term[i] != "Settles"; i++) if (term[i] == "(") i = bind(i, n)
    if (term[i] != "Settles") return 0
    if (term[i + 1] != "(") {
        variable["i"] = variable["o"] = 1
        outcome = "o"
        law[++laws] = term[i + 1] " i o"
        return 1
    }
    k = closing(i + 1, n)
    for (i += 3; i < k && term[i] != "."; i++) if (term[i] == "(") i = bind(i, k)
    text = ""
    for (i++; i < k; i++) text = text " " term[i]
    n = tokens(text, "theorem")
    PARTS = ""
    split_parts(1, n)
    laws = split(PARTS, law, "\n") - 1
    return 1
}

# the names of a binder (a b : T); the last is kept as the outcome
function bind(at, n,    i) {
    for (i = at + 1; i <= n && term[i] != ":"; i++) {
        variable[term[i]] = 1
        outcome = term[i]
    }
    return closing(at, n)
}

# whether a part of a theorem is a part of the promise, each variable standing for one token or one group in parentheses, the same all through.
# An outcome stands for the answer or for what is behind a loan, and for no two of them; another variable for nothing of the kind.
function matches(pattern, text,    p, t, np, nt, i, k, word, depth) {
    np = split(pattern, p, " ")
    nt = split(text, t, " ")
    k = 1
    for (i = 1; i <= np; i++) {
        if (k > nt) return 0
        if (!is_variable(p[i])) {
            if (p[i] != t[k]) return 0
            k++
            continue
        }
        word = t[k]
        depth = (word == "(")
        while (depth > 0 && k < nt) {
            k++
            word = word " " t[k]
            depth += (t[k] == "(") - (t[k] == ")")
        }
        k++
        if (word == ")" || !stands(p[i], word)) return 0
    }
    return k == nt + 1
}

function stands(name, word,    base, other) {
    if (name in meaning) return meaning[name] == word
    base = name
    sub(/\..*/, "", base)
    if (base == outcome) {
        if (word !~ /^@[a-z_0-9]+$/) return 0
        for (other in meaning) if (meaning[other] == word) return 0
    } else if (word ~ /@/) return 0
    meaning[name] = word
    order[++bound_names] = name
    return 1
}

# all ways in which the parts of a theorem from k on are parts of the promise: settled[..] gets what each settles
function search_from(k,    j, name, mark) {
    if (k > laws) {
        for (name in meaning) if (meaning[name] ~ /^@/) settled[substr(meaning[name], 2)] = 1
        return
    }
    for (j = 1; j <= promises; j++) {
        if (used[j]) continue
        mark = bound_names
        used[j] = 1
        if (matches(law[k], promise[j])) search_from(k + 1)
        used[j] = 0
        while (bound_names > mark) delete meaning[order[bound_names--]]
    }
}

# what the theorems of a row settle of the call: settled[..]
function settle(at,    n, i, list, s) {
    split("", settled)
    read_promise()
    n = split(theorems[at], list, " ")
    for (i = 1; i <= n; i++) {
        s = home[at] " " list[i]
        if (!(s in statement) || !read_theorem(statement[s])) continue
        split("", meaning)
        split("", used)
        bound_names = 0
        search_from(1)
    }
}

function missing(at) {
    print "docs/PROMISES.md: there is no public function " at
    failed++
}

function fault(what) {
    print file ":" line ": " call ": " what
    faults++
}

function judge(    name, params, n, i, word, at, lent, places) {
    faults = 0
    call = head
    sub(/^ *pub (extern "C" )?fn /, "", call)
    params = call
    sub(/[(<].*/, "", call)
    name = call
    sub(/^[^(]*\(/, "", params)
    at = crate_of(file) " " name
    places = 0
    split("", place_named)
    place_named["result"] = place_named["self"] = 1
    n = split(params, word, /[,()]/)
    for (i = 1; i <= n; i++) {
        if (word[i] !~ /^ *[a-z_0-9]+:/) continue
        lent = word[i]
        sub(/:.*/, "", lent)
        gsub(/ /, "", lent)
        place_named[lent] = 1
        if (word[i] ~ /&(\047[a-z]+ )?mut /) place_of[++places] = lent
    }
    seen[at] = 1
    if (clauses == 0 && !(at in bare)) fault("has no `ensures`")
    if (bound) fault("has a `requires`")
    if (!(at in row) && !(at in excused)) fault("is not in docs/PROMISES.md")
    if (clauses > 0 && at in row) {
        settle(at)
        if (head ~ /->/ && !("answer" in settled)) fault("no theorem of its row, in crates/" home[at] "/proofs/Settled.antt, settles its answer by its own promise")
        for (i = 1; i <= places; i++)
            if (!(place_of[i] in settled)) fault("no theorem of its row, in crates/" home[at] "/proofs/Settled.antt, settles `" place_of[i] "`, which is lent by `&mut`, by its own promise")
    }
    if (faults) failed++
    else passed++
}

END {
    for (at in row) if (!(at in seen)) missing(at)
    for (at in excused) if (!(at in seen)) missing(at)
    for (path in edit) {
        if (path in named) continue
        print path ": no row of docs/PROMISES.md names it"
        failed++
    }
    print passed + 0 " passed, " failed + 0 " failed"
    exit(failed > 0 || passed == 0)
}
