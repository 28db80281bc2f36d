# Sourced by scripts that prove many crates (POSIX sh; in the repository's folder): which crates those are, and how long it has taken.

# plan [NAME..]: the named crates (all, if none) and what they stand on, each behind what it stands on
plan() {
    WANTED="$*" awk '
        function visit(n,    a, k, m) {
            if (n in seen) return
            seen[n] = 1
            m = split(deps[n], a, " ")
            for (k = 1; k <= m; k++) if (a[k] in deps) visit(a[k])
            print n
        }
        { sub(/#.*/, "") }
        i = index($0, ":") {
            # a line may say more of the crate than its name, as "host staticlib: .."
            n = substr($0, 1, i - 1)
            sub(/ .*/, "", n)
            deps[n] = substr($0, i + 1)
            list[++count] = n
        }
        END {
            w = split(ENVIRON["WANTED"], want, " ")
            for (k = 1; k <= w; k++) visit(want[k])
            for (k = 1; w == 0 && k <= count; k++) visit(list[k])
        }' crates.txt
}

# minutes SECONDS
minutes() { printf '%d min %02d s' $(($1 / 60)) $(($1 % 60)); }
