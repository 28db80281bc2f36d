# Sourced by edits.sh and wrong.sh (POSIX sh): how an edit is applied, and what rt's line about a refused edit shows.

# replace FILE OLD NEW: puts NEW in the place of OLD, which must stand in the file exactly once
replace() {
    OLD=$2 NEW=$3 awk '
        { text = text $0 "\n" }
        END {
            old = ENVIRON["OLD"]
            at = old == "" ? 0 : index(text, old)
            if (!at) exit 3
            rest = substr(text, at + length(old))
            if (index(rest, old)) exit 4
            printf "%s%s%s", substr(text, 1, at - 1), ENVIRON["NEW"], rest
        }' "$1" >"$1.edited"
    case $? in
    0) mv "$1.edited" "$1" ; return ;;
    3) echo "an 'old:' text is not in ${1#"$dir"/}" ;;
    *) echo "an 'old:' text is in ${1#"$dir"/} more than once" ;;
    esac
    rm -f "$1.edited"
    return 1
}

# apply_edit DIR EDIT: makes the replacements of an edit in the crate folder DIR. The form is that of rt must-fail: a 'file:' line holds for
# the 'old:' and 'new:' pairs after it. Where it cannot be made the reason is printed and the status is 1.
apply_edit() {
    dir=$1 file='' old='' pairs=0
    while IFS= read -r line || [ -n "$line" ]; do
        case $line in
        'file: '*) file=${line#file: } ;;
        'old: '*) old=${line#old: } ;;
        'new:'*)
            new=${line#new:}
            case $file in
            *../*) file= ;;
            src/* | specs/* | proofs/*) ;;
            *) file= ;;
            esac
            [ -n "$file" ] && [ -f "$dir/$file" ] || { echo "a 'file:' line names no file of the crate"; return 1; }
            replace "$dir/$file" "$old" "${new# }" || return 1
            old='' pairs=$((pairs + 1))
            ;;
        esac
    done <"$2"
    [ "$pairs" -gt 0 ] || { echo "it has no 'old:' and 'new:' pair"; return 1; }
}

# said_of LOG CRATE FILE: what rt said of that edit, from 'refused, as it must be' on; nothing where it did not try it
said_of() {
    LABEL="rt: must-fail $2/$3: " awk 'index($0, ENVIRON["LABEL"]) == 1 { print substr($0, length(ENVIRON["LABEL"]) + 1); exit }' "$1"
}

# shows_nothing WORDS: an edit is worth something only where it is refused because a fact no longer holds. Prints why this one, of which rt said
# these words, shows nothing; status 1 where it does show something.
shows_nothing() {
    case $1 in
    '') echo "rt did not try it" ;;
    'refused, as it must be') echo "rt does not say what was refused" ;;
    'refused, as it must be (only because a proof file names '* | \
        'refused, as it must be: '*'has no `'* | 'refused, as it must be: '*'has no field'* | \
        'refused, as it must be: '*'is not in scope'* | 'refused, as it must be: '*'was not admitted'*)
        echo "shows nothing: the proof file no longer fits the edited code ($(printf '%s' "$1" | cut -c1-300))"
        ;;
    'refused, as it must be (only by a limit '*) echo "shows nothing: the prover gave no verdict ($(printf '%s' "$1" | cut -c1-300))" ;;
    'refused, as it must be: '*) return 1 ;;
    *) printf '%s\n' "$1" ;;
    esac
}
