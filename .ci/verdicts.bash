# Sourced by planted and plant: how an edit is shown in a table, and what the prover's messages say of it.
# An edit is refused by a fact where some error is about a claim that does not hold; it broke names only
# where every error is about a name that the changed code no longer gives to its proof.
gone='has no .* that can be named|has no field|has no projection|not in scope|there is no (need|goal)|which was not admitted'

changes() { # the old or new lines of an edit that are of src/, as one cell
    awk '/^file: / { src = /^file: src\// } src' "$2" | sed -n "s/^$1: *//p" |
        sed 's/|/\\|/g; s/^/`/; s/$/`/; s/^``$/nothing/' | paste -sd ' ' -
}

judged() { # sets at and by from a log of the prover, for a crate in the given folder
    local errors first
    # an error that goes on in the next lines, which are indented, is made one line
    errors=$(awk '/^  / { line = line $0; next } { print line; line = $0 } END { print line }' "$1" |
        grep -a -E ': error: |: it is not proved that ' | sed "s|^note: ||; s|^$2/||; s|^\./||" || true)
    first=$(printf '%s\n' "$errors" | grep -a -v -E "$gone" | head -n 1 || true)
    by=fact
    if [ -z "$first" ]; then
        by='names only'
        first=$(printf '%s\n' "$errors" | head -n 1)
    fi
    at=$(printf '%s' "$first" | sed -E 's|^([^:]*:[0-9]+):.*|\1|; s|/Answers.antt||')
}
