# Holding the built programs and the C static library to the oracle: what compare and fresh share.
# Sourced by them; the counts below are theirs to print.
top=$(cd "$(dirname "${BASH_SOURCE[0]}")/.." && pwd)
oracle=$top/oracle/oracle
dir=$(mktemp -d)
trap 'rm -rf "$dir"' EXIT

cases=0   # trial cases
answers=0 # their answers
outputs=0 # outputs of the programs guilds and judge
masks=0   # answers of the library
differ=0

build() { # the programs to build; the oracle and the library are built too
    make -s -C "$top/oracle" oracle
    "$top/tools/build" chost "$@"
    cc -std=c99 -Wall -Wextra -Werror -O2 -I"$top/host" -o "$dir/library" "$top/oracle/library.c" \
        "$top/crates/chost/out/libchost.a"
}

differs() { # what was run, and on what
    differ=$((differ + 1))
    echo "differs: $1 on $2"
    diff "$dir/wanted" "$dir/got" || true
}

hold_texts() { # seed, count
    local text name program mask
    rm -rf "$dir/texts"
    mkdir "$dir/texts"
    "$oracle" texts "$1" "$2" "$dir/texts"
    for text in "$dir"/texts/*.txt; do
        name=$(basename "$text" .txt)
        for program in guilds judge; do
            "$oracle" "$program" <"$text" >"$dir/wanted"
            "$top/crates/$program/out/$program" <"$text" >"$dir/got" || echo "status $?" >>"$dir/got"
            outputs=$((outputs + 1))
            cmp -s "$dir/wanted" "$dir/got" || differs "$program" "text $name of seed $1"
        done
        : >"$dir/wanted"
        while read -r mask; do
            "$oracle" chost "$mask" <"$text" >>"$dir/wanted"
            masks=$((masks + 1))
        done <"$dir/texts/$name.masks"
        xargs "$dir/library" "$text" <"$dir/texts/$name.masks" >"$dir/got" || echo "status $?" >>"$dir/got"
        cmp -s "$dir/wanted" "$dir/got" || differs library "text $name of seed $1"
    done
}

hold_trials() { # seed, count
    local had of_file word wrong
    "$oracle" trials "$1" "$2" >"$dir/trials"
    "$oracle" replay <"$dir/trials" >"$dir/wanted"
    "$top/crates/trials/out/trials" <"$dir/trials" >"$dir/got" || echo "status $?" >>"$dir/got"
    # The last line of the oracle's: C cases, A answers, D differ
    read -r had word of_file word < <(tail -n 1 "$dir/wanted")
    cases=$((cases + had))
    answers=$((answers + of_file))
    if ! cmp -s "$dir/wanted" "$dir/got"; then
        differs trials "$had cases of seed $1"
        wrong=$(sed -n '$s/.* answers, \([0-9]*\) differ$/\1/p' "$dir/got")
        if [ "${wrong:-0}" -gt 1 ]; then differ=$((differ + wrong - 1)); fi
    fi
}
