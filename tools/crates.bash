# What a program of this repository is made of. The scripts that build one set `top`, the folder of the repository, and source this.

# What each crate of this repository stands on, by crates.txt, and the crates that the program NAME is made of, each behind those that
# it stands on.
declare -A stands_on=()
find_crates() { # NAME
    local head rest
    local -A seen=()
    while IFS=: read -r head rest; do
        [[ -z $head || $head == '#'* ]] || stands_on[${head%% *}]=$rest
    done <"$top/crates.txt"
    crates=()
    go_below "$1"
}

go_below() {
    local name
    [[ -v stands_on[$1] && ! -v seen[$1] ]] || return 0
    seen[$1]=yes
    for name in ${stands_on[$1]}; do
        go_below "$name"
    done
    crates+=("$1")
}

# The code of these crates, of which these words of `find` choose some. Definitions and proofs change nothing of what a program does.
find_code() {
    (cd "$top" && find "${crates[@]/#/crates/}" -path '*/out' -prune -o -name '*.rt' "${@:--print}")
}

fail() {
    echo "${0##*/}: $1" >&2
    exit 70
}

need_toolchain() {
    command -v rt >/dev/null || fail "the command rt of the toolchain (rattle-kit-13) is not here, and it builds the program"
}

need_writable() {
    [[ -w $top/crates/$1 ]] || fail "the folder $top/crates/$1 cannot be written, and the program is built there"
}
