# shellcheck shell=bash
# What every test beside the crates begins with. `ok WORDS` and `no WORDS` say how one thing that was tried came out, a numbered line each;
# `done_testing` prints how many there were and ends with status 1 where one failed. ./test counts the lines, and `prove tests/*.test` reads
# them too.
set -u
cd "$(dirname "${BASH_SOURCE[0]}")/.." || exit 2
tried=0 bad=0
ok() { tried=$((tried + 1)) && echo "ok $tried - $1"; }
no() { tried=$((tried + 1)) bad=1 && echo "not ok $tried - $1"; }
# relay FILE [WORDS]: what a program reported, `ok - ..` or `not ok - ..` a line, counted on, with WORDS behind each
relay() {
    while IFS= read -r line; do
        case $line in
        'ok - '*) ok "${line#ok - }${2:+ ($2)}" ;;
        'not ok - '*) no "${line#not ok - }${2:+ ($2)}" ;;
        *) printf '%s\n' "# $line" ;;
        esac
    done <"$1"
}
# block LANGUAGE N [HEADING]: the nth block of a language on the page that a test names, behind a heading where one is given
page=
block() {
    awk -v fence="\`\`\`$1" -v n="$2" -v from="${3:+## $3}" '
        from == "" || $0 == from { found = 1 }
        $0 == "```" { on = 0 }
        on { print }
        found && $0 == fence { on = (++seen == n) }' "$page"
}
# independent PROGRAM DIR SEED COUNT: has a program that shares no code with the library make files there
independent() {
    local program=$1
    shift
    mkdir -p "$1" && cargo build --quiet --release --offline -p independent --bin "$program" &&
        "${CARGO_TARGET_DIR:-target/cargo}/release/$program" "$@"
}
# recordings DIR SEED COUNT: recordings for `list`, each as NAME.rec beside its listing, NAME.txt
recordings() { independent recordings "$@"; }
# salvages DIR SEED COUNT: inputs for `salvage`, each as NAME.in beside what is printed, NAME.txt, and the recording, NAME.rec, where one is due
salvages() { independent salvages "$@"; }
done_testing() { echo "1..$tried" && exit $bad; }
# a folder that is gone afterwards
dir=$(mktemp -d)
trap 'rm -rf "$dir"' EXIT
