#!/usr/bin/env bash
# The console. `./plot --help` says how it is used and with which status it ends.
set -euo pipefail
home=$(dirname "$(readlink -f "$0")")
me=plot
crate=plot_main
called='the console'
unwritten='the answers could not be written'
. "$home/scripts/programs.sh" || exit 4

usage() {
    cat <<'END'
./plot              answers the calls of standard input, one a line
./plot CALL ..      answers the call given as arguments
./plot --help, -h   shows these lines, and what the call help shows

./plot CALL .. ends with the status

    0    answered
    1    refused: the answer begins with 'refused '
    2    not read, or no table is open: the answer begins with 'error: '; or an argument has a line end
    3    the answers could not be written, or the calls not be read
    4    the console could not be built or run

With calls on standard input the status is 0 whatever the answers are, or 3 or 4.

The console is proved and built on first use and after a change of its source, which takes some minutes.
END
}

# What help shows stands first in what the console is held to: it can be read before the console is built.
show_help() {
    local shown
    shown=$(usage && echo && sed '/^help /q' "$home/crates/plot_main/stdout" 2>/dev/null) ||
        die 4 "what help shows, below $home, cannot be read"
    put "$shown"
}

# A closed descriptor would be the next pipe's: the console would read or write there.
need_descriptors() {
    { : 3>&1; } 2>/dev/null || die 3 "$unwritten"
    [ $# -gt 0 ] || { : 3<&0; } 2>/dev/null || die 3 "the calls could not be read"
}

# The call given as arguments. The dot shows that the console wrote a line, be it an empty one.
answer_call() {
    local answer
    answer=$(printf '%s\n' "$*" | "${run[@]}" "$program" && echo .) || die 4 "the console could not be run"
    [[ $answer == *$'\n.' ]] || die 3 "the call was not answered"
    put "${answer%$'\n.'}"
    case $answer in
    'refused '*) exit 1 ;;
    'error: '*) exit 2 ;;
    esac
}

# The calls of standard input. The console ends with status 0 whatever failed, and says what did.
answer_lines() {
    local said status=0
    { said=$("${run[@]}" "$program" 2>&1 >&3) || status=$?; } 3>&1
    [ -z "$said" ] || printf '%s\n' "$said" >&2 2>/dev/null || true
    [ "$status" = 0 ] || die 4 "the console could not be run to its end (status $status)"
    [[ $'\n'$said != *$'\n'"plot: "* ]] || exit 3
}

need_descriptors "$@"
case ${1-} in
--help | -h)
    show_help
    exit
    ;;
esac
[[ $* != *$'\n'* ]] || die 2 "an argument has a line end: give one call, or calls on standard input, one a line"
need_program
if [ $# -gt 0 ]; then answer_call "$@"; else answer_lines; fi
