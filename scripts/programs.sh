# What ./plot, ./sweep and ./cells share, to be read by `.`: messages, the toolkit, and how a program is proved, built
# and kept. The script that reads it has its own name in `me`, the checkout in `home`, the program's crate in `crate`,
# what it calls the program in `called`, and what it says of a standard output that takes nothing in `unwritten`.
# A shell by the standard of POSIX would end where a redirection fails.
set +o posix
work=$home/target/$me
log=$work/build.log
lock=$home/target/programs.lock

# A standard error that takes nothing changes no status.
say() { echo "$me: $*" >&2 2>/dev/null || true; }

# die STATUS WORD ..
die() {
    say "${@:2}"
    exit "$1"
}

# Writes a text and a line end to standard output.
put() { printf '%s\n' "$1" 2>/dev/null || die 3 "$unwritten"; }

# A closed descriptor would be the next pipe's. In its place stands one on which every read or write fails, also where
# it is opened once more, by its name.
hold_descriptors() {
    { : 3<&0; } 2>/dev/null || exec 0<"$home"
    { : 3>&1; } 2>/dev/null || exec 1</dev/null
    { : 3>&2; } 2>/dev/null || exec 2</dev/null
}

# ---- the toolkit

# Finds the toolkit of rt, and the words before a program's name that run it. A program is for x86-64 Linux with the
# toolkit's own C library; on another processor an emulator runs it.
find_kit() {
    command -v rt >/dev/null || die 4 "the Rattle toolchain's command rt is not on the PATH"
    kit=${RATTLE_HOME:-$(dirname "$(dirname "$(readlink -f "$(command -v rt)")")")}
    machine=$(uname -m)
    local library=$kit/toolchain/lib
    [ -f "$kit/KIT-ID" ] && [ -d "$library" ] ||
        die 4 "no Rattle toolkit stands at $kit${RATTLE_HOME:+, which RATTLE_HOME names}"
    run=("$library/ld-linux-x86-64.so.2" --library-path "$library")
    [ -x "${run[0]}" ] || die 4 "the toolkit has no loader ${run[0]}"
    [ "$machine" = x86_64 ] || run=(qemu-x86_64 "${run[@]}")
    command -v "${run[0]}" >/dev/null || die 4 "on this $machine there is no emulator ${run[0]} to run $called"
}

# ---- the program's source

# Its crates in the order in which rt proves them: each after those that it rests on.
crates_in_order() {
    awk -v program="$crate" '
        function visit(name,    below, n, k) {
            if (name in seen) return
            seen[name]
            n = split(rests_on[name], below, " ")
            for (k = 1; k <= n; k++) if (below[k] in rests_on) visit(below[k])
            print name
        }
        { sub(/#.*/, ""); colon = index($0, ":") }
        colon { rests_on[substr($0, 1, colon - 1)] = substr($0, colon + 1) }
        END { visit(program) }' "$home/crates.txt"
}

# One number for all that the program is made from and held to. It goes by contents, since dates can mislead. What rt
# makes is in each crate's out/.
digest() {
    {
        cat "$kit/KIT-ID" && echo "$machine" && cd "$home/crates" &&
            find ../crates.txt "${crates[@]}" -regex '[^/]*/out' -prune -o -type f -print0 | LC_ALL=C sort -z |
            xargs -0 sha256sum
    } 2>/dev/null | sha256sum | cut -d ' ' -f 1
}

# Names the program by its source. What stands under that name is proved and has passed its examples, and is never
# changed, so that nobody who runs it is disturbed.
name_program() {
    mapfile -t crates < <(crates_in_order 2>/dev/null)
    program=$work/${called#the }-$(digest) || die 4 "the source of $called, below $home, cannot be read"
}

# ---- building the program

# Writes a line over the last one, on a terminal.
on_terminal() { [ ! -t 2 ] || printf '\r\033[K%s' "$1" >&2; }

# The place of a crate among those of the program, from 1.
place_of() {
    local k
    for k in "${!crates[@]}"; do
        [ "${crates[k]}" != "$1" ] || echo $((k + 1))
    done
}

# Tells how far rt is, by what it prints: on a terminal what it is at, second by second, else each crate that it proved.
# It names a crate when it begins with it, and not one that it proved before.
tell_progress() {
    local part line='' at=1 began=$SECONDS status=0 n=${#crates[@]}
    while [ "$status" = 0 ] || [ "$status" -gt 128 ]; do
        on_terminal "$me: proving crate $at of $n: ${crates[at - 1]} ($SECONDS s)"
        status=0
        IFS= read -r -t 1 part || status=$?
        line+=$part
        # A second has passed, or the input has ended, before a whole line was there.
        [ "$status" = 0 ] || continue
        if [[ $line =~ ^'rt: chose --jobs '[0-9]+' for '([a-z0-9_]+)$ ]]; then
            at=$(place_of "${BASH_REMATCH[1]}")
            at=${at:-1} began=$SECONDS
        elif [[ $line == logic=proved\ * ]] && [ ! -t 2 ]; then
            say "crate $at of $n: ${crates[at - 1]} proved ($((SECONDS - began)) s)"
        fi
        line=
    done
}

# What stands on standard input is not for rt, which runs the program once it is built: on no input, where it ends at
# once.
prove() { (cd "$source" && rt run ${given[@]+-- "${given[@]}"}) </dev/null 2>&1 | tee "$log" | tell_progress; }

# Runs the program that rt left on its examples, as `rt ci` does: on the files stdin and args beside src/, in a folder
# of its own with those of data/. Fails where it does not end as the files stdout and status say.
try_examples() {
    local room=$work/examples asked=/dev/null wanted=/dev/null status=0 ended=0
    on_terminal "$me: running $called on its examples ($SECONDS s)"
    rm -rf "$room"
    mkdir "$room"
    [ ! -d "$source/data" ] || cp -R "$source/data/." "$room"
    [ ! -f "$source/stdin" ] || asked=$source/stdin
    [ ! -f "$source/stdout" ] || wanted=$source/stdout
    [ ! -f "$source/status" ] || read -r status <"$source/status"
    (cd "$room" && "${run[@]}" "$source/out/$crate" "${given[@]}") <"$asked" >"$work/written" 2>>"$log" || ended=$?
    rm -rf "$room"
    on_terminal ''
    if [ "$ended" != "$status" ]; then
        say "$called ends with status $ended on its examples, and not with $status"
        return 1
    fi
    if ! cmp -s "$wanted" "$work/written"; then
        say "$called writes otherwise than its examples say: $work/written differs from $wanted"
        return 1
    fi
}

# Waits until nobody builds a program in this checkout: of two who build the same one the second has it already. Who
# builds says so in the lock.
take_lock() {
    command -v flock >/dev/null || die 4 "the command flock is missing (Debian's package util-linux)"
    { mkdir -p "$work" && : >>"$log" && : >>"$lock"; } 2>/dev/null ||
        die 4 "$called is not built yet, and $work cannot be written: run ./$me once as a user who can"
    exec 9>>"$lock"
    flock -n 9 || {
        local other
        other=$(cat "$lock")
        say "another ${other:-./$me is building $called}: waiting for it"
        flock 9
    }
    echo "./$me is building $called" >"$lock"
}

# Keeps the program that has passed.
keep() {
    local named=$program
    name_program
    [ "$program" = "$named" ] || die 4 "the source changed while $called was built: run ./$me again"
    local from=$home/crates/$crate/out
    { cp "$from/$crate" "$work/new" && mv "$work/new" "$program"; } 2>/dev/null ||
        die 4 "$called could not be copied from $from to $work"
}

# What rt says of what is not proved.
show_unproved() {
    on_terminal ''
    sed -n "/^rt: chose /d; /^rt: running /d; /^rt: .*: begins with /d; s/^rt: /$me: &/p
        s/^fn .*: no\(t proved\| proof\).*/$me: &/p" "$log" >&2 2>/dev/null || true
}

build() {
    local source=$home/crates/$crate given=()
    take_lock
    if [ ! -x "$program" ]; then
        say "proving and building $called first, which can take some minutes"
        [ ! -f "$source/args" ] || mapfile -t given <"$source/args"
        prove || {
            show_unproved
            die 4 "$called was not built; $log has all that rt said"
        }
        try_examples || die 4 "$called was built, and is not kept; $log has all that was said"
        keep
        say "$called is proved and built ($SECONDS s)"
    fi
    exec 9>&-
}

# Has the program, by its path in `program`, and the words before it that run it, in `run`.
need_program() {
    find_kit
    name_program
    [ -x "$program" ] || build
}

# A write to a closed pipe is to fail as one to a full disk does.
trap '' PIPE
# The emulator is to do nothing but emulate.
for name in "${!QEMU_@}"; do unset "$name"; done
