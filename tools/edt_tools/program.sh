# What tools/edtloc and tools/edtcheck share: help, building the program where its sources are newer, and running it. Read by bash; the
# script that reads it has set `name`, the program, and has a function `usage`. Nothing here writes to standard output but `usage`.
#
# The program that is run is out/NAME at the top of the repository. It is put there whole, by a rename, once `rt run` has proved and linked
# it: whatever breaks a build off, out/NAME is the last good program or none. Its time is that at which its build began, so that an edit
# during the build makes it stale again.

top=$(cd "$(dirname "$(readlink -f "${BASH_SOURCE[0]}")")/../.." && pwd) || exit 125
tool=tools/$name
program=$top/out/$name
built=$top/crates/$name/out/$name
log=$top/out/$name.log

say() {
    echo "$tool: $*" >&2
}

# fail LINE..: ends with 125, which no program ends with
fail() {
    say "$@"
    exit 125
}

# the version of the newest part of CHANGELOG.md
version() {
    sed -n 's/^## \([0-9.]*\)$/\1/p' "$top/CHANGELOG.md" | head -1
}

# the crates that the program is made of, each after those that it stands on, as `rt run` proves them
crates_of_program() {
    awk -v program="$name" '
        function visit(crate, words, count, k) {
            if (crate in seen || !(crate in below)) return
            seen[crate] = 1
            count = split(below[crate], words, " ")
            for (k = 1; k <= count; k++) visit(words[k])
            print crate
        }
        /^[^#]*:/ { at = index($0, ":"); split(substr($0, 1, at - 1), head, " "); below[head[1]] = substr($0, at + 1) }
        END { visit(program) }' "$top/crates.txt"
}

# whether there is no program, or code, a definition or crates.txt is newer than it; a proof alone changes no program
is_stale() {
    [ -x "$program" ] || return 0
    local crate folders=()
    for crate in $(crates_of_program); do
        folders+=("$top/crates/$crate/src" "$top/crates/$crate/specs")
    done
    [ -n "$(find "$top/crates.txt" "${folders[@]}" -type f -newer "$program" -print -quit 2>/dev/null)" ]
}

# put_in_place BEGUN: puts the program that rt has proved and linked in its place, with the time of the file BEGUN
put_in_place() {
    local new=$program.new$$
    mkdir -p "$top/out" && cp "$built" "$new" && chmod 755 "$new" && touch -r "$1" "$new" && mv -f "$new" "$program" && return
    rm -f "$new"
    return 1
}

# waits while another build is under way in this copy of the repository, where there is a flock
take_turn() {
    command -v flock >/dev/null || return 0
    exec 9>"$top/out/build.lock" || fail "can't write to out/"
    flock -n 9 && return
    say "another build is under way here; waiting for it"
    flock 9 || fail "broken off while it waited"
}

# the time since a build began, as minutes and seconds
elapsed() {
    printf '%d:%02d' $((SECONDS / 60)) $((SECONDS % 60))
}

# what rt has begun by its log: a line for each crate with its place, then one with how many functions of the last are checked
stages() {
    awk -v order="$(crates_of_program | tr '\n' ' ')" '
        BEGIN { count = split(order, crates, " "); for (k = 1; k <= count; k++) place[crates[k]] = k }
        { crate = "" }
        /^rt: chose --jobs [0-9]+ for / { crate = $6 }
        /^rt: [a-z0-9_]+: another copy of the repository is building/ { crate = substr($2, 1, length($2) - 1) }
        crate in place && crate != now { now = crate; functions = ""; print "crate " place[now] " of " count ": " now }
        /^so far: [0-9]+ of [0-9]+ functions/ { functions = ", " $3 " of " $5 " functions" }
        END { print functions }' "$log"
}

# shows what rt has begun: a line for each crate that isn't told yet, or one line that is written anew on a terminal
show() {
    local lines last
    mapfile -t lines < <(stages)
    last=$((${#lines[@]} - 1))
    if [ -t 2 ]; then
        [ $last -gt 0 ] && lines[last]=${lines[last - 1]}${lines[last]} || lines[last]="looks over the sources"
        printf '\r\033[K%s: %s, %s' "$tool" "${lines[last]}" "$(elapsed)" >&2
        return
    fi
    while [ "$told" -lt $last ]; do
        say "${lines[told]}, $(elapsed)"
        told=$((told + 1))
    done
}

# shows where rt is as long as it runs
follow() {
    local told=0 beats=0
    while kill -0 "$child" 2>/dev/null; do
        show
        beats=$((beats + 1))
        if [ $beats -le 10 ]; then sleep 0.1; else sleep 1; fi
    done
    show
    [ ! -t 2 ] || printf '\r\033[K' >&2
}

# end_by SIGNAL: ends what this script has started, and then itself, by the signal; bash may keep SIGINT to itself, and ends with its number then
end_by() {
    trap - INT TERM HUP
    kill "$child" 2>/dev/null
    wait "$child" 2>/dev/null
    kill -s "$1" $$
    exit $((128 + $(kill -l "$1")))
}

# breaks a build off: rt ends what it has started when it ends
break_off() {
    [ ! -t 2 ] || echo >&2
    say "broken off after $(elapsed); the crates that were proved stay so"
    end_by "$1"
}

# on_signals COMMAND: gives it the signal that comes
on_signals() {
    local signal
    for signal in INT TERM HUP; do
        # shellcheck disable=SC2064
        trap "$1 $signal" $signal
    done
}

# is_proved BEGUN: whether rt has left a whole program since then, or has found that the last one is that of the sources
is_proved() {
    [ "$built.stamp" -nt "$1" ] || grep -q '^rt: nothing has changed since the last proved build' "$log"
}

# proves and builds the program where it is stale
build() {
    is_stale || return 0
    command -v rt >/dev/null || fail "$name isn't built, and rt, the Rattle toolchain, isn't on the path"
    mkdir -p "$top/out" || exit 125
    take_turn
    is_stale || return 0
    SECONDS=0
    say "proves and builds $name from its $(crates_of_program | wc -l) crates; from nothing this takes many minutes"
    local begun=$top/out/$name.begun
    : >"$begun" && : >"$log" || exit 125
    (cd "$top/crates/$name" && exec rt run) >"$log" 2>&1 </dev/null &
    child=$!
    on_signals break_off
    follow
    wait "$child"
    trap - INT TERM HUP
    if ! is_proved "$begun" || ! put_in_place "$begun"; then
        cat "$log" >&2
        fail "no program was built, or sources changed meanwhile"
    fi
    say "built after $(elapsed)"
}

# where docs/MESSAGES.md tells of a status
point_to_message() {
    local section
    section=$(sed -n "s/^## \(Status $1: .*\)/\1/p" "$top/docs/MESSAGES.md")
    [ -z "$section" ] || say "docs/MESSAGES.md says what to mend, under '$section'"
}

# runs the program with these words, and ends as it does; a signal to this script goes on to the program
run() {
    local status
    { : 3<&0; } 2>/dev/null || exec </dev/null
    "$program" "$@" <&0 &
    child=$!
    on_signals end_by
    wait "$child"
    status=$?
    trap - INT TERM HUP
    case $status in
    2) say "\`$tool help\` shows the words that it takes" ;;
    [3-9] | 10) point_to_message "$status" ;;
    esac
    exit $status
}

main() {
    case $#:${1-} in
    0:)
        usage >&2
        exit 2
        ;;
    1:help | 1:--help | 1:-h)
        usage
        exit 0
        ;;
    1:build)
        build
        exit 0
        ;;
    esac
    build
    exec 9>&-
    run "$@"
}
