#!/bin/bash
# Tries how ./logcheck builds its programs, `logcheck` for verdicts and `ask` for questions: several first uses at once, builds that were
# killed, and builds that cannot be. It prints a line for each failure, and `N passed, M failed` at the end.
#
# A real build takes minutes, so it is tried in a small checkout with a stand-in for rt, which does what matters here as the kit's rt does:
# it works in the folder of the program's crate, leaves what it made in the out/ of the crates, writes the program in two parts and then its
# stamp, runs the program, builds nothing where a stamp is that of the sources, and has a long report where it fails. It cannot use what a
# killed build left. It waits where it is told to, so that no check hangs on a time. A stand-in for uname says that this machine is x86-64, since
# the programs that it builds are scripts: `logcheck` always has the empty log's verdict, and `ask` sees only whether a log has bytes.
. "$(dirname "$0")/checks.sh"
from=$PWD
checkout="$room/a checkout"
tools=$room/tools
export CONTROL=$room/control # the checks and the stand-ins speak through the files in it
export PATH=$tools:$PATH
chmod 755 "$room"
mkdir "$tools"
printf 'serial 0\n' >"$room/empty"
printf 'refused 10 0\n' >"$room/no-record"
printf 'none\n' >"$room/a-record"

# ---- the stand-ins

make_tool() { # NAME, with its lines on standard input
    { echo '#!/bin/sh' && cat; } >"$tools/$1"
    chmod 755 "$tools/$1"
}

make_tool uname <<<'cat "$CONTROL/machine"'
make_tool rt <<'END'
[ "$*" = run ] || exit 2
name=${PWD##*/}
echo "$* in $name" >>"$CONTROL/calls"
if [ -e "$CONTROL/fails" ]; then seq -f 'fault %g of a long report' 30 >&2; exit "$(cat "$CONTROL/fails")"; fi
[ -w "${TMPDIR:-/tmp}" ] || exit 2
low=../sets/out/rlib
mkdir -p out "$low"
for crate in $(sed -n "s/^$name://p" ../../crates.txt) "$name"; do cat "../$crate/src/"*; done 2>/dev/null | cat ../../crates.txt - >out/sources
if ! cmp -s out/sources "out/$name.stamp"; then
    if [ -e "$low/half" ]; then echo "the kept work of sets cannot be used" >&2; exit 2; fi
    echo 'rt: chose --jobs 2 for sets' >&2
    touch "$low/half"
    printf '%s' "rt: chose --jobs 2 for $name" >&2
    printf '#!/bin/sh\nbytes=$(wc -c)\n' >"out/$name"
    touch "$CONTROL/began"
    echo >&2
    while [ -e "$CONTROL/holds" ]; do sleep 0.1; done
    if [ -e "$CONTROL/wrong" ]; then rm "$CONTROL/wrong"; echo 'echo wrong; exit'; fi >>"out/$name"
    case $name in
    logcheck) echo 'echo serial 0' ;;
    ask) echo 'if [ "$bytes" -gt 5 ]; then echo none; else echo refused 10 0; fi' ;;
    esac >>"out/$name"
    chmod +x "out/$name"
    mv "$low/half" "$low/stamp"
    if [ -e "$CONTROL/edited" ]; then rm "$CONTROL/edited"; else cp out/sources "out/$name.stamp"; fi
fi
if [ -e "$CONTROL/runs-nothing" ]; then echo "out/$name cannot be run" >&2; exit 1; fi
exec "out/$name"
END

# A checkout that was never used, and stand-ins that do what they should.
new_checkout() {
    rm -rf "$checkout" "$CONTROL"
    mkdir -p "$checkout/scripts" "$checkout/crates/"{logcheck,ask,questions,sets}/src "$CONTROL"
    echo first >"$checkout/crates/sets/src/lib.rt"
    cp -p "$from/logcheck" "$from/VERSION" "$checkout"
    cp -p "$from"/scripts/* "$checkout/scripts"
    printf 'sets:\nquestions:\nlogcheck: sets io\nask: sets questions io\n' >"$checkout/crates.txt"
    echo first >"$checkout/crates/questions/src/lib.rt"
    echo first >"$checkout/crates/logcheck/src/main.rt"
    echo first >"$checkout/crates/ask/src/main.rt"
    echo x86_64 >"$CONTROL/machine"
    : >"$CONTROL/calls"
}

# ---- callers

logcheck() { "$checkout/logcheck" "$@" </dev/null; }
piped() { echo log | "$checkout/logcheck" "$@"; }

# Starts a use in the background, in a group of its own, and sets `use` to its process. What it says is in the room, as out.NAME and err.NAME.
start() { # NAME [QUESTION]
    setsid "$checkout/logcheck" "${@:2}" </dev/null >"$room/out.$1" 2>"$room/err.$1" &
    use=$!
}

# Waits for the end of a use that was started, and keeps what `run` keeps.
ended() { # NAME PROCESS
    wait "$2"
    status=$?
    cp "$room/out.$1" "$room/out"
    cp "$room/err.$1" "$room/err"
}

# Waits until a command succeeds; a minute is for ever here.
until_true() { # COMMAND ..
    local left=600
    until "$@" >/dev/null 2>&1; do
        left=$((left - 1))
        [ "$left" -gt 0 ] || return 1
        sleep 0.1
    done
}

lines() { [ "$(wc -l <"$2")" -eq "$1" ]; } # NUMBER FILE

# rt was called so many times, and the use that `run` kept has the answer, with these words on standard error, a line for each.
built_for() { # ANSWER-FILE WHAT CALLS WORDS ..
    local answer=$1 what=$2 calls=$3 words result
    shift 3
    [ "$status" = "$(status_of "$answer")" ] && cmp -s "$answer" "$room/out" && lines "$calls" "$CONTROL/calls" && lines $# "$room/err"
    result=$?
    for words; do has "$words" "$room/err" || result=1; done
    judged "$what, with $(wc -l <"$CONTROL/calls") calls of rt" "$result"
}

built() { built_for "$room/empty" "$@"; }         # for a verdict
built_ask() { built_for "$room/no-record" "$@"; } # for a question

# So many programs of either name are there for use.
stored() { # LOGCHECKS ASKS
    check "not $1 programs for verdicts and $2 for questions are there" \
        [ "$(find "$checkout/target/command" -name 'logcheck-*' | wc -l) $(find "$checkout/target/command" -name 'ask-*' | wc -l)" = "$1 $2" ]
}

# ---- the checks

check_first_use() {
    new_checkout
    run logcheck
    built 'the first use' 1 'this takes some minutes'
    run logcheck
    built 'the second use' 1
    echo half >"$checkout/crates/logcheck/out/logcheck"
    run logcheck
    built 'a use while another build writes the program' 1
    touch "$checkout/crates/logcheck/src/main.rt"
    run logcheck
    built 'a source that was touched' 1
    echo second >"$checkout/crates/logcheck/src/main.rt"
    touch -d 2000-01-01 "$checkout/crates/logcheck/src/main.rt"
    run logcheck
    built 'another source, with an older date' 2 'up to date'
    echo second >"$checkout/crates/sets/src/lib.rt"
    run logcheck
    built 'another source of a crate below' 3 'up to date'
    echo '# more' >>"$checkout/crates.txt"
    run logcheck
    built 'another list of crates' 4 'up to date'
    mkdir -p "$checkout/crates/sets/must-fail"
    echo second >"$checkout/crates/sets/must-fail/second.edit"
    run logcheck
    built 'an edit, of which nothing is built' 4
    rm -rf "$checkout/target/command"
    mkdir "$checkout/target/command"
    echo half >"$checkout/target/command/new"
    run env TMPDIR="$room/none" "$checkout/logcheck" </dev/null
    built 'a copy that was killed half way, and no TMPDIR' 5 'up to date'
    check 'programs of other sources are left' [ "$(ls "$checkout/target/command" | wc -l)" -eq 1 ]
}

# Each program is built by a use of its own, from its own sources, and takes the place of its own older ones.
check_both_programs() {
    new_checkout
    run logcheck --source 0
    built_ask 'the first question' 1 'this takes some minutes'
    check 'the first question builds another program' [ "$(<"$CONTROL/calls")" = 'run in ask' ]
    run logcheck --edge 64 0
    built_ask 'the second question' 1
    stored 0 1
    run logcheck
    built 'the first verdict after a question' 2 'up to date'
    check 'a verdict builds another program' [ "$(tail -n 1 "$CONTROL/calls")" = 'run in logcheck' ]
    stored 1 1
    echo second >"$checkout/crates/ask/src/main.rt"
    run logcheck
    built 'a verdict, and another source of the questions alone' 2
    run logcheck --source 0
    built_ask 'another source of the questions' 3 'up to date'
    echo second >"$checkout/crates/questions/src/lib.rt"
    run logcheck
    built 'a verdict, and another source of a crate below the questions alone' 3
    run logcheck --source 0
    built_ask 'another source of a crate below the questions' 4 'up to date'
    stored 1 1
    echo second >"$checkout/crates/logcheck/src/main.rt"
    run logcheck --source 0
    built_ask 'a question, and another source of the verdict alone' 4
    run logcheck
    built 'another source of the verdict' 5 'up to date'
    stored 1 1
    echo second >"$checkout/crates/sets/src/lib.rt"
    touch "$checkout/target/command/logcheck-older" "$checkout/target/command/ask-older"
    run logcheck
    built 'another source of both, and a verdict' 6 'up to date'
    stored 1 2 # the questions' are left to a question
    run logcheck --edge 64 0
    built_ask 'another source of both, and a question' 7 'up to date'
    stored 1 1
}

check_half_a_question() {
    new_checkout
    run logcheck --source 0
    rm -rf "$checkout/target/command"
    echo half >"$checkout/crates/ask/out/ask"
    run logcheck --source 0
    built_ask 'half a program for questions beside its stamp' 2 'up to date'
    rm -rf "$checkout/target/command"
    touch "$CONTROL/wrong"
    run logcheck --source 0
    built_ask 'a program for questions that does not work' 4 'up to date' 'building from nothing'
    rm -rf "$checkout/target/command"
    printf '#!/bin/sh\necho serial 0\n' >"$checkout/crates/ask/out/ask"
    chmod +x "$checkout/crates/ask/out/ask"
    run logcheck --source 0
    built_ask 'another program in the place of the one for questions' 5 'up to date'
    rm -rf "$checkout/target/command"
    echo 1 >"$CONTROL/fails"
    cannot 'a build for a question that fails' 2 "crates/ask, 'rt check' shows why" logcheck --source 0
    cannot 'a wrong question, for which nothing is built' 1 'a number is missing' logcheck --source
    check 'how often a build for a question is tried that fails' lines 6 "$CONTROL/calls"
}

# rt's status is that of the program that it has run, and without a stamp nobody knows which sources it has built.
check_what_rt_ran() {
    new_checkout
    touch "$CONTROL/runs-nothing"
    run logcheck
    built 'a program that rt has built and cannot run' 1 'this takes some minutes'
    rm -rf "$checkout/target/command"
    echo second >"$checkout/crates/sets/src/lib.rt"
    rm "$CONTROL/runs-nothing"
    echo 1 >"$CONTROL/fails"
    cannot 'a build that fails beside the program of other sources' 2 "crates/logcheck, 'rt check' shows why" logcheck
    rm "$CONTROL/fails"
    touch "$CONTROL/edited"
    run logcheck
    built 'a source that changes during the build' 4 'up to date' 'building from nothing'
}

# Both are rt's in one folder, so a verdict waits for the build of a question, and then builds its own program.
check_both_at_once() {
    local uses=()
    new_checkout
    touch "$CONTROL/holds"
    start question --source 0
    uses+=("$use")
    check 'a question beside a verdict: the build does not begin' until_true [ -e "$CONTROL/began" ]
    start more --edge 64 0
    uses+=("$use")
    start verdict
    uses+=("$use")
    check 'a question does not say that it waits for another' until_true has 'another build goes on' "$room/err.more"
    check 'a verdict does not say that it waits for a question' until_true has 'another build goes on' "$room/err.verdict"
    check 'a verdict does not wait for the build of a question' lines 1 "$CONTROL/calls"
    rm "$CONTROL/holds"
    ended verdict "${uses[2]}"
    built 'a verdict beside two questions' 2 'another build goes on' 'up to date'
    ended more "${uses[1]}"
    built_ask 'the second of two questions beside a verdict' 2 'another build goes on'
    ended question "${uses[0]}"
    built_ask 'the first of two questions beside a verdict' 2 'this takes some minutes'
    stored 1 1
}

# Somebody removes target/ just before a program is to run; the stand-in for the emulator does that. A pipe cannot be read twice, and the
# log in it must be there all the same.
check_removed_program() {
    new_checkout
    echo other >"$CONTROL/machine"
    make_tool dpkg-query <<<'echo installed'
    make_tool qemu-x86_64 <<'END'
shift 2
if [ -e "$CONTROL/removes" ]; then rm -r "$CONTROL/removes" target; fi
exec "$@"
END
    run logcheck --source 0
    touch "$CONTROL/removes"
    run piped --source 0
    built_for "$room/a-record" 'a question whose program is removed before it runs' 2 'up to date'
    run logcheck
    touch "$CONTROL/removes"
    run piped
    built 'a verdict whose program is removed before it runs' 4 'up to date'
    rm "$tools/"{dpkg-query,qemu-x86_64}
}

# One builds; the others wait, say so, and answer.
check_three_at_once() {
    local uses=() name
    new_checkout
    touch "$CONTROL/holds"
    for name in 1 2 3; do
        start "$name"
        uses+=("$use")
        check "use $name of three: the build does not begin" until_true [ -e "$CONTROL/began" ]
        [ "$name" = 1 ] || check "use $name of three does not say that it waits" until_true has 'another build goes on' "$room/err.$name"
    done
    rm "$CONTROL/holds"
    for name in 1 2 3; do
        ended "$name" "${uses[name - 1]}"
        if [ "$name" = 1 ]; then
            built 'the first of three uses at once' 1 'this takes some minutes'
        else
            built "use $name of three at once" 1 'another build goes on'
        fi
    done
}

# A build that was killed with all its processes has left half of what it writes.
check_killed_build() {
    new_checkout
    mkdir -p "$checkout/target/rust"
    touch "$CONTROL/holds"
    start killed
    check 'a build that is to be killed does not begin' until_true [ -e "$CONTROL/began" ]
    kill -9 -- "-$use"
    wait "$use" 2>/dev/null
    rm "$CONTROL/holds"
    run logcheck
    built 'the use after a build that was killed' 3 'this takes some minutes' 'building from nothing'
    check "the use after a build that was killed removes cargo's files" [ -d "$checkout/target/rust" ]
    rm -rf "$checkout/target/command"
    touch "$CONTROL/wrong"
    run logcheck
    built 'a program that does not work' 5 'up to date' 'building from nothing'
}

# Where only the command was killed, its rt goes on, and the next use must not write beside it.
check_killed_command() {
    new_checkout
    touch "$CONTROL/holds"
    start killed
    check 'a command that is to be killed does not begin' until_true [ -e "$CONTROL/began" ]
    kill -9 "$use"
    wait "$use" 2>/dev/null
    start next
    check 'the use after a command that was killed does not wait for its rt' until_true has 'another build goes on' "$room/err.next"
    rm "$CONTROL/holds"
    ended next "$use"
    built 'the use after a command that was killed' 2 'another build goes on' 'up to date'
}

# A terminal sees how far the build is, on a line that is gone at the end.
check_progress() {
    local terminal=$room/terminal
    new_checkout
    touch "$CONTROL/holds"
    : >"$terminal"
    timeout 120 script -qfec "'$checkout/logcheck' </dev/null" "$terminal" >/dev/null 2>&1 </dev/null &
    use=$!
    check 'a terminal does not see how far the build is' until_true has '1 of 2 crates are proved, now logcheck' "$terminal"
    rm "$CONTROL/holds"
    wait "$use"
    check 'the line on the build is not cleared' grep -q "$(printf '\r *\rserial 0')" "$terminal"
}

# The command prints one line, or one more where it has said that it builds, and the status is 3.
cannot() { # WHAT LINES WORDS COMMAND ..
    run "${@:4}"
    [ "$status" -eq 3 ] && [ ! -s "$room/out" ] && lines "$2" "$room/err" && has "$3" <(tail -n 1 "$room/err") &&
        [ "$(grep -c '^logcheck: ' "$room/err")" -eq "$2" ]
    judged "$1" $?
}

check_failures() {
    local status_of_rt
    new_checkout
    echo 1 >"$CONTROL/fails"
    cannot 'a first build that fails' 2 "crates/logcheck, 'rt check' shows why" logcheck
    for status_of_rt in 1 3 2; do # the last one is of rt itself
        new_checkout
        run logcheck
        rm -rf "$checkout/target/command"
        echo "$status_of_rt" >"$CONTROL/fails"
        cannot "a build that fails with status $status_of_rt" $((2 + (status_of_rt == 2))) "crates/logcheck, 'rt check' shows why" logcheck
        check "how often a build is tried that fails with status $status_of_rt" lines $((2 + (status_of_rt == 2))) "$CONTROL/calls"
    done
    rm "$CONTROL/fails"
    run logcheck
    built 'the use after rt itself has failed, which finds what was built before' 4 'up to date'
    new_checkout
    echo >"$checkout/target"
    cannot 'a file in the place of target/' 1 '/target cannot be written' logcheck
    new_checkout
    if [ "$(id -u)" -eq 0 ]; then
        cannot 'a checkout of another user' 1 '/target cannot be written' \
            setpriv --reuid=65534 --regid=65534 --clear-groups "$checkout/logcheck" </dev/null
    else
        chmod a-w "$checkout"
        cannot 'a checkout that cannot be written' 1 '/target cannot be written' logcheck
        chmod u+w "$checkout"
    fi
    mv "$tools/rt" "$room/rt"
    if PATH=$tools:/usr/bin:/bin command -v rt >/dev/null; then
        echo 'passed over: no rt on this machine (it stands in /usr/bin)'
    else
        cannot 'no rt' 1 'the Rattle kit (rt) is not on this machine' env PATH="$tools" "$checkout/logcheck" </dev/null
        run env PATH="$tools" "$checkout/logcheck" --version
        check '--version without a kit' has 'no Rattle kit' "$room/out"
    fi
    mv "$room/rt" "$tools/rt"
}

# Another machine, without Debian's tools. The stand-in for apt-get fails beside another, as apt-get does.
check_debians_tools() {
    local uses=() name result=0
    new_checkout
    echo other >"$CONTROL/machine"
    make_tool id <<<'cat "$CONTROL/user"'
    make_tool dpkg <<<'exit 0'
    make_tool dpkg-query <<<'cat "$CONTROL/installed"'
    make_tool qemu-x86_64 <<<'shift 2; exec "$@"'
    make_tool apt-get <<'END'
if [ ! -e "$CONTROL/works" ]; then seq -f 'fault %g of a long report' 30 >&2; exit 1; fi
mkdir "$CONTROL/apt" || exit 1
sleep 0.2
rmdir "$CONTROL/apt"
case $* in *install*) echo installed >"$CONTROL/installed"; echo install >>"$CONTROL/installs" ;; esac
END
    echo 1000 >"$CONTROL/user"
    cannot "no tools of Debian's, and not root" 1 'only root can install them' logcheck
    echo 0 >"$CONTROL/user"
    cannot "no tools of Debian's that can be installed" 2 'could not be installed' logcheck
    rm -f "$(sed -n 's/.*(\(.*\) has it all).*/\1/p' "$room/err")"
    touch "$CONTROL/works"
    for name in 1 2 3; do
        start "$name"
        uses+=("$use")
    done
    for use in "${uses[@]}"; do wait "$use" || result=1; done
    count "three uses at once do not install Debian's tools" "$result"
    check "three uses at once install Debian's tools more than once" lines 1 "$CONTROL/installs"
    rm "$tools/"{id,dpkg,dpkg-query,qemu-x86_64,apt-get}
}

check_first_use
check_both_programs
check_half_a_question
check_what_rt_ran
check_both_at_once
check_removed_program
check_three_at_once
check_killed_build
check_killed_command
check_progress
check_failures
check_debians_tools
counts
