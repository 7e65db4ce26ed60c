# What every command in bin/ shares: its words, its input, and how its program is found, built, run and ended.
#
# A command sets `self` to its own path, links resolved, sources this file, and defines
#   help          prints what the command does
#   option WORD   takes an option, or answers 1 where the command has no such option
#   operands ..   takes the other words: it calls `misused` where they are wrong and `input` for the file that the
#                 program reads, and ends with `start PROGRAM ARGUMENT..`
# and ends with `take "$@"`. So every word is judged before anything is built.
#
# A program can't return a status, so its last line on standard error says how it ended: `status 0`, `status 1`,
# `can't read: REASON` of its standard input, or `can't ..: REASON` of anything else. The lines before are passed on.
#
# Descriptors: 3 the program's input; 4 standard output; 5 what the program says, 6 where it says it; 7 the terminal;
# 9 the build's lock.
# shellcheck shell=sh

bin=${self%/*}
root=${bin%/*}
name=${self##*/}
target=$root/target
# What has to be ended with this shell: the process that is waited for, the line on the terminal, the lock. Last, which
# process was noted here last.
child='' shower='' held='' noted=''
# A program without an input of its own reads nothing.
exec 3< /dev/null
file='its input'

# Words.

fail() {
    # One line, whatever a file's name holds.
    printf '%s' "bin/$name: $1" | LC_ALL=C tr '[:cntrl:]' '?' >&2
    echo >&2
    exit 2
}

misused() {
    fail "$1; bin/$name --help says what there is"
}

# Options stand anywhere before `--`; the operands keep their order.
take() {
    left=$#
    while [ "$left" -gt 0 ]; do
        word=$1 left=$((left - 1))
        shift
        case $word in
            --) break ;;
            -h | --help) put help ;;
            --version) put version ;;
            -?*) option "$word" || misused "no option $word" ;;
            *) set -- "$@" "$word" ;;
        esac
    done
    while [ "$left" -gt 0 ]; do
        word=$1 left=$((left - 1))
        shift
        set -- "$@" "$word"
    done
    operands "$@"
}

# Prints a text by a function, and ends.
put() {
    said='Bad file descriptor'
    { said=$(export LC_ALL=C && "$1" 2>&1 >&4); } 2> /dev/null 4>&1 && exit 0
    said=${said##*: }
    fail "can't write: ${said:-Broken pipe}"
}

version() {
    cat << END
$name, VP9 header reader after cros-codecs 0.0.6, commit $(commit)
END
}

commit() {
    # Where git runs this, they name the tree that git works on.
    unset GIT_DIR GIT_WORK_TREE GIT_INDEX_FILE
    # Without a .git of its own the tree may stand in another's.
    if [ ! -e "$root/.git" ] || ! git -C "$root" rev-parse --short=7 HEAD 2> /dev/null; then
        echo unknown
    elif [ -n "$(git -C "$root" --no-optional-locks status --porcelain)" ]; then
        echo ', changed'
    fi | tr -d '\n'
}

# The input.

# Opens the file that the program reads, `-` for standard input.
input() {
    file=$1
    if [ "$1" = - ]; then
        file='standard input'
        { command exec 3<&0; } 2> /dev/null || fail "can't read standard input: Bad file descriptor"
    elif [ -d "$1" ] || ! { command exec 3< "$1"; } 2> /dev/null; then
        fail "can't read $1: $(reason cat -- "$1")"
    fi
}

# Why a command fails, in the system's words, which stand last in what it says.
reason() {
    said=$(LC_ALL=C "$@" 2>&1 > /dev/null) || printf '%s' "${said##*: }"
}

# The program.

# Runs a program on the input, with arguments, and ends as it says.
start() {
    find_kit
    find_program "$1"
    shift
    run "$@"
}

find_kit() {
    rt=$(command -v rt) || rt=/opt/rattle/bin/rt
    [ -x "$rt" ] || fail "Rattle's kit is missing: put its command rt on the PATH"
    kit=$(readlink -f "$rt")
    kit=${RATTLE_HOME:-${kit%/*/*}}
    tools=$kit/toolchain
    loader=$tools/lib/ld-linux-x86-64.so.2
    [ -x "$loader" ] || fail "the kit has no $loader: let RATTLE_HOME name the kit's folder"
}

# A folder that VP9_READER_PROGRAMS names is taken as it is; else the program is the proved one.
find_program() {
    program=$root/crates/$1/out/$1
    if [ -n "${VP9_READER_PROGRAMS:-}" ]; then
        program=$VP9_READER_PROGRAMS/$1
        [ -x "$program" ] || fail "no program $program: VP9_READER_PROGRAMS names the folder of the programs"
        return
    fi
    [ -r "$root/crates.txt" ] || fail "no $root/crates.txt: bin/$name works in its repository, or by a link to it"
    reach "$1"
    is_built || build "$1"
}

# The crates that a program reaches by crates.txt, and itself.
reach() {
    crates=" $1 " before=''
    set --
    # From the last line on: what uses others stands behind them, so that one walk finds nearly all.
    while IFS= read -r line; do set -- "${line%%#*}" "$@"; done < "$root/crates.txt"
    while [ "$crates" != "$before" ]; do
        before=$crates
        for line; do
            case $crates in *" ${line%%:*} "*) add_crates "${line#*:}" ;; esac
        done
    done
}

add_crates() {
    for crate in $1; do
        case $crates in *" $crate "*) continue ;; esac
        # The others are the kit's.
        [ ! -d "$root/crates/$crate" ] || crates="$crates$crate "
    done
}

# rt leaves the stamp once the program is proved.
is_built() {
    [ -x "$program" ] && [ -f "$program.stamp" ] && [ -z "$(newer_sources)" ]
}

newer_sources() {
    set -- "$root/crates.txt"
    for crate in $crates; do set -- "$@" "$root/crates/$crate/src"; done
    find "$@" -newer "$program" -print 2>&1 | head -n 1
}

# Running.

# As rt runs a program: under the kit's loader, and its emulator where there is one.
run() {
    set -- "$loader" --library-path "$tools/lib" "$program" "$@"
    [ ! -x "$tools/bin/qemu-x86_64" ] || set -- "$tools/bin/qemu-x86_64" "$@"
    # A pipe without a name, and so nothing to clear away: a here-document's, opened again for writing.
    exec 5<< END
begun
END
    { command exec 6>> /dev/fd/5; } 2> /dev/null || fail "can't open /dev/fd/5: /proc has to be mounted"
    "$@" <&3 2>&6 3<&- 5<&- 6>&- &
    exec 3<&- 6>&-
    attend far_read
    judge "$ended"
}

# Ends as the program's last line says.
judge() {
    last=''
    {
        read -r line
        while IFS= read -r line || [ -n "$line" ]; do
            [ -z "$last" ] || printf '%s\n' "$last" >&2
            last=$line
        done
    } <&5
    case $1:$last in
        0:'status '[01]) exit "${last#status }" ;;
        0:"can't read: "*) fail "can't read $file: ${last#*: }" ;;
        0:"can't "*) fail "$last" ;;
    esac
    # It says why only where the pipe's signal is ignored.
    [ "$1" -ne 141 ] || fail "can't write: Broken pipe"
    [ "$1" -le 128 ] || fail "the program was ended by signal $(kill -l "$(($1 - 128))")${last:+: $last}"
    fail "the program didn't say how it ended${last:+: $last}"
}

# How far a process, and so the program, has read its file.
far_read() {
    [ -f "/proc/$1/fd/0" ] || return
    size=$(stat -L -c %s "/proc/$1/fd/0") && read -r _ at < "/proc/$1/fdinfo/0" && [ "$size" -gt 0 ] || return
    echo "$((at * 100 / size)) % read"
}

# Waiting.

# Waits for the process that was started last; on a terminal a function says how far it is.
attend() {
    child=$! noted=$!
    if [ -t 2 ]; then
        show "$1" "$child" > /dev/null 3<&- 5<&- 9>&- &
        shower=$! noted=$!
    fi
    wait "$child" 2> /dev/null
    ended=$? child=''
    hide
}

# A line on the terminal, anew each second. It is short, and what is printed there next stands over it.
show() {
    text=''
    trap '' HUP INT QUIT TTOU
    trap 'wipe; kill -KILL $!; exit' TERM
    while kill -0 "$2"; do
        sleep 1 &
        wait "$!"
        next=$("$1" "$2") || continue
        text=$next
        printf '\r%s\r' "$text" >&7
    done
} 7>&2 2> /dev/null

wipe() {
    [ -z "$text" ] || printf "\r%${#text}s\r" '' >&7
}

hide() {
    [ -n "$shower" ] || return 0
    { kill "$shower"; wait "$shower"; } 2> /dev/null
    shower=''
}

# Ends what still runs, and only then waits. A build is a session of its own, with all that it started. What was started
# this moment may not be noted yet, and may still be this shell, which would take any other signal than KILL.
leave() {
    trap '' HUP INT QUIT TERM
    set +u
    [ "$!" = "$noted" ] || kill -KILL "$!" "-$!"
    [ -z "$child" ] || kill -KILL "$child" "-$child"
    [ -z "$shower" ] || kill "$shower"
    wait
    [ -z "$held" ] || rm -f "$held"
} 2> /dev/null

trap leave EXIT
trap 'exit 129' HUP
trap 'exit 130' INT
trap 'exit 131' QUIT
trap 'exit 143' TERM

# Building.

# Has rt prove and build a program. Two launches don't build into each other.
build() {
    log=$target/build.log lock=$target/build.lock
    said=$({ LC_ALL=C mkdir -p "$target" && LC_ALL=C touch "$lock" "$log"; } 2>&1) ||
        fail "can't build in $target: ${said##*: }; make it writable, or let VP9_READER_PROGRAMS name a folder of \
built programs"
    take_lock
    # Another launch may have built it meanwhile.
    is_built || rebuild "$1"
    drop_lock
}

rebuild() {
    # shellcheck disable=SC2086
    set -- "$1" $crates
    echo "$(($# - 1)) crates" > "$log"
    [ -t 2 ] || echo "bin/$name: proving and building $1: $(($# - 1)) crates, which takes some minutes" >&2
    # What is changed from here on is newer than the program.
    touch "$target/build.begun"
    # rt wouldn't link it again.
    [ -x "$program" ] || rm -f "$program.stamp"
    own=$(command -v setsid) || own=''
    # It runs the program too, on nothing.
    (cd "$root/crates/$1" && exec ${own:+"$own"} "$rt" run) >> "$log" 2>&1 < /dev/null 3<&- &
    attend far_built
    if [ "$ended" -ne 0 ]; then
        rm -f "$program.stamp"
        fail "the build failed: see $log"
    fi
    [ -x "$program" ] || fail "the build left no program: remove $target and try again"
    touch -r "$target/build.begun" "$program"
}

# rt leaves a stamp for each library that is proved.
far_built() {
    read -r total _ < "$log" || return
    proved=0
    for crate in $crates; do
        [ ! -f "$root/crates/$crate/out/rlib/stamp" ] || proved=$((proved + 1))
    done
    echo "proving and building: $proved of $total crates"
}

take_lock() {
    if command -v flock > /dev/null; then
        exec 9>> "$lock"
        flock -n 9 && return
        [ -t 2 ] || echo "bin/$name: waiting for another launch, which is building" >&2
        flock 9 &
        attend far_built
    else
        until ln -s "$$" "$lock.held" 2> /dev/null; do
            kill -0 "$(readlink "$lock.held")" 2> /dev/null || rm -f "$lock.held"
            sleep 1
        done
        held=$lock.held
    fi
}

drop_lock() {
    exec 9>&-
    [ -z "$held" ] || rm -f "$held"
    held=''
}
