#!/usr/bin/env bash
# Runs the program by whose name it is called. Where the program is not built, or something that it rests on changed, it
# is proved and built first. Exit status: 0 done, 1 input, output or build failed, 2 wrong usage, 3 tables refused or a bill
# refused with 17 or 18, 128 + N ended by signal N.
set -uo pipefail
set +C +e
unset CDPATH POSIXLY_CORRECT
programs='keys inspect tables_check bill refused'
signals='HUP INT QUIT ABRT USR1 USR2 PIPE ALRM TERM XCPU VTALRM PROF'

# how it is called
usage() {
    local what='[--tables DIR] [FILE ..]'
    [ "$name" != tables_check ] || what='[DIR | --tables DIR]'
    echo "usage: $name $what | --help | --version"
}

# what it does, for --help
explain() {
    usage
    case $name in
    keys) echo 'Prints for each line, an identifier, its number and the key under which it is kept.' ;;
    inspect) echo 'Prints for each line, an identifier, its number, the place of a fault, its parts, and what the number means.' ;;
    tables_check) echo 'Prints the verdict on aliases.tsv, likely.tsv and parents.tsv.' ;;
    bill) echo 'Prints the monthly bill of usage lines: a member (1 to 64), a tab and an identifier.' ;;
    refused) echo 'Prints the usage lines that the bill counts as refused, and why.' ;;
    esac
    [ "$name" = tables_check ] || echo 'Lines come from the files, one after the other, or from standard input.'
    if [ "$name" = inspect ]; then
        echo 'Tables of DIR, else of the current folder, if it has aliases or likely rows, explain why an identifier has no key.'
    else
        echo 'The tables are those of DIR, else those of the current folder if it has any, else those of the project.'
    fi
    echo 'Exit status: 0 done; 1 input or output failed; 2 wrong usage; 3 tables refused, or a bill refused with 17 or 18.'
}

# a line on standard error; control bytes, which a name may have, as \xNN
say() { # TEXT
    local LC_ALL=C text=$1 byte
    while [[ $text =~ [[:cntrl:]] ]]; do
        printf -v byte '\\x%02X' "'${BASH_REMATCH[0]}"
        text=${text//"${BASH_REMATCH[0]}"/"$byte"}
    done
    printf '%s: %s\n' "$name" "$text" >&2 || :
}

# ends, as something failed
fail() { say "$1"; exit 1; }

# ends, as it was called wrongly
wrong() { say "$1"; usage >&2; exit 2; }

# ends, as a file or folder can't be had: wrong usage where it is not there or of another kind
refuse() { # NAME WORDS
    case $2 in
    'No such file or directory' | 'Not a directory' | 'Is a directory') wrong "${1:-''}: $2" ;;
    *) fail "$1: $2" ;;
    esac
}

# the system's words for why a command failed
cause() { # COMMAND ..
    local words
    words=$({ export LC_ALL=C; "$@"; } 2>&1) && words='unknown cause'
    printf '%s' "${words##*: }"
}

# prints a text and ends
tell() { # TEXT
    local words
    { words=$(printf '%s\n' "$1" 2>&1 >&4); } 4>&1
    case $? in 0 | 141) exit ;; esac
    fail "standard output: ${words##*: }"
}

# follows links from a path to `file`; the last name of a program on the way is `name`
follow() { # PATH
    local link
    case $1 in /*) file=$1 ;; *) file=$PWD/${1#./} ;; esac
    while case " $programs " in *" ${file##*/} "*) name=${file##*/} ;; esac; [ -L "$file" ]; do
        link=$(readlink "$file" && echo .) || return
        link=${link%$'\n'.}
        case $link in /*) file=$link ;; *) file=${file%/*}/$link ;; esac
    done
}

# the kit's identity as `rt version` prints it, into `kit`; from its file where that is found, as this is quicker
ask_kit() {
    local file name
    hash rt 2>/dev/null || return
    follow "${BASH_CMDS[rt]-}" && { read -r kit <"${RATTLE_HOME:-${file%/*}/..}/KIT-ID"; } 2>/dev/null || kit=$(rt version)
}

# the project's version, and the kit that proved the program
version() {
    local number
    number=$(sed -n 's/^#define ALTAZHBEY_VERSION "\(.*\)"$/\1/p' "$here/include/altazhbey.h")
    read_stamp
    echo "$name $number, proved with ${by:-nothing yet}"
}

# opens a file for reading
read_from() { : <"$1"; } # FILE

# standard input from the files: one is opened, several are gathered; / is what stands where a descriptor is closed
open_files() {
    local one
    for one in "${files[@]}"; do
        [ -z "$closed" ] || [ ! "$one" -ef / ] || fail "$one: Bad file descriptor"
        [ ! -d "$one" ] || refuse "$one" 'Is a directory'
        [ -r "$one" ] || refuse "$one" "$(cause read_from "$one")"
    done
    if [ ${#files[@]} -gt 1 ]; then gather; else { exec <"$one"; } 2>/dev/null || refuse "$one" "$(cause read_from "$one")"; fi
    closed=${closed/ 0/}
}

# gathers the files in a file without a name, each ended by a line end; the descriptors' numbers are 10 or more, so that
# /dev/stdin and the like still are the caller's. The file is made by bash itself, so that a signal leaves none; one that
# ends rm has it run again
gather() {
    local at to from umask words=''
    at=${TMPDIR:-/tmp}/$name.$$.$RANDOM$RANDOM
    umask=$(umask)
    catch
    umask 077
    set -C
    { exec {to}>"$at" {from}<"$at"; } 2>/dev/null || words=$(cause eval ': >"$at"')
    set +C
    umask "$umask"
    [ -z "$words" ] || fail "$at: $words"
    rm -f "$at" || rm -f "$at"
    LC_ALL=C sed -s '$a\' -- "${files[@]}" <&0 >&"$to" 2>&"$pipe" &
    await $!
    exec <&"$from" {to}>&- {from}<&-
    [ "$status" -ne 0 ] || return 0
    [ "$status" -le 128 ] || words="ended by SIG$(kill -l "$status")"
    ! read -r -t 0 -u "$pipe" || read -r -u "$pipe" words
    fail "the files could not be gathered: ${words#sed: }"
}

# the crates that the program rests on, and it
crates() {
    awk -v name="$name" '
        function visit(crate,    deps, n, k) {
            if (!(crate in rests) || seen[crate]++) return
            n = split(rests[crate], deps, " ")
            for (k = 1; k <= n; k++) visit(deps[k])
            printf "%s ", crate
        }
        { sub(/#.*/, "") }
        split($0, part, ":") == 2 { split(part[1], words, " "); rests[words[1]] = part[2] }
        END { visit(name) }' "$here/crates.txt"
}

# has find go over the files that the program rests on; a crate's must-fail/ and out/ are none of them
rested_on() { # ACTION ..
    find -L crates.txt "${on[@]/#/crates/}" -regex 'crates/[^/]*/\(must-fail\|out\)' -prune -o -type f "$@"
}

# two checksums: of the names, inodes, sizes and dates of change of the files that the program rests on, which a change of
# any changes, and of its own bytes
look() { cd -P "$here" && rested_on -printf '%p %i %s %C@\n' 2>&1 | cksum - "target/bin/$name" 2>/dev/null; }

# the bytes of these files, as a checksum
bytes_now() { cd -P "$here" && rested_on -print0 2>/dev/null | LC_ALL=C sort -z | xargs -0 cksum 2>/dev/null | cksum; }

# the stamp of what was built: the kit, the crates that it rests on, their bytes, and what `look` showed
read_stamp() {
    by='' on=() bytes='' dates='' made=''
    [ -f "$stamp" ] && { read -r by && read -ra on && read -r bytes && read -r dates && read -r made; } 2>/dev/null <"$stamp"
}

write_stamp() { # WHAT LOOK SHOWED
    { printf '%s\n' "$by" "${on[*]}" "$bytes" "$1" >"$stamp.$BASHPID.new" && mv "$stamp.$BASHPID.new" "$stamp"; } 2>/dev/null
}

# whether the program is the one that was built, by this kit, and nothing that it rests on changed since. Where dates
# changed and bytes did not, as in a copy, the stamp gets the new dates if it can be written
is_current() {
    local kit seen
    read_stamp && [ -x "$program" ] || return
    ! command -v rt >/dev/null || { ask_kit && [ "$kit" = "$by" ]; } || return
    seen=$(look) || return
    [ "$seen" != "$dates"$'\n'"$made" ] || return 0
    [ "${seen#*$'\n'}" = "$made" ] && [ "$(bytes_now || echo failed)" = "$bytes" ] || return
    write_stamp "$seen" || return 0
}

# takes the lock, as programs that are started at once share target/; where there is no flock, it is a folder
lock() {
    local at=$here/target/programs/lock holder waits='waiting for another program that is being proved'
    if command -v flock >/dev/null; then
        { exec 9>"$at"; } 2>/dev/null || fail "$at: $(cause eval ': >"$at"')"
        flock -n 9 || { say "$waits"; { flock 9; } 2>/dev/null; }
        return
    fi
    [ -w "${at%/*}" ] || fail "${at%/*}: $(cause mkdir "$at.folder")"
    until mkdir "$at.folder" 2>/dev/null; do
        [ -z "$waits" ] || { say "$waits"; waits=''; }
        holder=$(cat "$at.folder/process" 2>/dev/null || echo $$)
        kill -0 "$holder" 2>/dev/null || { say "the program that had this lock is no more, so remove it: $at.folder"; return 1; }
        { sleep 1; } 2>/dev/null
    done
    remove+=("$at.folder")
    echo "$BASHPID" >"$at.folder/process"
}

# shows of what rt prints a line for each crate that it proved, with its place among all; of an unchanged one rt says
# nothing. Of all else, where nothing was built, it shows the end, and the crate that was refused
progress() {
    local line crate='' refused='' built='' k now at=${EPOCHREALTIME/[.,]/} others=()
    while IFS= read -r line; do
        case $line in
        'rt: running '*) built=yes ;;
        'rt: waiting for '*) say "${line#rt: }" ;;
        'crate '*': modules '*) crate=${line#crate } crate=${crate%%:*} ;;
        'logic=proved '*)
            now=${EPOCHREALTIME/[.,]/}
            for k in "${!on[@]}"; do
                [ "${on[k]}" != "$crate" ] || say "proving, $((k + 1)) of ${#on[@]}: $crate ($(((now - at) / 1000000)) s)"
            done
            at=$now
            ;;
        'logic=not-proved'*) refused=$crate ;;
        'fn '*': proved' | 'rt: chose '* | 'rt: '*': begins with '* | 'logic '* | 'statements '* | 'library '* | 'axioms '* | 'linked '* | 'only='*) ;;
        *) others+=("$line") ;;
        esac
    done
    [ -z "$built" ] || return 0
    printf '%s\n' "${others[@]}" | tail -n 20 >&2
    [ -z "$refused" ] || say "$refused NOT PROVED"
    return 1
}

# has rt prove and build the program, which it then runs once, on nothing: what that prints, and how it ends, is no matter.
# Bash says nothing of a process that a signal ends
ask_rt() { # ROOM
    { (cd -P "$here/crates/$name" && TMPDIR=$1 rt run 2>&1 >/dev/null; :) | progress 2>&4; } 4>&2 2>/dev/null
}

# takes the program from rt's folder, which rt empties now and then, as under rt ci
take() { mkdir -p "${program%/*}" && cp "$here/crates/$name/out/$name" "$program.$BASHPID.new" && mv "$program.$BASHPID.new" "$program"; }

# proves and builds the program, alone. The stamp has the files as they were before, and is not written where one changed
# meanwhile. What is kept meanwhile is removed, however it ends. A terminal that stops what writes from the background does
# not stop this
prove() {
    local room kit list before seen
    trap '' TTOU
    remove=("$stamp.$BASHPID.new" "$program.$BASHPID.new")
    trap 'rm -rf "${remove[@]}"' EXIT
    lock || return
    if is_current; then return 0; fi
    room=${TMPDIR:-/tmp}/$name.$BASHPID.$RANDOM$RANDOM
    remove+=("$room")
    mkdir -m 700 -- "$room" 2>/dev/null || fail "$room: $(cause mkdir -m 700 -- "$room")"
    ask_kit && list=$(crates) && [ -n "$list" ] && read -ra on <<<"$list" || return
    by=$kit before=$(look)
    bytes=$(bytes_now) || fail 'find, sort, xargs or cksum failed, so no change would be seen'
    say "proving it and what it rests on, ${#on[@]} crates; unchanged ones stay proved, another takes seconds to minutes"
    ask_rt "$room" || return
    take 2>/dev/null || fail "$program: $(cause take)"
    seen=$(look) || fail 'find or cksum failed, so no change would be seen'
    [ "${seen%%$'\n'*}" = "${before%%$'\n'*}" ] || return 0
    write_stamp "$seen" || fail "$stamp could not be written"
}

# has the program proved, in a process group of its own, so that a signal ends the prover too
build() {
    local tool
    command -v rt >/dev/null || fail 'it must be proved first, and rt is missing: install the Rattle kit and have its bin/ in PATH'
    for tool in awk cksum find sort tail xargs; do command -v "$tool" >/dev/null || fail "$tool is missing, with which changes are seen"; done
    mkdir -p "${stamp%/*}" 2>/dev/null || fail "${stamp%/*}: $(cause mkdir -p "${stamp%/*}")"
    catch
    set -m
    prove </dev/null &
    set +m
    await "-$!"
    [ "$status" -eq 0 ] || fail 'it is not proved, so it does not run'
}

# ends the job that runs
stop() { [ -z "$job" ] || kill -TERM -- "$job" 2>/dev/null; }

# from now on a signal ends the job; `caught` has its name
catch() {
    local signal
    job='' caught=''
    for signal in $signals; do trap "caught=$signal; stop" "$signal"; done
}

# waits for a job, a process or -GROUP, into `status`; after a signal this script ends by it too
await() { # JOB
    job=$1
    [ -z "$caught" ] || stop
    wait "${job#-}" 2>/dev/null
    status=$?
    trap - $signals
    [ -n "$caught" ] || return 0
    wait "${job#-}" 2>/dev/null
    kill -"$caught" $$
    exit "$status"
}

# refuses an option beside which other arguments stand
alone() { [ "$count" -eq 1 ] || wrong "$1 stands alone"; } # OPTION

# whether the current folder has this table
has() { [ -e "$1.tsv" ] || [ -L "$1.tsv" ]; } # TABLE

# goes to a folder
enter() { cd -P "$1" 2>/dev/null || refuse "${1#./}" "$(cause cd -P "$1")"; } # FOLDER

# goes to the folder of the tables and says which it is; inspect may do without
enter_tables() {
    if [ -n "$tables" ]; then
        enter "$tables"
    elif ! has aliases && ! has likely; then
        [ "$name" != inspect ] || return 0
        has parents || cd -P "$here/tables" 2>/dev/null || fail "$here/tables: $(cause cd -P "$here/tables")"
    fi
    if [ "$name" != inspect ] || [ -e aliases.tsv ] || [ -e likely.tsv ]; then say "tables in $PWD"; else say "no tables in $PWD"; fi
}

# opens a pipe, for what a process has to say at its end
open_pipe() { { exec {pipe}<> <(:); } 2>/dev/null || fail "a pipe: $(cause eval 'exec {pipe}<> <(:)')"; }

# runs the program, which has an argument so that its exit status says what it came to. Where nobody reads its output any
# more that is 141, as by SIGPIPE: nothing is said of it but where that signal is ignored
run() {
    local fd
    exec {pipe}<&- || exit 1
    catch
    (
        exec 3>&-
        for fd in $closed; do exec {fd}>&-; done
        exec "$program" status
    ) <&0 &
    await $!
    case $status in
    0 | 1 | 3) exit "$status" ;;
    141) [ -z "$(trap -p PIPE)" ] || fail 'standard output: Broken pipe' ;;
    *) [ "$status" -gt 128 ] || exit 1; say "ended by SIG$(kill -l "$status")" ;;
    esac
    exit "$status"
}

# descriptors that are closed, and closed again for the program: meanwhile a folder, which can't be read or written as a
# file, keeps their numbers from other uses
closed=''
for fd in 0 1 2; do { : 9<&"$fd"; } 2>/dev/null || { closed+=" $fd" && eval "exec $fd</"; }; done

name=programs.sh
follow "$0"
here=${file%/*}
program=$here/target/bin/$name
stamp=$here/target/programs/$name
[ "$name" != programs.sh ] || { say "call it by the name of a program: $programs"; exit 2; }
[ -f "$here/crates.txt" ] || fail "$here is not the project's folder: link to the program, do not copy it"

tables=''
files=()
count=$#
while [ $# -gt 0 ]; do
    case $1 in
    --help) alone "$1"; tell "$(explain)" ;;
    --version) alone "$1"; tell "$(version)" ;;
    --tables) tables=${2-}; [ -n "$tables" ] || wrong '--tables needs a folder'; shift ;;
    --) files+=("${@:2}"); break ;;
    -*) wrong "no such option: $1" ;;
    *) files+=("$1") ;;
    esac
    shift
done
if [ "$name" = tables_check ] && [ ${#files[@]} -gt 0 ]; then
    [ -z "$tables" ] && [ ${#files[@]} -eq 1 ] && [ -n "${files[0]}" ] || wrong 'it takes one folder'
    tables=${files[0]}
    files=()
fi
files=("${files[@]/#-/./-}")
case $tables in '' | /*) ;; *) tables=./$tables ;; esac
[ -z "$tables" ] || (enter "$tables") || exit

open_pipe
[ ${#files[@]} -eq 0 ] || open_files
is_current || build
enter_tables
run
