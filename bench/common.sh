# What bench/run, bench/count and bench/pipe share, sourced in the repository's folder: our programs, the lines that they
# read, and their counted instructions.
out=$PWD/target/bench
identifiers=$PWD/bench/identifiers.txt
tables=$PWD/tables
failed=0
mkdir -p "$out"

# install PACKAGE: from the distribution, where that is possible.
install() {
    echo "installing $1" >&2
    export DEBIAN_FRONTEND=noninteractive
    { apt-get update && apt-get install -y --no-install-recommends "$1"; } >"$out/install.log" 2>&1
}

# built NAME [PACKAGE]: builds by build_NAME, a second time with the package.
built() {
    "build_$1" >"$out/$1.log" 2>&1 && return
    { [ -n "${2-}" ] && install "$2" && "build_$1" >"$out/$1.log" 2>&1; } && return
    echo "$1: left out, no build${2:+, with or without $2} (see target/bench/$1.log)" >&2
    return 1
}

# Over tested tables by what is exported for tests, the exported functions as they are, and the programs. Counting needs
# valgrind's header when these are built.
build_ours() {
    (cd crates/test_api && rt lib) && cc -O2 -Wall bench/ours.c crates/test_api/out/libtest_api.a -o "$out/ours"
}
build_c_api() {
    (cd crates/c_api_c && rt lib) && cc -O2 -Wall -Iinclude bench/c_api.c crates/c_api_c/out/libc_api_c.a -o "$out/c_api"
}
build_keys() {
    ./keys </dev/null >/dev/null && ./bill </dev/null >/dev/null && write_lines
}

valgrind_ready() { command -v valgrind >/dev/null || install valgrind; }

# ours_ready: builds them all, into `ready`; one that is missing is a failure.
ready=()
ours_ready() {
    valgrind_ready
    for each in ours c_api keys; do
        if built "$each"; then ready+=("$each"); else failed=1; fi
    done
}

# The million lines of each row of a program, in a file of the row's name. The month is over 500 keys: its identifiers
# for `keys`, its lines for `bill`.
million() { for ((k = 0; k < 1000000; k += $(wc -l <"$1"))); do cat "$1"; done | head -n 1000000; }
write_lines() {
    grep -v '[-_]u[-_]' "$identifiers" >"$out/without"
    million "$identifiers" >"$out/keys, a line"
    million "$out/without" >"$out/keys, a line without extensions"
    (cd "$tables" && "$OLDPWD/target/bin/keys" <"$identifiers" >"$out/rows") &&
        python3 bench/usage.py "$out/rows" "$out/keys, a line of a month" "$out/bill, a line"
}

# ---- instructions ----

counts=$out/counts

# The length of a program's path, of its folder's and of the environment moves the stack, and by that how memcpy and memset
# go about it: all is counted in a folder whose path has one length wherever the repository is, with no environment.
# place_for_counts PROGRAM..: makes that folder, with these programs, the tables and the identifiers.
place_for_counts() {
    rm -rf "$counts"
    place=$(mktemp -d /tmp/altazhbey.XXXXXX) && trap 'rm -rf "$place"' EXIT &&
        mkdir -p "$counts" "$place/bench" "$place/tables" && cp tables/*.tsv "$place/tables" &&
        cp bench/identifiers.txt bench/long.txt "$place/bench" && cp "$@" "$place"
}

# counted OUTPUT FOLDER PROGRAM..: runs it in that folder under callgrind, which writes to the output. Names are bound at
# the start: else the first call of memcpy, which finds it, would count for the row that happens to make it.
counted() {
    (cd "$place/$2" && env -i LD_BIND_NOW=1 "$(command -v valgrind)" --tool=callgrind --callgrind-out-file="$counts/$1" \
        "$place/$3" "${@:4}") >/dev/null 2>"$counts/log" && return
    tail -n 5 "$counts/log" >&2
    return 1
}

# count_rows NAME ARGUMENT..: the rows of one of our two programs in C.
count_rows() {
    counted "$1" . "$1" --count "${@:2}" && python3 bench/counts.py "$counts/$1" >>"$out/counted.tsv"
}

# instructions_a_line FEED ROW PROGRAM: of 40,000 lines less of 20,000, which takes start and tables away. `FEED FILE
# COMMAND..` runs the command with the file as its input.
instructions_a_line() {
    for many in 20000 40000; do
        head -n "$many" "$out/$2" >"$counts/lines"
        "$1" "$counts/lines" counted "line.$many" tables "$3" || return
    done
    awk '/^summary:/ { less = more; more = $2 } END { printf "%.1f\n", (more - less) / 20000 }' \
        "$counts/line.20000" "$counts/line.40000"
}
from_file() { "${@:2}" <"$1"; }

# count_line ROW PROGRAM: the row's instructions a line.
count_line() {
    local found
    found=$(instructions_a_line from_file "$@") && printf '%s\t%s\n' "$1" "$found" >>"$out/counted.tsv"
}

count_ours() { count_rows ours bench/identifiers.txt; }
count_c_api() { count_rows c_api; }
count_keys() {
    count_line 'keys, a line' keys &&
        count_line 'keys, a line without extensions' keys &&
        count_line 'keys, a line of a month' keys &&
        count_line 'bill, a line' bill
}

# count: the instructions of all rows, into counted.tsv, where all is built: a program left from another build would not
# do. What cannot be counted is a failure.
count() {
    : >"$out/counted.tsv"
    { [ "$failed" -eq 0 ] && place_for_counts "$out/ours" "$out/c_api" target/bin/keys target/bin/bill; } ||
        { echo 'nothing is counted' >&2; failed=1; return; }
    for each in ours c_api keys; do
        echo "counting $each" >&2
        "count_$each" || { echo "$each: not counted" >&2; failed=1; }
    done
}
