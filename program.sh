# shellcheck shell=bash disable=SC2154
# What `judge`, `list_bucket` and `check_log` share: proves and builds the program on first use, and again when its sources
# have changed, runs it, and ends with the status that its output says: the program itself ends with 0 whatever it prints.
# Sourced, with $program its name, $work the crate that does its work, $arguments, $does, $files, $opened, $good and $bad what
# --help says of it, of its files and of its statuses 0, 1 and 2, $lines the lines that it prints of an input that it takes, and
# status_of, which returns their status; then `main "$@"`. A program that does not read standard input has its own
# take_arguments and start.

die() { # STATUS TEXT
    echo "$program: $2" >&2
    exit "$1"
}

# A closed pipe is then a write that fails, as a full disk is.
trap '' PIPE

root=$(dirname "$(readlink -f "${BASH_SOURCE[0]}")")
binary=$root/target/bin/$program
log=$root/target/$program.log

usage() {
    cat << END
usage: $program $arguments
$does

$files
The first call proves and builds the program, which takes some minutes.

  -h, --help  print this
  --version   print the version

Exit status:
  0  $good
  1  wrong usage, or $opened cannot be opened
  2  $bad
  4  too long
  5  a read or a write failed, or the program cannot be built
END
}

put() {
    printf '%s' "$1" 2> /dev/null || die 5 'cannot write to standard output'
}

print_version() {
    local version
    read -r version < "$root/VERSION" || die 5 "cannot read $root/VERSION"
    put "$program $version"$'\n'
}

# The crates that the program is made of, its own last: those that crates.txt lists for its work; the kit's have no folder here.
crates() {
    local crate
    for crate in $(sed -n "s/^$work://p" "$root/crates.txt") "$work" "$program"; do
        [ ! -d "$root/crates/$crate" ] || echo "$crate"
    done
}

sources() {
    local crate part
    echo "$root/crates.txt"
    for crate in $(crates); do
        for part in src specs proofs; do
            [ ! -d "$root/crates/$crate/$part" ] || echo "$root/crates/$crate/$part"
        done
    done
}

is_built() {
    local all
    mapfile -t all < <(sources)
    [ -x "$binary" ] && [ -z "$(find "${all[@]}" -newer "$binary" -print -quit)" ]
}

# Shows how far the build is: of each crate that it proves rt says `crate NAME: modules ..` and then `logic=proved ..`. Of a
# crate that was proved before it says nothing, so that is known once the program's own, the last, is proved.
show_progress() {
    local line name='' crate all proved=' ' count=0 now
    mapfile -t all < <(crates)
    while IFS= read -r line; do
        [[ $line != 'crate '*': modules '* ]] || { name=${line#crate } && name=${name%%:*}; }
        [[ $line == logic=proved* && -n $name ]] || continue
        proved+="$name "
        for crate in "${all[@]}"; do
            [[ $name == "$program" && $proved != *" $crate "* ]] || continue
            count=$((count + 1))
            echo "$program: $count of ${#all[@]}: $crate proved (unchanged since it was last proved)" >&2
        done
        now=$(date +%s)
        count=$((count + 1))
        echo "$program: $count of ${#all[@]}: $name proved ($((now - begun)) s)" >&2
        begun=$now
        name=
    done
}

# rt proves and links the program, leaves it in its crate's out/, and runs it once. What is kept is a copy, which no other run
# of rt takes away. Standard input is the program's: the build must not read it.
build() {
    echo "$program: proving and building the program; the first time takes some minutes" >&2
    local begun
    begun=$(date +%s)
    mkdir -p "$root/target/bin" || die 5 "cannot make $root/target/bin"
    (trap - PIPE && cd "$root/crates/$program" && rt run) < /dev/null 2>&1 | tee "$log" | show_progress
    if [ "${PIPESTATUS[0]}" -ne 0 ]; then
        cat "$log" >&2
        die 5 "not built; this log is $log"
    fi
    cp "$root/crates/$program/out/$program" "$binary.new" || die 5 "cannot write $binary.new"
    mv -f "$binary.new" "$binary" || die 5 "cannot write $binary"
}

# Standard input is the file from here on; where it cannot be, $why says why.
open_file() { # FILE
    why="no such file: $1"
    [ -e "$1" ] || return
    why="a folder, not a file: $1"
    [ ! -d "$1" ] || return
    why="cannot open $1"
    { exec < "$1"; } 2> /dev/null
}

take_option() { # ARGUMENT
    case $1 in
        -) ;;
        -h | --help) put "$(usage)"$'\n'; exit 0 ;;
        --version) print_version; exit 0 ;;
        -*) die 1 "unknown option: $1; $program --help has the usage" ;;
    esac
}

# Where standard input is closed, its number would go to the pipe below, and the program would wait for itself.
hold_input() {
    { true 3<&0; } 2> /dev/null || die 5 'standard input is closed'
}

# One file, or standard input.
take_arguments() {
    local why
    [ $# -le 1 ] || die 1 "more than one argument; $program --help has the usage"
    [ "${1--}" = - ] || open_file "$1" || die 1 "$why"
    hold_input
}

start() {
    "$binary"
}

run() {
    local printed ended
    # A substitution drops the newlines at the end, so the program's own end stands behind them.
    printed=$(start; echo "ended $?")
    ended=${printed##*ended }
    printed=${printed%ended *}
    put "$printed"
    [ "$ended" -eq 0 ] || die 5 "the program ended with status $ended"
    # Where a read fails the program prints nothing, and says so on standard error.
    [ -n "$printed" ] || exit 5
    [ "$printed" != $'too long\n' ] || exit 4
    [[ $printed =~ $lines ]] || die 5 'the program printed something else'
    status_of "$printed"
    exit
}

main() {
    [ $# -ne 1 ] || take_option "$1"
    take_arguments "$@"
    is_built || build
    run
}
