# Read by the scripts beside it, not run by itself. It says which two doors are compared, and how a program is run.
#
#   JUDGE   the command of the door whose answers are expected (default: the oracle)
#   ASK     the command of the door that is tried (default: ./run ask, the Rattle program)
#
# Both run in the repository's root, with questions on standard input and answers on standard output.

root=$(cd "$here/.." && pwd -P)
out=$root/target/oracle
oracle=$out/bin/oracle
judge=${JUDGE:-oracle/answer}
ask=${ASK:-./run ask}

say() { printf '%s: %s\n' "$name" "$*" >&2; }
die() { say "$*"; exit 2; }

# run_door COMMAND INPUT OUTPUT: the status is 124 where the door is still running after $limit seconds.
run_door() {
    (cd "$root" && timeout "$limit" sh -c "$1") <"$2" >"$3"
}

# Builds both doors. A door is built by its first run, so it is run on empty input, which must give
# no output. The limit on the time of an answer does not count here: proving takes long.
build_doors() {
    "$here/build" || exit 2
    [ -n "${ASK:-}" ] || [ -x "$root/run" ] ||
        die 'there is no ./run that builds and runs the program ask: set ASK to a command that answers questions'
    mkdir -p "$work"
    for door in "$judge" "$ask"; do
        (cd "$root" && sh -c "$door") </dev/null >"$work/on-empty" || die "the door '$door' does not build or run"
        [ ! -s "$work/on-empty" ] || die "the door '$door' answers empty input: $(head -c 200 "$work/on-empty")"
    done
}

# run_program DOOR COMMAND INPUT COUNT SEED: the oracle's door DOOR runs a program of ours on drawn inputs. The
# program is built by its first run, on INPUT. The limit does not count here: proving takes long.
run_program() {
    work=$out/$1
    [ $# -eq 5 ] || die "usage: $name COUNT SEED"
    case $4$5 in *[!0-9]*) die 'COUNT and SEED are whole numbers' ;; esac
    "$here/build" || exit 2
    mkdir -p "$work"
    rm -f "$work"/differing-*
    cd "$root"
    printf '%s' "$3" | sh -c "$2" >"$work/on-first" || die "the program '$2' does not build or run"
    exec "$oracle" "$1" "$4" "$5" "$2" "${LIMIT:-60}" "$work"
}
