# What C programs for x86-64 are compiled and run with. A script sets $me (its name), $root (the repository) and
# sources this file; need_cc then sets $cc, and need_emulator sets $emulate, which is empty where programs run by
# themselves. On x86-64 the compiler is gcc; on Arm it is Debian's cross compiler, with Debian's emulator. A compiler that
# is missing is installed if we are root and there is apt-get, and is otherwise named; an emulator is unpacked under
# target/. CC names another compiler, EMULATOR another emulator with its words; EMULATE=1 takes the emulator on
# x86-64 too.
say() { printf '%s: %s\n' "$me" "$*" >&2; }
die() { say "$*"; exit 2; }
. "$root/tools/debian.sh"

# bring PACKAGE..: installs Debian's packages, or says that they are missing
bring() {
    [ "$(id -u)" = 0 ] && command -v apt-get >/dev/null || die "missing: install Debian's packages $*"
    say "installing $*"
    mkdir -p "$root/target"
    log=$root/target/packages.log
    apt-get -q -y install --no-install-recommends "$@" >"$log" 2>&1 ||
        { apt-get -q update >>"$log" 2>&1 && apt-get -q -y install --no-install-recommends "$@" >>"$log" 2>&1; } ||
        die "cannot install Debian's packages $* (target/packages.log says why)"
}

# whether $cc makes x86-64 programs over a C library
compiles() {
    mkdir -p "$root/target"
    printf '#include <string.h>\n#ifndef __x86_64__\n#error\n#endif\nint main(void) { return 0; }\n' |
        "$cc" -x c - -o "$root/target/compiles" 2>/dev/null
}

need_cc() {
    case $(uname -m) in
    x86_64) cc=${CC:-gcc} packages='gcc libc6-dev' ;;
    aarch64) cc=${CC:-x86_64-linux-gnu-gcc} packages='gcc-x86-64-linux-gnu libc6-dev-amd64-cross' ;;
    *) die "programs are compiled for x86-64 Linux: a machine $(uname -m) is not provided for" ;;
    esac
    if compiles; then return; fi
    [ -z "${CC:-}" ] || die "CC=$CC makes no x86-64 programs here"
    bring $packages
    compiles || die "$cc makes no x86-64 programs, though $packages are installed"
}

need_emulator() {
    emulate=${EMULATOR:-}
    if [ -n "$emulate" ] || { [ "$(uname -m)" = x86_64 ] && [ -z "${EMULATE:-}" ]; }; then return; fi
    need_qemu
    emulate="$qemu -L /usr/x86_64-linux-gnu"
}
