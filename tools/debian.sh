# Debian's packages of any architecture, unpacked and not installed: a script sets $me, $root, say and die and sources this file
# (tools/x86-64.sh does both for it). The lists of each architecture are kept under target/apt, so that nobody has to be root.

# apt_for ARCHITECTURE COMMAND..: an apt command over the lists of that architecture
apt_for() {
    arch=$1 command=$2
    shift 2
    lists=$root/target/apt/$arch
    mkdir -p "$lists/lists/partial" "$lists/cache/archives/partial"
    "$command" -q -o "Dir::State::lists=$lists/lists" -o "Dir::Cache=$lists/cache" -o "APT::Architecture=$arch" -o "APT::Architectures=$arch" "$@"
}

# need_lists ARCHITECTURE
need_lists() {
    command -v dpkg >/dev/null && command -v apt-get >/dev/null || die "this is no Debian: its packages for $1 cannot be brought"
    mkdir -p "$root/target/apt"
    apt_for "$1" apt-get update >"$root/target/apt/log" 2>&1 || die "cannot read Debian's lists for $1 (target/apt/log says why)"
}

# depends ARCHITECTURE PACKAGE PREFIX: the first package whose name starts so that the package needs
depends() { apt_for "$1" apt-cache depends "$2" | sed -n "s/^ *Depends: \($3[^ ]*\)$/\1/p" | head -n 1; }

# unpack ARCHITECTURE FOLDER PACKAGE..: downloads packages and unpacks them into the folder
unpack() {
    of=$1 folder=$2
    shift 2
    mkdir -p "$folder"
    (cd "$folder" && apt_for "$of" apt-get download "$@" >>"$root/target/apt/log" 2>&1 && for deb in *.deb; do dpkg -x "$deb" . || exit 1; done && rm -f ./*.deb) ||
        die "cannot bring Debian's packages $* for $of (target/apt/log says why)"
}

# needed ARCHITECTURE PACKAGE: the package and all that it needs, but for the C library
needed() {
    apt_for "$1" apt-cache depends --recurse --no-recommends --no-suggests --no-conflicts --no-breaks --no-replaces --no-enhances "$2" |
        grep '^[a-z0-9]' | grep -vE '^(libc6|libgcc-s1|gcc-[0-9]+-base|libcrypt1|debconf|debconf-2.0|cdebconf|dpkg|install-info|perl-base)$' | sort -u
}

# need_qemu: sets $qemu, the words that run Debian's emulator of x86-64: the installed one, or one that is unpacked under
# target/qemu with the libraries that it needs. These are handed to it by the loader and not by the environment, which is that
# of the program that it runs.
need_qemu() {
    qemu=qemu-x86_64
    if command -v $qemu >/dev/null; then return; fi
    if [ ! -f "$root/target/qemu/complete" ]; then
        say "no qemu-x86_64 here: downloading Debian's qemu-user into target/qemu"
        host=$(dpkg --print-architecture) || die "missing: qemu-x86_64 (Debian's package qemu-user)"
        need_lists "$host"
        unpack "$host" "$root/target/qemu" $(needed "$host" qemu-user)
        touch "$root/target/qemu/complete"
    fi
    case $(uname -m) in aarch64) host_loader=/lib/ld-linux-aarch64.so.1 ;; *) host_loader=/lib64/ld-linux-x86-64.so.2 ;; esac
    folders=$(find "$root/target/qemu" -name '*.so.*' -exec dirname {} + | sort -u | paste -sd: -)
    qemu="$host_loader --library-path $folders $root/target/qemu/usr/bin/qemu-x86_64"
    $qemu --version >/dev/null || die "Debian's qemu-user does not run here"
}
