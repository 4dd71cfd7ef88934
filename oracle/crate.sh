# The crate's own files and what they are compiled with: for oracle/build and bench/run. A script sets $me (its name)
# and $root (the repository) and sources this file; need_crate and need_libm then set $src and $libm, and
# copy_crate FOLDER puts the files beside our lib.rs. S2_SRC names another folder of the crate's files, the one
# that holds consts.rs.
src=${S2_SRC:-$root/../shared/docs/src/src}

# The crate's files that crate/lib.rs names. A later layer adds its own.
FILES='consts.rs r1/interval.rs r3/vector.rs s1/angle.rs s1/interval.rs s2/latlng.rs s2/rect.rs'

say() { printf '%s: %s\n' "$me" "$*" >&2; }
die() { say "$*"; exit 2; }

need_crate() {
    for file in $FILES; do
        [ -f "$src/$file" ] || die "no $file in $src: set S2_SRC to the folder src/ of the crate s2 0.2.0"
    done
}

# Prints the folder of libm's sources below $1, where a Debian package puts them.
libm_below() {
    for folder in "$1"/usr/share/cargo/registry/libm-*; do
        if [ -f "$folder/src/lib.rs" ]; then printf '%s\n' "$folder"; return; fi
    done
}

download_libm() {
    say 'downloading librust-libm-dev'
    rm -rf "$root/target/oracle/deb"
    mkdir -p "$root/target/oracle/deb"
    cd "$root/target/oracle/deb"
    apt-get -q download librust-libm-dev >log 2>&1 ||
        { [ "$(id -u)" = 0 ] && apt-get -q update >>log 2>&1 && apt-get -q download librust-libm-dev >>log 2>&1; } ||
        die "cannot download Debian's package librust-libm-dev (see $root/target/oracle/deb/log): install it, or try again with a network"
    dpkg -x librust-libm-dev_*.deb "$root/target/oracle/deb" || die 'cannot unpack librust-libm-dev: dpkg is missing or failed'
    cd "$root"
}

need_libm() {
    libm=$(libm_below '')
    [ -n "$libm" ] || libm=$(libm_below "$root/target/oracle/deb")
    if [ -z "$libm" ]; then
        download_libm
        libm=$(libm_below "$root/target/oracle/deb")
    fi
    [ -n "$libm" ] || die 'the package librust-libm-dev holds no usr/share/cargo/registry/libm-*/src/lib.rs'
}

# copy_crate FOLDER
copy_crate() {
    rm -rf "$1"
    mkdir -p "$1"
    cp "$root/oracle/crate/lib.rs" "$1/lib.rs"
    for file in $FILES; do
        mkdir -p "$(dirname "$1/$file")"
        cp "$src/$file" "$1/$file"
    done
}
