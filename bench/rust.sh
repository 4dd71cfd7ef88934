# A Rust compiler for x86-64 programs, for bench/run: need_rust sets $rustc, with its words. On x86-64 the one on PATH
# will do if it is new enough for the crate; elsewhere, and where there is none, Debian's package rustc-web and its
# library for amd64 are unpacked under target/bench/rust. Nothing is installed. RUST=debian asks for Debian's in
# any case.
TARGET=x86_64-unknown-linux-gnu

debian_rust() {
    here=$root/target/bench/rust
    if [ ! -f "$here/complete" ]; then
        say "no Rust for x86-64 here: downloading Debian's rustc-web"
        rm -rf "$here"
        host=$(dpkg --print-architecture) || die "no Rust for x86-64 here, and no Debian to take it from: install Rust 1.86 or newer with its target $TARGET"
        for arch in $host amd64; do need_lists "$arch"; done
        std=$(depends "$host" libstd-rust-web-dev libstd-rust-web-)
        unpack "$host" "$here" rustc-web "$std" "$(depends "$host" "$std" libllvm)"
        unpack amd64 "$here" libstd-rust-web-dev
        touch "$here/complete"
    fi
    LD_LIBRARY_PATH=$(dirname "$(find "$here/usr/lib" -name 'librustc_driver*.so' | head -n 1)"):$(dirname "$(find "$here/usr/lib" -name 'libLLVM*.so*' | head -n 1)")
    export LD_LIBRARY_PATH
    rustc="$here/usr/bin/rustc --sysroot $here/usr"
    $rustc --version >/dev/null || die "Debian's rustc does not run here"
}

need_rust() {
    if [ "${RUST:-}" != debian ] && command -v rustc >/dev/null && [ -d "$(rustc --print target-libdir --target $TARGET 2>/dev/null)" ]; then
        rustc=rustc
        minor=$(rustc --version | sed -n 's/^rustc 1\.\([0-9]*\)\..*/\1/p')
        if [ "${minor:-86}" -ge 86 ]; then return; fi
    fi
    debian_rust
}
