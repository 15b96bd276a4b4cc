# How tools/speed.sh builds what it measures, all in the folder `work`.

# Where the distribution has the sources of other crates.
sources=/usr/share/cargo/registry

# keep NAME BENCH CML: the programs that are built already, under one name in each build.
keep() {
    mkdir -p "$work/$1"
    [ -z "$2" ] || ln -s "$2" "$work/$1/cml_bench"
    [ -z "$3" ] || ln -s "$3" "$work/$1/cml"
}

# build NAME PREFIX TREE: the programs in C and in Rust with this installed library and this checkout's crate, and a copy of its
# package for Python, with its extension if it has one. What measures is always that of here, so that two builds do the same.
build() {
    built=$work/$1
    mkdir -p "$built/seryugo/examples"
    cp -r "$3/bindings/rust/seryugo/src" "$3/bindings/rust/seryugo/tests" "$3/bindings/rust/seryugo/build.rs" \
        "$3/bindings/rust/seryugo/Cargo.toml" "$built/seryugo" || return
    cp -r bindings/rust/seryugo/examples/speed bindings/rust/seryugo/examples/journals.rs "$built/seryugo/examples"
    cp -r bindings/rust/speed_of_peers "$built"
    echo "$2" > "$built/prefix"
    cp -r "$3/bindings/python" "$built/package" && find "$built/package" -name '*.so' -exec rm {} + || return
    python3 "$built/package/build_backend.py" > /dev/null || echo 'left out: the extension for Python' >&2
    echo "$built/package" > "$built/python"
    cc -O2 -I "$2/include" tools/speed/speed.c "$2/lib/libseryugo.a" -o "$built/speed_in_c" || return
    cargo_builds seryugo --example journals && cp "$built/target/release/examples/journals" "$built" || return
    cargo_builds seryugo --example speed && cp "$built/target/release/examples/speed" "$built" || return
    if has_peers; then
        cargo_builds speed_of_peers && cp "$built/target/release/speed_of_peers" "$built/peers"
    else
        echo 'left out: crossbeam-channel and tokio: sh tools/packages.sh installs their sources' >&2
    fi
}

has_peers() { [ -n "$(crate_version crossbeam-channel)" ] && [ -n "$(crate_version tokio)" ]; }

# cargo_builds CRATE WORD..: as the tests build it, with the distribution's sources in place of a registry.
cargo_builds() {
    crate=$1
    shift
    env SERYUGO_PREFIX="$(cat "$built/prefix")" CARGO_TARGET_DIR="$built/target" cargo build --release --quiet --offline \
        --config 'source.crates-io.replace-with="distribution"' --config "source.distribution.directory=\"$sources\"" \
        --manifest-path "$built/$crate/Cargo.toml" "$@"
}
