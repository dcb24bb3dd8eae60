# Shared by the commands of this folder, which source it: `run_program PROFILE NAME [ARGUMENT..]` makes all that the
# programs of compare/src/bin need, and runs one of them; PROFILE is release, debug or lto. `build_program PROFILE NAME`
# only builds it. `run_tests` runs the tests. Paths among the arguments are taken from where the command was called.

compare_target=x86_64-unknown-linux-gnu
compare_caller=$PWD
compare_root=$(cd "$(dirname "$0")/.." && pwd) || exit 1
. "$compare_root/tools/x86.sh"

# Says a sentence on standard error, and ends.
give_up() {
    echo "compare/$(basename "$0"): $1" >&2
    exit 1
}

# The Rust toolchain has to be there, with the standard library of x86-64 Linux, for which the library is built.
need_rust() {
    command -v cargo >/dev/null || give_up "cargo is missing: install a Rust toolchain"
    command -v "${RUSTC:-rustc}" >/dev/null || give_up "rustc is missing: install a Rust toolchain"
    libdir=$("${RUSTC:-rustc}" --print target-libdir --target $compare_target 2>/dev/null)
    for std in "$libdir"/libstd-*; do
        [ -e "$std" ] && return
    done
    give_up "the Rust toolchain has no standard library for $compare_target: add that target to it"
}

# The static libraries, built where they are missing or older than a source of a crate.
make_library() {
    ./archives || give_up "the library could not be built: ./archives failed"
}

# The crate and all that it needs, unpacked where the archive is at hand.
unpack_crates() {
    crates=${RUST_CRATES:-$compare_root/../shared/rust-crates.tar.xz}
    case "$crates" in /*) ;; *) crates=$compare_caller/$crates ;; esac
    if [ ! -f "$crates" ]; then
        [ -z "${RUST_CRATES:-}" ] || give_up "there is no file $crates, which RUST_CRATES names"
        return
    fi
    if [ ! -d target/rust-crates ] || [ -n "$(find "$crates" -newer target/rust-crates)" ]; then
        rm -rf target/unpacking
        mkdir -p target/unpacking
        tar xf "$crates" -C target/unpacking || give_up "$crates could not be unpacked"
        [ -d target/unpacking/rust-crates ] || give_up "$crates holds no folder rust-crates"
        rm -rf target/rust-crates
        mv target/unpacking/rust-crates target/rust-crates
        rmdir target/unpacking
        touch target/rust-crates
    fi
    offline=yes
}

# Cargo on this folder: a subcommand and its arguments, from the archive's crates where they are at hand.
cargo_here() {
    subcommand=$1
    shift
    set -- --manifest-path "$compare_root/compare/Cargo.toml" --target $compare_target "$@"
    if [ -n "${offline:-}" ]; then
        set -- --offline --config 'source.crates-io.replace-with="local"' \
            --config "source.local.directory=\"$compare_root/target/rust-crates\"" "$@"
    fi
    CARGO_TARGET_DIR="$compare_root/target/compare" cargo "$subcommand" "$@"
}

# All that is needed before cargo; first what may be missing, then the library, which takes minutes.
prepare() {
    cd "$compare_root" || exit 1
    mkdir -p target
    need_rust
    find_x86 || give_up "$x86_missing"
    make_library
    unpack_crates
}

# The words that tell cargo a profile.
profile_words() {
    case "$1" in release) echo --release ;; lto) echo --profile lto ;; esac
}

build_program() {
    prepare
    [ -d target/compare ] || echo "Building the comparison: this takes a minute." >&2
    if ! cargo_here build -q $(profile_words "$1") --bin "$2" >target/compare.log 2>&1; then
        tail -n 20 target/compare.log >&2
        give_up "the comparison could not be built; target/compare.log has all that cargo said"
    fi
    cd "$compare_caller" || exit 1
}

run_program() {
    profile=$1
    name=$2
    shift 2
    build_program "$profile" "$name"
    cargo_here run -q $(profile_words "$profile") --bin "$name" -- "$@"
}

run_tests() {
    prepare
    cargo_here test --lib "$@"
}
