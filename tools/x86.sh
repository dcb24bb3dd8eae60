# How programs for x86-64 Linux are linked and run on a machine of another processor. The scripts that build such programs with
# cargo source it: `find_x86` exports the two variables that tell cargo, CARGO_TARGET_X86_64_UNKNOWN_LINUX_GNU_LINKER and .._RUNNER,
# where nothing says them yet and the tools are installed. Where a tool is missing it returns 1, and `x86_missing` says in one
# sentence what to install. On x86-64 it does nothing.

find_x86() {
    x86_missing=
    [ "$(uname -m)" = x86_64 ] && return 0
    find_x86_linker
    find_x86_runner
    [ -z "$x86_missing" ]
}

# Adds to the sentence: what is missing, the packages that bring it, and what may be named instead, by the variable of which end.
x86_lacks() {
    x86_missing="${x86_missing:+$x86_missing; }$1 is missing: install Debian's $2"
    x86_missing="$x86_missing, or name $3 in CARGO_TARGET_X86_64_UNKNOWN_LINUX_GNU_$4"
}

# What cargo's settings have for `linker` or `runner`. RUSTC_BOOTSTRAP opens the command that tells them, which is not stable.
x86_setting() {
    RUSTC_BOOTSTRAP=1 cargo -Zunstable-options config get --format=json-value "target.x86_64-unknown-linux-gnu.$1" 2>/dev/null |
        tr -d '"'
}

# The linker: what cargo is told, else what CC names if it is for x86-64 Linux, else one of the usual names.
find_x86_linker() {
    x86_linker=${CARGO_TARGET_X86_64_UNKNOWN_LINUX_GNU_LINKER:-$(x86_setting linker)}
    [ -z "$x86_linker" ] || return 0
    for x86_linker in "${CC:-}" x86_64-linux-gnu-gcc x86_64-unknown-linux-gnu-gcc; do
        case "$("$x86_linker" -dumpmachine 2>/dev/null)" in x86_64*-linux-gnu) ;; *) continue ;; esac
        if [ -f "$("$x86_linker" -print-file-name=libc.so)" ]; then
            export CARGO_TARGET_X86_64_UNKNOWN_LINUX_GNU_LINKER="$x86_linker"
        else
            x86_lacks "the C library of $x86_linker" libc6-dev-amd64-cross "another linker" LINKER
        fi
        return
    done
    x86_linker=
    x86_lacks "a linker for x86-64 Linux" "gcc-x86-64-linux-gnu with libc6-dev-amd64-cross" one LINKER
}

# The emulator: what cargo is told, else none if the kernel runs such programs, else one of the usual names.
find_x86_runner() {
    [ -z "${CARGO_TARGET_X86_64_UNKNOWN_LINUX_GNU_RUNNER:-$(x86_setting runner)}" ] || return 0
    x86_what="an emulator for x86-64"
    x86_packages=qemu-user
    for x86_emulator in "" qemu-x86_64 qemu-x86_64-static; do
        x86_words=$(x86_with_library "$x86_emulator") || continue
        if x86_runs; then
            [ -z "$x86_words" ] || export CARGO_TARGET_X86_64_UNKNOWN_LINUX_GNU_RUNNER="$x86_words"
            return
        fi
        [ -n "$x86_words" ] || continue
        x86_what="an emulator that runs what Rust builds, which $x86_words does not,"
        x86_packages="libc6-amd64-cross and another release of qemu-user"
    done
    x86_lacks "$x86_what" "$x86_packages" one RUNNER
}

# An emulator that is installed, and what leads it to the C library: the linker's, else the usual one. Its folder has the loader
# at the place where programs look for it. The kernel, which has no name, looks there itself.
x86_with_library() {
    if [ -z "$1" ]; then
        [ -e /lib64/ld-linux-x86-64.so.2 ]
        return
    fi
    command -v "$1" >/dev/null || return
    x86_loader=$("${x86_linker:-false}" -print-file-name=ld-linux-x86-64.so.2 2>/dev/null)
    for x86_root in "${x86_loader%/*}/.." "$("${x86_linker:-false}" -print-sysroot 2>/dev/null)/" /usr/x86_64-linux-gnu; do
        x86_root=$(cd "$x86_root" 2>/dev/null && pwd -P) || continue
        [ -e "$x86_root/lib64/ld-linux-x86-64.so.2" ] && echo "$1 -L $x86_root" && return
    done
    echo "$1"
}

# Whether a small program runs by these words. It looks at what each program of Rust looks at when it begins, where some releases of
# QEMU crash. Where it cannot be built nothing speaks against them.
x86_runs() {
    x86_folder=$(mktemp -d) || return
    echo 'void *fopen(const char *, const char *); int main(void) { return !fopen("/proc/self/maps", "r"); }' |
        "${x86_linker:-false}" -x c - -o "$x86_folder/program" >/dev/null 2>&1
    [ ! -f "$x86_folder/program" ] || (cd "$x86_folder" && $x86_words ./program || exit) </dev/null >/dev/null 2>&1
    x86_ran=$?
    rm -r "$x86_folder"
    return $x86_ran
}
