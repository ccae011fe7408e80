# For scripts that link the engine's archive, which is for x86-64 Linux: sourced from the root of the repository.
# On another machine it sets LINKER, a C compiler that links for x86-64, and RUNNER, a command that runs such a program.
# What is not found by itself is to be set in the environment.
ARCHIVE=target/staticlib/libengine.a

say() {
    echo "$0: $1" >&2
}

fail() {
    say "$1"
    exit 1
}

# Says how a script is called, and ends.
usage() {
    echo "$1" >&2
    exit 2
}

# The first of these commands that is there.
first_of() {
    for name in "$@"; do
        if command -v "$name" >/dev/null 2>&1; then
            echo "$name"
            return
        fi
    done
}

# Fails unless this is a command that can be run.
need_command() {
    command -v "$1" >/dev/null 2>&1 || fail "no command $1: $2"
}

# The folders of a crate and of those that it depends on, as crates.txt has them. The kit's libraries have none.
folders_of() {
    [ -d "crates/$1" ] || return 0
    echo "crates/$1"
    for name in $(sed -n "s/#.*//; s/^ *$1\( [^:]*\)*://p" crates.txt); do
        folders_of "$name"
    done
}

# What the archive is made from, by checksum: the kit, crates.txt and every file of the crates but what rt keeps in out/.
archive_sources() {
    rt version
    find crates.txt $(folders_of engine_c | sort -u) -name out -prune -o -type f -exec cksum {} + | sort
}

# Builds the archive, unless it stands as it was built from these sources, which the file beside it tells. The log is shown only where that fails.
# rt names it after the crate of the export, and C links it by the engine's name.
build_archive() {
    mkdir -p target/staticlib
    archive_sources >target/staticlib.sources
    if [ -f "$ARCHIVE" ] && { cat target/staticlib.sources && cksum <"$ARCHIVE"; } | cmp -s - "$ARCHIVE.made"; then
        say "the engine's archive was built from these sources, and is taken as it stands"
        return
    fi
    say "proving the engine and building its archive, a minute or more .."
    (cd crates/engine_c && rt lib) >target/staticlib.log 2>&1 || { cat target/staticlib.log >&2; fail "the archive was not built"; }
    cp crates/engine_c/out/libengine_c.a "$ARCHIVE"
    { cat target/staticlib.sources && cksum <"$ARCHIVE"; } >"$ARCHIVE.made"
}

if [ "$(uname -m)" = x86_64 ]; then
    other_machine=
    LINKER=${LINKER:-cc}
    RUNNER=${RUNNER:-}
else
    other_machine=yes
    LINKER=${LINKER:-$(first_of x86_64-linux-gnu-gcc x86_64-unknown-linux-gnu-gcc)}
    emulator=$(first_of qemu-x86_64-static qemu-x86_64)
    RUNNER=${RUNNER:-${emulator:+$emulator -L /usr/x86_64-linux-gnu}}
fi

# Whether a program for x86-64 can be linked and run.
need_machine() {
    [ -n "$LINKER" ] || fail "no C compiler for x86-64: set LINKER, such as x86_64-linux-gnu-gcc"
    need_command "$LINKER" "set LINKER to a C compiler that links for x86-64"
    [ -n "$RUNNER" ] || [ -z "$other_machine" ] || fail "no emulator for x86-64: set RUNNER, such as 'qemu-x86_64-static -L /usr/x86_64-linux-gnu'"
    [ -z "$RUNNER" ] || need_command "${RUNNER%% *}" "set RUNNER to a command that runs a program for x86-64"
    need_command rt "the Rattle kit is not on the path"
}
