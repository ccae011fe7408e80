# For scripts that run programs of the repository: sourced from its root.

# Proves and builds these programs where that has not been done. What rt says is shown only where that fails. To build a program is to run it
# too: there it finds no file, and says so.
prove_programs() {
    command -v rt >/dev/null 2>&1 || { echo "$0: no command rt: the Rattle kit is not on the path" >&2; exit 1; }
    echo "$0: proving $* where that has not been done, which takes some minutes the first time .." >&2
    crates=$PWD/crates
    for name in "$@"; do
        said=$(cd "$crates/$name" && rt run 2>&1 </dev/null) || { printf '%s\n' "$said" >&2; exit 1; }
    done
}

# Runs a program in the folder at hand, on a machine that is not x86-64 by the command RUNNER, such as an emulator.
run_program() {
    ${RUNNER:-} "$crates/$1/out/$1"
}
