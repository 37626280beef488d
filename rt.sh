# shellcheck shell=bash
# Read by the scripts that run rt. Each check of a crate copies some 250 MB in small files to the folder for temporary files, and removes them again. On a
# disk the system spends up to four seconds on that, and in memory half a second.
in_memory=''

# Puts the temporary files into memory, where it has room for several checks and lets programs run, which rt ci tries there as nobody.
begin_in_memory() {
    if [ -z "${TMPDIR-}" ] && [ "$(df --output=avail -m /dev/shm 2>/dev/null | tail -n 1)" -ge 4096 ] 2>/dev/null &&
        ! grep -q ' /dev/shm .*\<noexec\>' /proc/mounts; then
        in_memory=$(mktemp -d -p /dev/shm)
        chmod 711 "$in_memory"
        export TMPDIR=$in_memory
    fi
}

# Takes them away again. A prover that was stopped may be writing for a moment still.
end_in_memory() {
    local tries=50
    [ -n "$in_memory" ] || return 0
    until rm -rf "$in_memory" 2>/dev/null || [ "$((tries -= 1))" -eq 0 ]; do sleep 0.1; done
    in_memory=''
    unset TMPDIR
}

# Puts what rt left in the folder out/ of a crate where the scripts look for it: a program, or the archive for C. One that runs is replaced, and not written over.
take() { # NAME
    local made=$1 to=target/bin
    [ "$1" != lsh_kiosk ] || made=liblsh_kiosk.a to=target/staticlib
    mkdir -p "$to"
    cp "crates/$1/out/$made" "$to/.$made" && mv "$to/.$made" "$to/$made"
}

# Proves a program or the archive, in the crate's folder, as rt wants it, compiles it, and takes it. rt runs a program once that it compiled: here with no arguments
# and nothing to read, of which nothing comes.
make() { # NAME
    local verb=run
    [ "$1" != lsh_kiosk ] || verb=lib
    (cd "crates/$1" && rt "$verb" </dev/null) && take "$1"
}
