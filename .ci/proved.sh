# shellcheck shell=sh disable=SC2154
# Read by .ci/program.sh and harness/programs, which set root, the folder of the house. Runs a proved program of the house.
script=${0##*/}

say() { printf '%s\n' "$*" >&2; }
die() { say "$script: $*"; exit 2; }

# Sets rt, the toolchain's command, and tools, the kit's folder of compilers.
find_toolchain() {
    rt=$(command -v rt 2>/dev/null) || rt=${RATTLE_HOME:+$RATTLE_HOME/bin/rt}
    { [ -n "$rt" ] && [ -x "$rt" ]; } || die "the Rattle toolchain is not here: its command, rt, must be on the PATH, or RATTLE_HOME be the folder of the kit"
    tools=$(dirname "$("$rt" doc)")/toolchain
}

# Programs are for x86-64. On another machine the kit brings an emulator, and else one must be installed.
find_emulator() {
    emulator=''
    if [ -x "$tools/bin/qemu-x86_64" ]; then
        emulator=$tools/bin/qemu-x86_64
    elif [ "$(uname -m)" != x86_64 ]; then
        if ! command -v qemu-x86_64 >/dev/null 2>&1 && [ "$(id -u)" = 0 ] && command -v apt-get >/dev/null 2>&1; then
            say "$script: installing qemu-user, since programs are for x86-64 and this machine is $(uname -m)"
            apt-get install -y qemu-user >/dev/null 2>&1
        fi
        emulator=$(command -v qemu-x86_64) || die "programs are for x86-64 and this machine is $(uname -m): install qemu-user, which has qemu-x86_64"
    fi
}

# The proved program stands in the out/ of its crate, where rt run and rt ci put it.
run_proved() { # PROGRAM FILE [WORDS]
    find_emulator
    binary=$root/crates/$1/out/$1
    input=$2
    shift 2
    loader=$tools/lib/ld-linux-x86-64.so.2
    if [ -f "$loader" ]; then
        ${emulator:+"$emulator"} "$loader" --library-path "$tools/lib" "$binary" "$@" <"$input"
    else
        ${emulator:+"$emulator"} "$binary" "$@" <"$input"
    fi
}
