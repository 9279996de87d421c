# Read by the scripts beside it, which set $here to this folder.
#
# The card's archive is for x86-64 Linux, so the programs that link it are built
# for that. An Arm machine builds them with a cross compiler and runs them under
# an emulator.

say() {
    printf '%s\n' "$*"
}

fail() {
    printf '%s: %s\n' "${speaker:-harness}" "$*" >&2
    exit 1
}

repository=$(cd "$here/.." && pwd)
target=x86_64-unknown-linux-gnu
machine=$(uname -m)
case $machine in
x86_64)
    compiler=gcc
    emulator=
    c_packages='gcc libc6-dev'
    rust_packages='rustc-web cargo-web'
    ;;
aarch64)
    compiler=x86_64-linux-gnu-gcc
    emulator=qemu-x86_64
    c_packages='gcc-x86-64-linux-gnu libc6-dev-amd64-cross qemu-user libc6:amd64'
    rust_packages='rustc-web cargo-web libstd-rust-web-dev:amd64'
    ;;
*) fail "this machine, $machine, is neither x86_64 nor aarch64" ;;
esac

has() {
    command -v "$1" >/dev/null 2>&1
}

# Installs packages of Debian, or says which are to be installed.
install_packages() {
    has apt-get || fail "missing here; Debian has it in the packages $*"
    [ "$(id -u)" = 0 ] || fail "only root can install what is missing: $*"
    say "${speaker:-harness}: installing $*"
    case "$*" in *:amd64*) dpkg --add-architecture amd64 ;; esac
    apt-get update -qq &&
        DEBIAN_FRONTEND=noninteractive apt-get install -y -qq \
            --no-install-recommends -o DPkg::Lock::Timeout=300 "$@" >/dev/null ||
        fail "what is missing could not be installed: $*"
}

# Sets CARD_ARCHIVE to the whole path of the card's archive.
need_archive() {
    archive=${CARD_ARCHIVE:-$here/../crates/card/out/libcard.a}
    [ -f "$archive" ] ||
        fail "the card's archive is missing: $archive" \
            "(build it with rt lib in crates/card, or name another in CARD_ARCHIVE)"
    CARD_ARCHIVE=$(cd "$(dirname "$archive")" && pwd)/$(basename "$archive")
    export CARD_ARCHIVE
}

# Sets kit to the toolchain's folder.
find_kit() {
    has rt || fail "the Rattle toolchain's command rt is not on the PATH"
    kit=$(dirname "$(rt doc)")
    tools=$kit/toolchain
    [ -x "$tools/bin/clang" ] || fail "the toolchain in $kit has no clang for this machine"
}

# Links what a folder holds into another, but for what is there already.
link_rest() { # FROM TO
    for entry in "$1"/*; do
        [ -e "$2/${entry##*/}" ] || ln -s "$entry" "$2"
    done
}

# Makes FOLDER/toolchain: the kit's compilers with module-clang in the place of its
# clang. That one leaves module.ll and words in kept, a folder that is named here.
catching_tools() { # FOLDER
    find_kit
    kept=$1/toolchain/bin
    mkdir -p "$kept/own"
    cp "$here/module-clang" "$kept/clang"
    link_rest "$tools/bin" "$kept/own"
    link_rest "$tools/bin" "$kept"
    link_rest "$tools" "$1/toolchain"
}

# Makes FOLDER/kit: the kit with those compilers. rt takes the kit that its own
# files stand in, so they are copied.
catching_kit() { # FOLDER
    catching_tools "$1/kit"
    mkdir -p "$1/kit/bin"
    cp "$kit/bin/rt" "$kit/bin/rtlib.py" "$1/kit/bin"
    link_rest "$kit/bin" "$1/kit/bin"
    link_rest "$kit" "$1/kit"
}

# The libraries of the house that the card stands on, each once.
below_card() {
    below=card
    while
        were=$below
        below=$(for name in $were; do
            say "$name"
            sed -n "s/^$name\( staticlib\)*: *//p" "$repository/crates.txt" | tr ' ' '\n'
        done | sort -u | while IFS= read -r name; do
            [ -z "$name" ] || [ ! -d "$repository/crates/$name" ] || say "$name"
        done)
        [ "$below" != "$were" ]
    do :; done
    say "$below" | sed '/^card$/d'
}

# Proves the card over the libraries that stand built below it, and builds its
# archive with these compilers: what rt lib does, which takes the kit's alone. Words
# after ARCHIVE go to the compiler.
build_card() { # TOOLCHAIN ARCHIVE WORDS..
    find_kit
    with=$1
    to=$2
    shift 2
    set -- "$@" --extern "std=$kit/rlibs/std.rlib" -L "dependency=$kit/rlibs"
    for name in $(sed -n 's/^card staticlib: *//p' "$repository/crates.txt"); do
        set -- "$@" --extern "$name=../$name/out/rlib/$name.rlib"
    done
    for name in $(below_card); do
        set -- "$@" -L "dependency=../$name/out/rlib"
    done
    (cd "$repository/crates/card" &&
        "$kit/bin/rattle" build --crate-name card src/lib.rt --crate-type staticlib "$@" \
            --antt-project "$kit/rattle/logic/antt-project.json" --logic-built "$kit/logic_built" \
            --links card= --backend llvm --toolchain "$with" -o "$to")
}

# Keeps in target/module what module-clang left, with the archive that came of it.
keep_module() { # ARCHIVE
    module=$here/target/module
    mkdir -p "$module"
    rm -f "$module/made-of.a"
    cp "$kept/module.ll" "$kept/words" "$module"
    cp "$1" "$module/made-of.a"
}

# Compiles an LLVM module that was kept for another machine, to FOLDER/module.o:
# with the words that the toolchain told its own clang, but for those that name
# the machine, and fast also where those were for a first look. The module names
# its machine as well, takes an address as a number of 64 bits, and reads one that
# stands behind a byte eight bytes on, also where a pointer has four.
compile_module() { # KEPT TRIPLE FOLDER
    triple=$2
    folder=$3
    find_kit
    sed -e "s/^target triple = .*/target triple = \"$triple\"/" \
        -e '/^target datalayout = /d' \
        -e 's/"target-cpu"="[^"]*"/"target-cpu"="generic"/' \
        -e 's/ "target-features"="[^"]*"//' \
        -e 's/ = ptrtoaddr ptr / = ptrtoint ptr /' \
        -e 's/extractvalue { i8, ptr } \(%[^,]*\), 1/extractvalue { i8, ptr } \1, 2/' \
        -e 's/{ i8, ptr }/{ i8, [7 x i8], ptr }/g' \
        "$1/module.ll" >"$folder/module.ll"
    exec 3<"$1/words"
    set --
    while IFS= read -r word <&3; do
        case $word in
        --target=*) word=--target=$triple ;;
        -march=* | --sysroot=* | -fsanitize=*) continue ;;
        -O0) word=-O3 ;;
        *.bc) word=$folder/module.ll ;;
        *.o) word=$folder/module.o ;;
        esac
        set -- "$@" "$word"
    done
    exec 3<&-
    "$tools/bin/clang" "$@"
}

# Compiles a module that was kept, and links it, for WebAssembly.
link_wasm() { # KEPT WASM
    built=$(mktemp -d)
    compile_module "$1" wasm32-unknown-unknown "$built"
    # lld goes by the name that it is called by.
    ln -s "$(readlink -f "$tools/bin/ld.lld")" "$built/wasm-ld"
    "$built/wasm-ld" --no-entry --export-dynamic --stack-first --strip-all -o "$2" "$built/module.o"
    rm -r "$built"
}

# The compiler for C, which links the programs in Rust too, and what runs them.
need_compiler() {
    # The loader stands for the C library of x86-64.
    # shellcheck disable=SC2086
    has "$compiler" && has "${emulator:-true}" && [ -e /lib64/ld-linux-x86-64.so.2 ] ||
        install_packages $c_packages
}

# What runs the dock in the terminal, and its tests.
need_node() {
    has node || install_packages nodejs
}

# A browser to try the page in, which can be done without.
need_browser() {
    has chromium && has chromedriver || (install_packages chromium chromium-driver) ||
        say "the page will not be tried in a browser, since there is none here"
}

# Takes the first Rust that has the standard library of x86-64.
find_rust() {
    for folder in "$HOME/.cargo/bin" $(say "$PATH" | tr ':' ' '); do
        [ -x "$folder/cargo" ] || continue
        library=$("$folder/rustc" --print target-libdir --target "$target" 2>/dev/null)
        [ -d "$library" ] && rust=$folder && return
    done
    return 1
}

need_rust() {
    need_compiler
    # shellcheck disable=SC2086
    find_rust || install_packages $rust_packages
    find_rust || fail "Rust has no standard library for $target here"
    export RUSTC="$rust/rustc"
    export CARGO_TARGET_DIR="$here/target"
    export CARGO_TARGET_X86_64_UNKNOWN_LINUX_GNU_LINKER="$compiler"
    [ -z "$emulator" ] ||
        export CARGO_TARGET_X86_64_UNKNOWN_LINUX_GNU_RUNNER="$emulator"
}

# Other work may share the computer, so one job at a time unless told otherwise.
cargo() { # VERB WORDS...
    verb=$1
    shift
    (cd "$here" && "$rust/cargo" "$verb" --offline --quiet --target "$target" \
        --jobs "${CARGO_BUILD_JOBS:-1}" "$@")
}

# The program is then target/$target/release/NAME.
build_program() { # NAME
    cargo build --release --bin "$1"
}

build_dock() {
    need_compiler
    mkdir -p "$here/target"
    "$compiler" -std=c11 -Wall -Wextra -Werror -O1 -g \
        -o "$here/target/dock" "$here/c/dock.c" "$CARD_ARCHIVE"
}
