# shellcheck shell=sh disable=SC2154
# Read by ./trace and ./panel. Runs a program of the house on a CHIP-8 program: the proved one where it is built, and else the same
# source without proof. They set root, the folder of the house, and program, the crate to run; introduce says what is shown where
# no CHIP-8 program is named, and default is the one that is shown then. options has the words that go on to the program.
here=$(pwd)
. "$root/.ci/proved.sh"

# An option may stand before the file or behind it. Behind -- every word is a file.
prove=no
words=''
name=''
named=0
files_only=no
for word; do
    case $files_only$word in
    no--) files_only=yes ;;
    no--prove) prove=yes ;;
    no-h | no--help) sed -n '2,/^$/s/^# \{0,1\}//p' "$0" | sed '/^set /,$d'; exit 0 ;;
    no-?*)
        case " ${options:-} " in *" $word "*) ;; *) die "there is no $word; ./$script --help says what there is" ;; esac
        case "$words " in *" $word "*) ;; *) words="$words $word" ;; esac
        ;;
    *)
        name=$word
        named=$((named + 1))
        ;;
    esac
done
[ "$named" -le 1 ] || die "one file at a time: ./$script FILE"

# ---- the CHIP-8 program

work=$(mktemp -d) || die "cannot make a temporary folder"
trap 'rm -rf "$work"' EXIT
trap 'exit 130' INT TERM
if [ "$named" -eq 1 ] && [ "$name" != - ]; then
    case $name in /*) file=$name ;; *) file=$here/$name ;; esac
    [ -e "$file" ] || die "there is no file $name"
    [ ! -d "$file" ] || die "$name is a folder and not a program"
    [ -r "$file" ] || die "the file $name cannot be read"
elif [ "$named" -eq 1 ] || [ -p /dev/stdin ] || [ -f /dev/stdin ]; then
    file=$work/stdin
    cat >"$file"
else
    file=$root/programs/$default
    introduce
fi

# ---- the toolchain

find_toolchain

# ---- the program, proved or not

built=$root/crates/$program/out/$program

# The crates that the program is made of, found in as many turns as they lie deep.
crates=$program
while
    were=$crates
    crates=$(for c in $were; do echo "$c"; sed -n "s/^$c: *//p" "$root/crates.txt" | tr ' ' '\n'; done | sort -u)
    [ "$crates" != "$were" ]
do :; done

# Whether the proved program is there, and no file that it was made of is newer.
current() {
    [ -x "$built" ] || return 1
    for c in $crates; do
        [ ! -d "$root/crates/$c" ] || [ -z "$(find "$root/crates/$c/" -name out -prune -o -newer "$built" -type f -print | head -n 1)" ] || return 1
    done
}

# What rt says of its own is shown only where the program did not run.
run_unproved() {
    say "$script: the proved program is not built yet, so this runs the same source without proof. ./$script --prove proves it first"
    # shellcheck disable=SC2086
    (cd "$root/crates/$program" && "$rt" try "$program" ${words:+-- $words} <"$file") 2>"$work/said" || {
        # Whoever reads may have gone, as head does.
        status=$?
        [ "$status" -ne 141 ] || exit 141
        cat "$work/said" >&2
        die "the program did not compile or run"
    }
}

if [ "$prove" = yes ] && ! current; then
    say "$script: proving the machine and the program: some minutes from nothing, less where a part is proved already"
    { (cd "$root/crates/$program" && "$rt" run </dev/null) 2>&1 >"$work/ran"; echo $? >"$work/ended"; } | grep --line-buffered '^rt: ' >&2
    [ "$(cat "$work/ended")" = 0 ] || die "it is not proved: 'rt run' in crates/$program says why"
    touch "$built"
fi
# shellcheck disable=SC2086
if current; then run_proved "$program" "$file" $words; else run_unproved; fi
