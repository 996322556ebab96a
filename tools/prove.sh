# Sourced by ./batchgrad, ./run, ./lib and .ci/run, which set `root` to the repository's folder: calls rt where that is needed, and one
# run at a time.
#
#   find_kit                      sets `kit` to the kit's folder and `tools` to its compiler, linker and C library
#   made NAME PRODUCT MAKE...     has MAKE... write PRODUCT, unless it did so before and nothing has changed since
#   prove CRATE COMMAND           rt lib for each crate below, and rt COMMAND for the crate, with a line for each as it is proved
#   quietly COMMAND...            shows what the command says only where it fails
#   place FROM TO                 copies a product to its place, whole
#   open_input FILE               has standard input read FILE, or ends the script with 4
#   build PROGRAM                 prove, for a program, and copies it to target/bin
#   start PROGRAM                 becomes a program that was made
#
# What is said goes to standard error, after the command as it was called. Any other failure ends the script with 1.

say() {
    printf '%s: %s\n' "$0" "$*" >&2
}

fail() { # STATUS WORDS...
    status=$1
    shift
    say "$@"
    exit "$status"
}

quietly() {
    said=$("$@" 2>&1 </dev/null) || {
        printf '%s\n' "$said" >&2
        exit 1
    }
}

# The kit is where the rt on the PATH really stands. It is for x86-64 alone.
find_kit() {
    rt=$(command -v rt) || fail 1 "there is no rt on the PATH"
    kit=$(dirname "$(dirname "$(readlink -f "$rt")")")
    tools=$kit/toolchain
    [ -d "$tools" ] || fail 1 "the kit at $kit has no toolchain"
    [ "$(uname -m)" = x86_64 ] || fail 1 "the kit at $kit has nothing for this machine: it is for x86-64"
}

# ---- what was made

# A stamp has two numbers, for what a product rests on and for the product. The first is over the kit's identity, the machine,
# and the name and contents of every source (lib says how the archives are compiled): a file that is new, gone, renamed or
# changed makes another one, whatever its date. The second sees a product that was changed since. What rt keeps in a crate's out/
# is no source.
sources() {
    {
        cat "$kit/KIT-ID"
        uname -m
        (cd "$root" && find crates.txt crates lib -path 'crates/*/out' -prune -o -type f -exec sha256sum {} +) | sort
    } | sha256sum
}

is_made() {
    [ -r "$kit/KIT-ID" ] && [ -f "$stamp" ] && [ -f "$product" ] &&
        [ "$(sources && sha256sum <"$product")" = "$(cat "$stamp")" ]
}

# The sources are summed up before they are proved: one that changes meanwhile is seen the next time.
made() { # NAME PRODUCT MAKE...
    stamp=$root/target/made/$1 product=$root/$2
    shift 2
    ! is_made || return 0
    lock
    if ! is_made; then # a run that was waited for may have done it
        summed=$(sources)
        "$@"
        [ -f "$product" ] || fail 1 "there is no $product, though nothing has failed"
        mkdir -p "$root/target/made" && { echo "$summed" && sha256sum <"$product"; } >"$stamp" || exit 1
    fi
    unlock
}

# ---- one run at a time

# Two runs that prove one crate would do the work twice, and rt ci sets the work of other runs aside while it is at its own. The
# lock is the kernel's, on the repository's folder, and goes with the last process that has it open: so it is never left behind,
# and the rt of a run that was killed holds it until it ends.
lock() {
    exec 9<"$root"
    if ! command -v flock >/dev/null; then
        say "there is no flock on the PATH: start no second run before this one has ended"
    elif ! flock -n 9; then
        say "another run is at work here; waiting for its end"
        flock 9 || say "cannot wait: start no second run before this one has ended"
    fi
}

unlock() {
    exec 9<&-
}

# ---- rt

# The crates that a crate stands on, and itself, as crates.txt has them; those of the kit are proved already.
stands_on() { # CRATE
    awk -v crate="$1" '
        function visit(n,    words, i, k) {
            if (!(n in below) || n in seen) return
            seen[n]
            k = split(below[n], words)
            for (i = 1; i <= k; i++) visit(words[i])
            print n
        }
        { sub(/#.*/, "") }
        split($0, side, ":") == 2 { split(side[1], name, " "); below[name[1]] = side[2] }
        END { visit(crate) }' "$root/crates.txt"
}

# rt says nothing of a library that it has proved before and that is unchanged, and it says how far it is with any other: in
# target/rt.log, so that it goes on where this run is killed.
prove() { # CRATE COMMAND
    crates=$(stands_on "$1") new=0 left=0
    for crate in $crates; do
        left=$((left + 1))
        is_known "$crate" || new=$((new + 1))
    done
    [ $new = 0 ] || say "$new crates have to be proved first, which takes some minutes"
    for crate in $crates; do
        left=$((left - 1)) began=$(date +%s)
        [ "$crate" = "$1" ] && command=$2 || command=lib
        (mkdir -p "$root/target" && cd "$root/crates/$crate" && rt "$command" >"$root/target/rt.log" 2>&1 </dev/null) || {
            cat "$root/target/rt.log" >&2
            fail 1 "$crate is not proved"
        }
        [ ! -s "$root/target/rt.log" ] || say "$crate proved ($(($(date +%s) - began)) s), $left left"
    done
}

# Whether rt has proved this crate here before, in whatever form.
is_known() { # CRATE
    for kept in rlib/stamp "$1" "lib$1.a"; do
        [ ! -f "$root/crates/$1/out/$kept" ] || return 0
    done
    return 1
}

# Whoever uses the product meanwhile sees the old one or the new one, whole.
place() { # FROM TO
    mkdir -p "${2%/*}" && cp "$1" "$2.new" && mv "$2.new" "$2" || exit 1
}

# ---- programs

open_input() { # FILE
    [ -e "$1" ] || fail 4 "there is no file $1"
    [ ! -d "$1" ] || fail 4 "$1 is a folder"
    command exec <"$1" || fail 4 "cannot read $1"
}

# rt run builds the program and then runs it, here on no input. rt ci sets a crate's out/ aside while it is at work, so the program is
# started from a copy.
build() { # PROGRAM
    prove "$1" run
    place "$root/crates/$1/out/$1" "$root/target/bin/$1"
}

# Over the kit's own C library, as it was linked.
start() { # PROGRAM
    exec "$tools/lib/ld-linux-x86-64.so.2" --library-path "$tools/lib" "$root/target/bin/$1"
}
