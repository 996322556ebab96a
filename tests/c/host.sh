# Sourced by tests/host/c and tests/host/threads, at the repository's root: compilers for what is delivered, the archive for
# x86-64, what starts their programs, and the count of what held. On another processor they are Debian's cross compilers
# and emulator, as in tests/run.
set -euo pipefail

die() {
    printf '%s: %s\n' "$0" "$*" >&2
    exit 2
}

archive=target/lib/libfsrs6.a cc=${CC:-cc} cxx=${CXX:-c++} objdump=objdump start=() static=()
if [ "$(uname -m)" != x86_64 ]; then
    cc=x86_64-linux-gnu-gcc cxx=x86_64-linux-gnu-g++ objdump=x86_64-linux-gnu-objdump start=(qemu-x86_64) static=(-static)
fi
warnings=(-Wall -Wextra -Werror -pedantic)
for tool in "$cc" "$cxx" "$objdump" "${start[@]}"; do
    command -v "$tool" >/dev/null || die "no $tool"
done
[ -f "$archive" ] || die "no $archive: run ./lib first"
room=$(mktemp -d)
trap 'rm -rf "$room"' EXIT

passed=0 failed=0
# same NAME WANTED IS
same() {
    if diff <(printf '%s\n' "$2") <(printf '%s\n' "$3"); then
        passed=$((passed + 1))
    else
        printf '%s: not as wanted\n' "$1"
        failed=$((failed + 1))
    fi
}

# counted NAME PROGRAM..: runs a program that ends with its own count
counted() {
    local name=$1
    shift
    "${start[@]}" "$@" >"$room/said" || :
    sed '$d' "$room/said"
    [[ $(tail -n 1 "$room/said") =~ ^([0-9]+)\ passed,\ ([0-9]+)\ failed$ ]] || die "$name did not end"
    passed=$((passed + BASH_REMATCH[1])) failed=$((failed + BASH_REMATCH[2]))
}

finish() {
    printf '%s passed, %s failed\n' "$passed" "$failed"
    [ "$failed" = 0 ]
}
