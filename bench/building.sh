# For run and instructions, to be read by bash with the path of an archive or with nothing: goes to the repository, finds a C compiler
# for x86-64, and has `build` for a program over the archive and over plain C.
set -u
fail() {
    printf 'bench: %s\n' "$*" >&2
    exit 2
}

archive=$(realpath -m "${1:-$(dirname "$0")/../target/lib/libpierhollow.a}")
cd "$(dirname "$0")/.." || exit 2
[ -r "$archive" ] || fail "no archive at $archive; make lib builds it"

machine=$(uname -m)
if [ "$machine" = x86_64 ]; then
    compiler=${CC:-gcc}
    command -v "$compiler" >/dev/null || fail "no C compiler; on Debian: apt install gcc libc6-dev"
    tools=
    linking=(-Wl,-z,now) # no symbol is looked up during a measured call
    maths=(-lm)
else
    compiler=${CC:-x86_64-linux-gnu-gcc}
    command -v "$compiler" >/dev/null || fail "no C compiler for x86-64; on Debian: apt install gcc-x86-64-linux-gnu libc6-dev-amd64-cross"
    tools=x86_64-linux-gnu-
    linking=(-static) # so that an emulator needs no loader
    # Debian's libm.a for another processor is a script that names a folder of that machine; what it means lies beside it.
    maths=("$(dirname "$("$compiler" -print-file-name=libm.a)")"/libm-[0-9]*.a)
fi

built=$(mktemp -d) || exit 2
trap 'rm -rf "$built"' EXIT

flags=(-O3 -std=c11 -Wall -Wextra -Werror -pedantic -Iinclude -Ibench)
parts=(bench/{calls,compare,families,subjects,plain,plain_pocket,plain_dot}.c)
build() { # PROGRAM MAIN OPTION..
    local program=$1 main=$2
    shift 2
    "$compiler" "${flags[@]}" "${linking[@]}" "$@" "bench/$main.c" "${parts[@]}" "$archive" "${maths[@]}" -o "$built/$program" ||
        fail "$program does not build"
}
