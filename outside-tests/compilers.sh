# Read in by the scripts (POSIX sh): the compilers and the runner of x86-64 programs, and where things are. Debian packages are installed where missing.
# Sets: root, work (a temporary folder, removed at the end), library, compiler, run, calls; and the functions compile, compile_as_library and compile_cpp. Any
# path may have spaces.

root=$(CDPATH= cd -- "$(dirname -- "$0")" && while [ ! -e include/rosopyat.h ]; do cd ..; done && pwd)
library=${LIBRARY:-$root/crates/rosopyat_c/out/librosopyat_c.a}
work=$(mktemp -d)
trap 'rm -rf "$work"' EXIT
trap 'exit 1' HUP INT TERM

# as_root WORDS: run as root, by sudo where we are not.
as_root() {
    if [ "$(id -u)" = 0 ]; then "$@"; else sudo "$@"; fi
}

# install_packages PACKAGE...: three attempts, since a mirror may be busy
install_packages() {
    echo "installing $*"
    for attempt in 1 2 3; do
        if as_root apt-get update -qq >"$work/apt.log" 2>&1 &&
            as_root env DEBIAN_FRONTEND=noninteractive apt-get install -y -qq --no-install-recommends "$@" >>"$work/apt.log" 2>&1; then
            return
        fi
        sleep $((attempt * 10))
    done
    cat "$work/apt.log"
    echo "could not install $*"
    exit 1
}

if [ "$(uname -m)" = x86_64 ]; then
    compiler=gcc
    run=
    headers=/usr/include
    packages='gcc g++ libc6-dev'
else
    compiler=x86_64-linux-gnu-gcc
    run=qemu-x86_64
    headers=/usr/x86_64-linux-gnu/include
    packages='gcc-x86-64-linux-gnu g++-x86-64-linux-gnu libc6-dev-amd64-cross qemu-user'
fi
# found COMMAND...: whether all of them are there
found() {
    for name; do command -v "$name" >/dev/null || return 1; done
}
if ! found $compiler ${compiler%gcc}g++ $run || [ ! -e $headers/stdio.h ]; then install_packages $packages; fi
found python3 || install_packages python3

compile() {
    $compiler -std=c11 -O2 -static -Wall -Wextra -Werror "-I$root/include" "-I$root/outside-tests" "-I$root/outside-tests/independent" "$@"
}

# What the library and the independent implementation both have, behind rosopyat_ and independent_
calls='read read_mending write judge'

# compile_as_library WORDS: the independent implementation under the library's names
compile_as_library() {
    for call in $calls; do set -- "-Dindependent_$call=rosopyat_$call" "$@"; done
    compile "$@"
}

compile_cpp() {
    ${compiler%gcc}g++ -x c++ -std=c++11 -pedantic -Wall -Wextra -Werror "-I$root/include" "$@"
}

# A file that cannot be written to: where it is missing, nothing must make one.
[ -c /dev/full ] || {
    echo "/dev/full is missing"
    exit 1
}

need_library() {
    [ -e "$library" ] || {
        echo "$library is missing: rt lib --cpu x86-64 in crates/rosopyat_c writes it"
        exit 1
    }
}
