#!/usr/bin/env bash
# What is installed below a prefix works from there: the library with its header, gx, its manual page and its completions.
set -euo pipefail
prefix=$(realpath "$1")
cd "$(dirname "$0")/../.."
wrong() { echo "make install: $1"; exit 1; }

if command -v pkg-config > /dev/null; then
    export PKG_CONFIG_PATH=$prefix/lib/pkgconfig
    flags=$(pkg-config --cflags --libs goltximen)
else
    flags="-I$prefix/include -L$prefix/lib -lgoltximen"
fi
# shellcheck disable=SC2086
gcc examples/compare.c $flags -o "$prefix/compare"
test "$("$prefix/compare")" = "not contained, entry 1; specimen of 2 entries" || wrong "the library answers otherwise"
rm "$prefix/compare"

gx=$prefix/bin/gx
"$gx" -V | grep -q "by $(rt version)" || wrong "gx does not tell the kit"
"$gx" compare examples/supplier.txt examples/service.txt --names examples/laboratory.names --no-lab > /dev/null || test $? = 1
[ -s "$prefix/share/man/man1/gx.1" ] || wrong "there is no manual page"
if command -v man > /dev/null; then
    MANPATH=$prefix/share/man man gx > /dev/null || wrong "man does not show the manual page"
fi

bash -n "$prefix/share/bash-completion/completions/gx"
completed() {
    bash -c 'source "$1"; COMP_WORDS=("${@:2}"); COMP_CWORD=$((${#COMP_WORDS[@]} - 1)); _gx; echo "${COMPREPLY[*]}"' - \
        "$prefix/share/bash-completion/completions/gx" gx "$@"
}
test "$(completed c)" = "check compare catalogue completions" || wrong "bash completes no commands: $(completed c)"
test "$(completed compare --h)" = "--html --help" || wrong "bash completes no options: $(completed compare --h)"
test "$(completed show --to d)" = "desk" || wrong "bash completes no values: $(completed show --to d)"
if command -v zsh > /dev/null; then zsh -n "$prefix/share/zsh/site-functions/_gx"; fi
if command -v fish > /dev/null; then fish -n "$prefix/share/fish/vendor_completions.d/gx.fish"; fi
for file in share/zsh/site-functions/_gx share/fish/vendor_completions.d/gx.fish share/doc/goltximen/LICENSE; do
    [ -s "$prefix/$file" ] || wrong "there is no $file"
done
echo "make install: the library, gx, its manual page and completions work from $prefix"
