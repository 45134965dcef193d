#!/usr/bin/env bash
# ./install.sh [PREFIX]: puts the program, its page and the completions below PREFIX, which is /usr/local where none is
# given. It installs a program that the launcher has proved and built from these sources, and no other.
set -eu
here=$(dirname "$(readlink -f "${BASH_SOURCE[0]}")")
prefix=${1:-/usr/local}

# The launcher builds the program where it has to, and the demo shows that it runs.
"$here/tallrun" --demo 1 >/dev/null

install -D -m 755 "$here/crates/tallrun/out/tallrun" "$prefix/bin/tallrun"
install -D -m 644 "$here/docs/tallrun.1" "$prefix/share/man/man1/tallrun.1"
install -D -m 644 "$here/completions/tallrun.bash" "$prefix/share/bash-completion/completions/tallrun"
install -D -m 644 "$here/completions/_tallrun" "$prefix/share/zsh/site-functions/_tallrun"
install -D -m 644 "$here/completions/tallrun.fish" "$prefix/share/fish/vendor_completions.d/tallrun.fish"
