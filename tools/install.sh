#!/bin/sh
# Puts the programs of this release, the manual page and the completions below a folder, /usr/local say, or takes them
# away again.
# usage: install.sh [--remove] PREFIX
here=$(dirname -- "$(readlink -f -- "$0")")
remove=
if [ "${1-}" = --remove ]; then
    remove=yes
    shift
fi
if [ "$#" -ne 1 ] || [ -z "$1" ]; then
    echo 'usage: install.sh [--remove] PREFIX' >&2
    exit 2
fi
own=$1/lib/scr
link=$1/bin/scr
page=$1/share/man/man1/scr.1
bash=$1/share/bash-completion/completions/scr
zsh=$1/share/zsh/site-functions/_scr

# A command of that name which is another's stays as it is.
if { [ -e "$link" ] || [ -h "$link" ]; } && [ "$(readlink -- "$link")" != ../lib/scr/scr ]; then
    echo "install.sh: $link is not of this program, so nothing is done" >&2
    exit 1
fi

if [ -n "$remove" ]; then
    rm -rf -- "$own"
    rm -f -- "$link" "$page" "$bash" "$zsh"
    exit
fi
if [ ! -f "$here/PROVENANCE" ]; then
    echo 'install.sh: this is no release' >&2
    exit 1
fi
set -e
# What another version left there goes first.
rm -rf -- "$own"
for file in "$own/scr" "$link" "$page" "$bash" "$zsh"; do mkdir -p -- "$(dirname -- "$file")"; done
cp -R -- "$here/scr" "$here/libexec" "$here/VERSION" "$here/PROVENANCE" "$here/NOTICES" "$own"
cp -- "$here/man/scr.1" "$page"
cp -- "$here/completions/scr.bash" "$bash"
cp -- "$here/completions/_scr" "$zsh"
ln -sf ../lib/scr/scr "$link"
chmod -R u=rwX,go=rX -- "$own" "$page" "$bash" "$zsh"
