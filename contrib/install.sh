#!/bin/sh
# Puts the built programs, their man pages, the systemd unit and the completion for bash under a prefix, or takes them
# away again:
#
#     sh contrib/install.sh PREFIX
#     sh contrib/install.sh --remove PREFIX
#
# PREFIX is a folder that is there, as /usr/local or ~/.local. licence_main has to be built; licence_lint and
# licence_client are put where they are built. A file that has the name of one of these is replaced.
# PREFIX/share/licence_main/installed keeps the name of each file and of each folder that was made for them; by it
# --remove takes away these and nothing else, and a folder only where it is empty. To install again takes the earlier
# ones away first.
#
# Status 0: done; 1: it could not be done, and standard error says why; 2: the words aren't as above.
set -eu
LC_ALL=C
export LC_ALL
top=$(cd "$(dirname "$0")/.." && pwd)

fail() {
    echo "install: $2" >&2
    exit "$1"
}

is_removal=false
if [ "${1-}" = --remove ]; then
    is_removal=true
    shift
fi
case ${1-} in
    "" | -*) fail 2 "usage: install.sh PREFIX, or install.sh --remove PREFIX" ;;
    /*) prefix=$1 ;;
    *) prefix=$(pwd)/$1 ;;
esac
[ $# -eq 1 ] || fail 2 "usage: install.sh PREFIX, or install.sh --remove PREFIX"
[ -d "$prefix" ] || fail 1 "there is no folder $prefix"
# The prefix becomes part of a line of the unit, where other characters would mean something.
case $prefix in *[!A-Za-z0-9/._+-]*) fail 2 "a prefix has letters, digits and / . _ + - alone: $prefix" ;; esac

own=share/licence_main
record=$prefix/$own/installed

# Makes a folder under the prefix, and keeps the name of each that was not there.
folder() {
    [ ! -d "$prefix/$1" ] || return 0
    folder "$(dirname "$1")"
    mkdir "$prefix/$1"
    made="$made $1/"
}

# Keeps the names of the folders that were made since, and that of a file that is to be put.
keep() {
    for name in $made "$1"; do
        echo "$name" >>"$record"
    done
    made=
}

# Puts a file under the prefix: its source, its mode and its path there.
put() {
    folder "$(dirname "$3")"
    keep "$3"
    install -m "$2" "$1" "$prefix/$3"
    echo "$prefix/$3"
}

remove() {
    folders=
    while IFS= read -r name; do
        case $name in
            */) folders="$name $folders" ;;
            *) rm -f "$prefix/$name" ;;
        esac
    done <"$record"
    rm -f "$record"
    for name in $folders; do
        rmdir "$prefix/$name" 2>/dev/null || :
    done
}

if $is_removal; then
    [ -e "$record" ] || fail 1 "nothing was installed under $prefix: there is no $record"
    remove
    exit 0
fi

[ -x "$top/crates/licence_main/out/licence_main" ] || fail 1 "licence_main isn't built: see the README's quick start"
[ ! -e "$record" ] || remove

made=
folder "$own"
completions=share/bash-completion/completions
for program in licence_main licence_lint licence_client; do
    built=$top/crates/$program/out/$program
    [ -x "$built" ] || continue
    put "$built" 755 "bin/$program"
    [ ! -e "$top/docs/$program.1" ] || put "$top/docs/$program.1" 644 "share/man/man1/$program.1"
    put "$top/contrib/licence_main.bash" 644 "$completions/$program"
done

unit=$(mktemp)
trap 'rm -f "$unit"' EXIT
sed "s|/usr/local/bin/|$prefix/bin/|" "$top/contrib/licence_main.service" >"$unit"
put "$unit" 644 lib/systemd/system/licence_main.service
