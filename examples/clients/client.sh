#!/bin/sh
# Runs a command while it holds a licence, by socat: client.sh SOCKET FEATURE VERSION COMMAND [WORD ..]
# Status 2: the words aren't as above; 3: there was no licence, and standard error shows the reply; 5: the daemon isn't there, or it
# took the licence back or went away, and the command was ended; else the command's own.
[ $# -ge 4 ] || { echo "usage: client.sh SOCKET FEATURE VERSION COMMAND [WORD ..]" >&2; exit 2; }
path=$1 feature=$2 version=$3
shift 3
work=

# Ends the command, if it runs, since there is no licence for it any more.
lost() {
    [ -z "$work" ] || kill "$work" 2>/dev/null
    exit 5
}

folder=$(mktemp -d) || exit 1
mkfifo "$folder/asks" "$folder/replies" || exit 1
socat - "UNIX-CONNECT:$path" <"$folder/asks" >"$folder/replies" &
trap 'exec 8>&- 9<&-; rm -rf "$folder"' EXIT
trap lost PIPE
exec 7<&0 8>"$folder/asks" 9<"$folder/replies"

# Asks, and leaves the reply in $reply.
ask() {
    { echo "$*" >&8; } 2>/dev/null
    read -r reply <&9 || lost
}

ask HELLO "$(id -un)" "$(hostname)" "${DISPLAY:-:0}" none
ask CHECKOUT "$feature" "$version"
case $reply in NOSEAT*) ask QUEUE "$feature" "$version" ;; esac
while :; do
    case $reply in
        GRANTED* | RETAKEN*) break ;;
        QUEUED*) sleep 1; ask BEAT "$feature" ;;
        *) echo "$reply" >&2; exit 3 ;;
    esac
done

"$@" <&7 7<&- 8>&- 9<&- &
work=$!
beats=0
while kill -0 "$work" 2>/dev/null; do
    sleep 1
    beats=$((beats + 1))
    if [ $((beats % 60)) -eq 0 ]; then
        ask BEAT "$feature"
        case $reply in NOTHELD*) lost ;; esac
    fi
done
wait "$work"
status=$?
work=
ask CHECKIN "$feature"
ask QUIT
exit "$status"
