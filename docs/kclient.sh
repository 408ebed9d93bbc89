#!/bin/sh
# Runs kclient. While it asks for a password at a terminal, what is typed doesn't show.
program=/usr/local/libexec/plovertrunk/kclient

case "${1-}" in
    kinit) [ -t 0 ] && shown=$(stty -g) || exec "$program" "$@" ;;
    *) exec "$program" "$@" ;;
esac
# However this ends, also by a signal, the terminal is left as it was found.
trap 'stty "$shown"' EXIT
trap 'echo >&2; exit 129' HUP
trap 'echo >&2; exit 130' INT
trap 'echo >&2; exit 131' QUIT
trap 'echo >&2; exit 143' TERM
# Ctrl-Z would show what is typed next.
stty -echo susp undef
PLOVERTRUNK_ECHO=off "$program" "$@"
