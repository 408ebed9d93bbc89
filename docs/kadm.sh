#!/bin/sh
# Runs kadm, with the database of this host's settings if no other is named. While it asks for a password at a terminal,
# what is typed doesn't show.
program=/usr/local/libexec/plovertrunk/kadm settings=/etc/default/kadm

if [ -z "${KADM_DB-}" ] && [ -r "$settings" ]; then
    . "$settings" && export KADM_DB
fi
case "${1-}" in
    add | passwd) [ -t 0 ] && shown=$(stty -g) || exec "$program" "$@" ;;
    *) exec "$program" "$@" ;;
esac
# However this ends, also by a signal, the terminal is left as it was found.
trap 'stty "$shown"' EXIT
trap 'echo >&2; exit 129' HUP
trap 'echo >&2; exit 130' INT
trap 'echo >&2; exit 131' QUIT
trap 'echo >&2; exit 143' TERM
# Ctrl-Z would show what is typed next.
stty -echo susp undef
PLOVERTRUNK_ECHO=off "$program" "$@"
