#!/bin/sh
# Copies the Kerberos database to other servers of the realm:
#
#     kdcd-push HOST ..
#
# kdcd-push.service runs it as root, who logs in to each HOST as root by ssh (or by the command SSH). The status is 1 if
# a HOST did not take the database; standard error says which. docs/SETUP.md, 'Several servers of one realm'.
#
# On both hosts the user kdcd touches the files, never root: the folder is that user's, and root would read or write
# wherever a link in it leads. Both hosts check the text, so one that was cut on its way is not put in place.

[ $# -gt 0 ] || { echo "usage: kdcd-push HOST .." >&2; exit 2; }

# Prints the database, if it is one. kadm renames a new one into place, so the file that is open here stays as it is.
give='PATH=/usr/local/bin/:$PATH
cd /var/lib/kdcd && exec < database && kadm check /dev/stdin > /dev/null && exec cat'

# Puts standard input in place, with mode 600 (mktemp), if it is a database, and of the realm of the one that is there.
# It has no single quote, since it stands between two. If nothing comes, the first host has said why.
take='PATH=/usr/local/bin/:$PATH
cd /var/lib/kdcd && new=$(mktemp .database.XXXXXXXXXX) || exit 1
trap "rm -f $new" EXIT
trap "exit 1" HUP INT TERM
realm() { kadm check "$1" | sed -n "s/^realm //p"; }
cat > "$new" && [ -s "$new" ] && kadm check "$new" > /dev/null || exit 1
old=$(realm database 2> /dev/null)
[ -z "$old" ] || [ "$old" = "$(realm "$new")" ] || { echo "it is a database of another realm" >&2; exit 1; }
sync "$new" && mv -fT "$new" database && sync -f .'

as_kdcd="runuser -u kdcd -- sh -c"

put() { $as_kdcd "$give" | ${SSH:-ssh} "root@$1" "$as_kdcd '$take'"; }

seen() { stat --format "%i %z" /var/lib/kdcd/database; }

# If the database changed meanwhile, it is copied again: the path is not watched while this runs. A change in the
# milliseconds between the last look and the end waits for the next one.
while :; do
    before=$(seen) || exit 1
    failed=
    for host; do
        put "$host" || failed="$failed $host"
    done
    [ "$before" = "$(seen)" ] && break
done
[ -z "$failed" ] || { echo "not copied to:$failed" >&2; exit 1; }
