#!/bin/sh
# Prints the version of a build of these sources, which the launcher writes into the program and packaging/Makefile into its packages:
# 0.3.0 at the tag v0.3.0, and between two releases 0.3.0+git20261129.171253.6bbb4999, with the time (UTC) and the hash of the commit.
# That is above 0.3.0 and below 0.3.1, and rises with the time. It ends in .dirty if files of the commit were changed. Without git, or
# outside of a clone, it is the version of the sources.
top=$(cd "$(dirname "$0")/.." && pwd) || exit 1
version=$(sed -n 's/^const VERSION: .*"motcar \([0-9.]*\).*/\1/p' "$top/crates/motcar/src/version.rt")
[ -n "$version" ] || exit 1
# (a clone of another user, too: root installs it)
in_clone() { TZ=UTC0 git -c safe.directory="$top" -C "$top" "$@" 2> /dev/null; }

dirty=
if ! { [ -e "$top/.git" ] && commit=$(in_clone show -s --abbrev=8 --date=format-local:%Y%m%d.%H%M%S --format=%cd.%h HEAD); }; then
    printf '%s\n' "$version"
    exit
fi
in_clone update-index -q --refresh > /dev/null
in_clone diff-index --quiet HEAD -- || dirty=.dirty
if [ -z "$dirty" ] && in_clone tag --points-at HEAD | grep -qxF "v$version"; then
    printf '%s\n' "$version"
else
    printf '%s+git%s%s\n' "$version" "$commit" "$dirty"
fi
