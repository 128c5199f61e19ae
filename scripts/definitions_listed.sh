#!/bin/sh
# Whether docs/definitions.md lists each file of specs/ and no other: a line for each that is missing on either side.
# `Lib` names the files of its folder, and holds no definition.
cd "$(dirname "$0")/.." || exit 2
there=$(for file in crates/*/specs/*.antt; do echo "$file"; done | sed 's,^crates/\(.*\)\.antt$,\1,' | grep -v '/Lib$' | sort)
# a name in a row without its folder lies in the folder named before it
listed=$(grep '^|' docs/definitions.md | sed 's/.*| \([^|]*\) |$/\1/' | awk -F'`' '
    {
        for (at = 2; at <= NF; at += 2) {
            if (index($at, "/")) { folder = $at; sub("[^/]*$", "", folder); print $at } else print folder $at
        }
    }' | grep '/specs/' | sort -u)
ended=0
for file in $there; do
    echo "$listed" | grep -qx "$file" || { echo "not listed: $file"; ended=1; }
done
for file in $listed; do
    echo "$there" | grep -qx "$file" || { echo "not there:  $file"; ended=1; }
done
exit $ended
