#!/usr/bin/env bash
# Tries the edits that a crate must refuse and the gate doesn't try, since the checks that they begin with take it too
# long: those of crates/NAME/edits.
#
#     tools/try_edits.sh NAME [EDIT..]      EDIT is a file's name without its ending; all where none is given
#
# They are put beside those of the gate while they are tried, and taken away again.
set -u
cd "$(dirname "$0")/.." || exit 2
name=${1:?usage: tools/try_edits.sh NAME [EDIT..]}
shift
from=crates/$name/edits to=crates/$name/must-fail
[ -d "$from" ] || { echo "$name: no edits" >&2; exit 2; }
put=()
clear_away() {
    [ ${#put[@]} -eq 0 ] || rm -f "${put[@]}"
    rmdir "$to" 2>/dev/null
}
trap clear_away EXIT
mkdir -p "$to" || exit 2
[ $# -gt 0 ] || set -- $(cd "$from" && ls | sed 's/\.edit$//')
for edit in "$@"; do
    [ ! -e "$to/$edit.edit" ] || { echo "$edit: the gate tries one of this name" >&2; continue; }
    cp "$from/$edit.edit" "$to/" || exit 2
    put+=("$to/$edit.edit")
done
rt must-fail "$name"
