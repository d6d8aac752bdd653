# What the scripts of this folder share; bash reads it. They need VERSION, and SOURCE_DATE_EPOCH, the time of each file.
# Those that say what is proved, or what others made, need VERDICT and KIT.
set -euo pipefail
: "${VERSION:?}" "${SOURCE_DATE_EPOCH:?}"
export LC_ALL=C TZ=UTC SOURCE_DATE_EPOCH
umask 022
here=$(cd "$(dirname "${BASH_SOURCE[0]}")" && pwd)
bindings=$(dirname "$here")
top=$(dirname "$bindings")
licences=("$top/LICENSE" "$top/LICENSE-APACHE" "$top/LICENSE-MIT")
work=$(mktemp -d)
trap 'rm -rf "$work"' EXIT
source "$here/machine.bash"

# has TOOL WHAT: whether the machine has this tool. Where it does not, what needs it is left out, and that is printed.
has() {
    command -v "$1" >/dev/null && return
    echo "left out: no $1, so no $2"
    return 1
}

# escaped TEXT: prints a text as sed writes it in the place of `s|..|TEXT|`.
escaped() {
    printf '%s\n' "$1" | sed 's/[\\&|]/\\&/g'
}

# filled FILE: prints a template of debian/ with what is known now.
filled() {
    sed -e "s|@VERSION@|$VERSION|; s|@MAINTAINER@|$(escaped "${MAINTAINER:?}")|" \
        -e "s|@DATE@|$(date -R -d "@$SOURCE_DATE_EPOCH")|" "$here/debian/$1"
}

# notices CRATE..: prints the notices of what others made in what is built from these crates.
notices() {
    "$here/notices.py" "${KIT:?}" "$@"
}

# strip_below FOLDER: removes what only debuggers and compilers read, as folders of this machine, from all that
# is built.
strip_below() {
    local unneeded=(--remove-section=.comment --remove-section=.note)
    find "$1" -name '*.a' -exec strip -D --strip-debug "${unneeded[@]}" {} +
    find "$1" -type f \( -name '*.so.*' -o -path '*/bin/*' \) -exec strip --strip-unneeded "${unneeded[@]}" {} +
}

# sums FOLDER: prints the SHA-256 of each file in a folder but SHA256SUMS.
sums() (
    cd "$1" && find . -type f ! -path ./SHA256SUMS -printf '%P\0' | sort -z | xargs -0 sha256sum
)

# pack FOLDER FILE.tar.gz: packs a folder. The bytes depend on names, contents and which files are executable alone.
pack() {
    tar -C "$(dirname "$1")" --sort=name --format=gnu --owner=0 --group=0 --numeric-owner --mode=u=rwX,go=rX \
        --mtime="@$SOURCE_DATE_EPOCH" -cf - "$(basename "$1")" | gzip -9n >"$2"
}
