# What a machine has for packing a release, beside programs; bash reads it.

# Whether cargo packs crates that need each other, and that no registry has yet: it does from 1.90 on.
can_pack_crates() {
    local version
    version=$(cargo --version 2>/dev/null | cut -d ' ' -f 2)
    [ -n "$version" ] && [ "$(printf '%s\n' 1.90 "$version" | sort -V | head -n 1)" = 1.90 ] && return
    echo 'left out: no cargo from 1.90 on, so no crates'
    return 1
}

# Whether a wheel can be made.
can_make_wheel() {
    python3 -c 'import os, sys, sysconfig
sys.exit(not os.path.isfile(os.path.join(sysconfig.get_path("include"), "Python.h")))' && return
    echo 'left out: no Python.h, so no wheel'
    return 1
}

# Whether SQLite and zlib can be put into a wheel.
has_static_sqlite() {
    [ -f "$(cc -print-file-name=libsqlite3.a)" ] && [ -f "$(cc -print-file-name=libz.a)" ] && return
    echo 'left out: no libsqlite3.a or no libz.a, so no hlcstore.file in the wheel'
    return 1
}
