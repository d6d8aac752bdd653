# Sourced by ./hlcstore and ./vendor. `top` is the top of the repository.

# needed CRATE: the lines of crates.txt of a crate and of all crates that it uses, the lowest first as in that file.
needed() {
    tac "$top/crates.txt" | awk -F: -v crate="$1" '
        BEGIN { wanted[crate] = 1 }
        { split($1, head, " ") }
        head[1] in wanted { print; count = split($2, uses, " "); for (i = 1; i <= count; i++) wanted[uses[i]] = 1 }' |
        tac
}
