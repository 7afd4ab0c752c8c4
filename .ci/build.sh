# What scripts that prove and build by rt share. They stand at the root and read this file with `. .ci/build.sh`.

# needed CRATE..: these crates and all below them, lowest first, one a line, as crates.txt has them
needed() {
    wanted=" $(for crate; do echo "$crate" $(sed -n "s/^$crate\( [^:]*\)*://p" crates.txt); done | tr '\n' ' ')"
    sed -n 's/^\([a-z0-9_]*\)[^#:]*:.*/\1/p' crates.txt | while read -r crate; do
        case $wanted in *" $crate "*) echo "$crate" ;; esac
    done
}

# sources CRATE: a sum of all that it is built from, the kit too
sources() {
    { rt version; find $(needed "$1" | sed 's,^,crates/,') -regex 'crates/[^/]*/out' -prune -o -type f -print | sort | xargs sha256sum crates.txt; } | sha256sum
}

# keep BUILT FILE SOURCES: takes what rt built as that file, and notes beside it of what it was built
keep() {
    cp -f "$1" "$2"
    { echo "$3"; sha256sum "$2"; } >"$2.of"
}

# kept CRATE FILE: whether the file was built of the crate and of those below it as they stand now
kept() { [ -f "$2.of" ] && [ "$(sources "$1"; sha256sum "$2")" = "$(cat "$2.of")" ]; }
