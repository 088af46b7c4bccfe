# What the scripts of this folder share, and `pq` beside it.
#
# A folder with a built program has three files: `pq`, the program; `pq.sha256`, its sum, as sha256sum writes and reads
# it; and `built-from`, two lines: the digest of the sources that it was built from, and the toolchain's version.
top=$(cd "$(dirname "$(readlink -f "${BASH_SOURCE[0]}")")/.." && pwd)
# What was built on this machine; git ignores it.
here=$top/dist/built-here

say() { printf 'pq: %s\n' "$*" >&2; }

for name in crates.txt HANDLES crates/pq_run/src/main.rt; do
    [ -f "$top/$name" ] || { say "$top/$name is missing: pq has to stand in its whole repository"; exit 66; }
done

# The files that the program is made of, and that say what is promised of it: the code with its contracts, the
# definitions that these cite, the list of crates, and what the program may use of the system. Proofs are not among
# them: they change neither, and the gate checks them in each checkout. Where git knows the files, those that it ignores
# do not count. Those that it does not track yet do, since dist/build takes them into the program.
list_sources() {
    git ls-files -z --cached --others --exclude-standard -- \
        crates.txt HANDLES 'crates/*/src/*' 'crates/*/specs/*' 2>/dev/null | grep -z . ||
        find crates.txt HANDLES crates/*/src crates/*/specs -type f -print0
}

# The digest of the sources: of their names within the repository and their contents, in the order of the names.
digest_sources() {
    (cd "$top" && list_sources | LC_ALL=C sort -zu | xargs -0 sha256sum 2>/dev/null | sha256sum | cut -d ' ' -f 1)
}

# Whether the folder $1 has a whole program that was built from sources with the digest $2.
is_built_from() {
    [ -x "$1/pq" ] && grep -qsx "sources $2" "$1/built-from" && (cd "$1" && sha256sum --status -c pq.sha256 2>/dev/null)
}

# Puts the program $2 into the folder $1, as built from sources with the digest $3 by the toolchain of the version $4.
# Each file is put in place whole, and the one that vouches for the others last.
put_program() {
    mkdir -p "$1" && rm -f "$1/built-from" &&
        cp "$2" "$1/pq.new" && chmod 755 "$1/pq.new" && mv -f "$1/pq.new" "$1/pq" &&
        (cd "$1" && sha256sum pq >pq.sha256) &&
        printf 'sources %s\ntoolchain %s\n' "$3" "$4" >"$1/built-from.new" && mv -f "$1/built-from.new" "$1/built-from"
}
