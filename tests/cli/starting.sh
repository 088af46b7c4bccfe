# The cases of `pq` itself, the script that finds the program or builds it, on a copy of the sources, with a stand-in
# for the toolchain. Read by `run`, which counts them.
copy=$made/copy
mkdir -p "$copy" "$made/bin" "$made/machine" "$made/tmp"
(. "$here/../../dist/common.sh" && cd "$top" && {
    list_sources
    find pq dist -path dist/built-here -prune -o -type f -print0
} | tar --null -T - -cf - | tar -C "$copy" -xf -)

# Where no folder of the path has the toolchain.
bare_path=$(tr : '\n' <<<"$PATH" | while read -r folder; do [ -x "$folder/rt" ] || echo "$folder"; done | paste -sd :)

# A stand-in for the toolchain: what `rt ci` does is $1.
stand_in() {
    printf '#!/bin/sh\n[ "$1" = ci ] || { echo stand-in; exit 0; }\n%s\n' "$1" >"$made/bin/rt"
    chmod +x "$made/bin/rt"
}
builds='mkdir -p crates/pq_run/out && cd crates/pq_run/out &&
    printf "#!/bin/sh\necho built\n" >pq_run && chmod +x pq_run'

# A stand-in for what tells the kind of the machine, so that the cases are the same on each: it says $1.
on_machine() {
    printf '#!/bin/sh\necho "%s"\n' "$1" >"$made/machine/uname"
    chmod +x "$made/machine/uname"
}
on_machine 'Linux x86_64'

digest_of() { (. "$1/dist/common.sh" && digest_sources); }

# Runs the copy's `pq` with the path $1, and compares status, output and a word of the faults with what is wanted.
start() {
    local path=$1 status wanted_status=$2 wanted_out=$3 wanted_word=$4
    PATH=$made/machine:$path TMPDIR=$made/tmp timeout 60 "$copy/pq" </dev/null >"$made/out" 2>"$made/err"
    status=$?
    [ "$status" = "$wanted_status" ] || echo "status $status"
    [ "$(cat "$made/out")" = "$wanted_out" ] || cat "$made/out"
    grep -q "$wanted_word" "$made/err" || cat "$made/err"
    [ -z "$(ls -A "$made/tmp")" ] || ls "$made/tmp"
}

# What is wrong with the digest of a checkout that git knows, where a module is new to it. What is built does not count.
add_module() {
    local checkout=$made/checkout tracked created
    cp -r "$copy" "$checkout" && cp "$here/../../.gitignore" "$checkout"
    git -C "$checkout" init -q && git -C "$checkout" add -A || echo 'git refuses'
    mkdir -p "$checkout/crates/pq_run/out/src" && echo >"$checkout/crates/pq_run/out/src/other"
    tracked=$(digest_of "$checkout")
    [ "$tracked" = "$(digest_of "$copy")" ] || echo 'differs in a checkout'
    echo '// new' >"$checkout/crates/pq_run/src/new.rt"
    created=$(digest_of "$checkout")
    [ "$created" != "$tracked" ] || echo 'is the same with a new module'
    echo '// changed' >>"$checkout/crates/pq_run/src/new.rt"
    [ "$created" != "$(digest_of "$checkout")" ] || echo 'is the same with a changed module'
    git -C "$checkout" add -A && created=$(digest_of "$checkout") && git -C "$checkout" reset -q
    [ "$created" = "$(digest_of "$checkout")" ] || echo 'differs once the module is added'
}

# Puts what was built into the copy's dist/, without the toolchain.
ship() {
    PATH=$bare_path "$copy/dist/refresh" >/dev/null && "$copy/dist/refresh" --check >/dev/null || echo refused
}

starting_cases() {
    local before
    before=$(digest_of "$copy")
    count 'the digest is of no folder' "$([ "$before" = "$(digest_of "$here/../..")" ] || echo differs)"
    find "$copy" -exec touch -d 2001-01-01 {} +
    count 'the digest is of no time' "$([ "$before" = "$(digest_of "$copy")" ] || echo differs)"
    mkdir -p "$copy/crates/pq_run/out" && echo >"$copy/crates/pq_run/out/other"
    count 'the digest is of no built file' "$([ "$before" = "$(digest_of "$copy")" ] || echo differs)"
    ! command -v git >/dev/null || count 'the digest is of new modules too' "$(add_module)"
    echo '// changed' >>"$copy/crates/pq_run/src/main.rt"
    count 'the digest is of the sources' "$([ "$before" != "$(digest_of "$copy")" ] || echo 'is the same')"
    count 'a program of other sources is not current' \
        "$("$copy/dist/refresh" --check >"$made/said" && cat "$made/said")"

    count 'to build without the toolchain' "$(start "$bare_path" 69 '' 'no command rt')"
    stand_in 'echo "rt: refused"; exit 1'
    count 'to build what is refused' "$(start "$made/bin:$bare_path" 70 '' 'rt: refused')"
    rm -rf "$copy/dist/built-here" && touch "$copy/dist/built-here"
    count 'to build where nothing can be written' "$(start "$made/bin:$bare_path" 73 '' "can't be written")"
    rm "$copy/dist/built-here"
    stand_in 'sleep 60'
    count 'to build and be interrupted' "$(stop_start INT 130)"
    count 'to build and lose the terminal' "$(stop_start HUP 129)"
    count 'to build and be told to end' "$(stop_start TERM 143)"
    count 'to build and be interrupted alone' "$(stop_start INT 130 alone)"
    count 'to build and be hung up alone' "$(stop_start HUP 129 alone)"
    count 'to build and be told to end alone' "$(stop_start TERM 143 alone)"
    stand_in "$builds"
    count 'to build' "$(start "$made/bin:$bare_path" 0 built 'built in')"
    count 'to run what was built' "$(start "$bare_path" 0 built '')"
    count 'to ship what was built' "$(cd / && ship)"
    rm -rf "$copy/dist/built-here"
    count 'to run what is shipped' "$(start "$bare_path" 0 built '')"
    chmod a-x "$copy/dist/program" "$copy/dist/build" "$copy/dist/hints"
    count 'to run what is shipped by scripts that may not be run' "$(start "$bare_path" 0 built '')"
    for tool in readlink sha256sum xargs; do
        count "to start without $tool" "$(start_without "$tool")"
    done
    cp "$copy/dist/pq" "$made/alone"
    count 'the program copied alone' "$([ "$(cd / && "$made/alone")" = built ] || echo 'does not run')"
    for part in common.sh build hints words; do
        mv "$copy/dist/$part" "$made/part"
        count "to start without dist/$part" "$(start "$bare_path" 66 '' "dist/$part is missing: pq has to stand")"
        mv "$made/part" "$copy/dist/$part"
    done
    on_machine 'Linux aarch64'
    count 'on a machine that what is shipped is not for' "$(start "$bare_path" 69 '' 'no command rt')"
    on_machine 'Linux x86_64'
    echo other >>"$copy/dist/pq"
    count 'a program that is not whole is not run' "$(start "$bare_path" 69 '' 'no command rt')"
    rm "$copy/crates.txt"
    count 'away from its repository' "$(start "$bare_path" 66 '' 'whole repository')"
    rm -rf "$copy/dist"
    count 'copied alone' "$(start "$bare_path" 66 '' 'dist/program is missing: pq has to stand in its whole')"
}

# What is wrong with a start where no folder of the path has the command $1. The folder of all others is made of links.
start_without() {
    local tool
    rm -rf "$made/tools" && mkdir "$made/tools"
    for tool in bash readlink dirname uname sha256sum xargs sort cut grep find git timeout cat ls; do
        [ "$tool" = "$1" ] || ln -s "$(command -v "$tool")" "$made/tools/$tool"
    done
    (PATH=$made/tools; "$made/tools/bash" "$copy/pq" </dev/null >"$made/out" 2>"$made/err")
    [ $? = 69 ] || echo 'the status is another'
    grep -q "no command $1" "$made/err" || cat "$made/err"
}

# Stops a build by the signal $1, as a terminal does: all of its group; or where $3 is `alone`, `pq` by its own process
# and nothing else. It has to end with the status $2, and leave nothing behind once it has cleaned up, which `pq` itself
# may not wait for.
stop_start() {
    local job status
    set -m
    if [ "${3-}" = alone ]; then
        PATH=$made/bin:$bare_path TMPDIR=$made/tmp "$copy/pq" </dev/null >"$made/out" 2>"$made/err" &
    else
        PATH=$made/bin:$bare_path TMPDIR=$made/tmp timeout --foreground 60 "$copy/pq" \
            </dev/null >"$made/out" 2>"$made/err" &
    fi
    job=$!
    set +m
    sleep 3
    if [ "${3-}" = alone ]; then kill "-$1" "$job"; else kill "-$1" -- "-$job"; fi
    wait "$job"
    status=$?
    [ "$status" = "$2" ] || echo "status $status"
    [ "$1" != INT ] || grep -q stopped "$made/err" || cat "$made/err"
    for _ in {1..10}; do
        [ -n "$(ls -A "$made/tmp")" ] || [ -e "$copy/dist/built-here" ] || return
        sleep 1
    done
    ls -d "$made/tmp"/* "$copy/dist/built-here" 2>/dev/null
}
