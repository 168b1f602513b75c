# Builds a product of the crates, unless it is there and made from these very sources. scripts/command.bash and tests/build read this file.
#
# The products are target/bin/checker (program), target/bin/mount_sheets (mounts) and target/staticlib/libhromulice.a (library). Beside
# each stands its record, PRODUCT.built: the hash of the sources, the kit, and the hash of the product itself. If any of the three
# differs, the product is not used and is built again: rt proves a copy of the crates in a folder of its own, and takes there what it has
# kept on this machine of the same files. Whoever reads this file sets `root`, the repository's folder, and `self`, the name before each
# sentence.
# shellcheck shell=bash disable=SC2154
set -f -o pipefail
trap : PIPE # nobody may be reading what is written: then writing fails, and nothing ends unseen

# The kit that this edition was proved with, as `rt version` prints it.
wanted_kit='rattle-kit-13f logic dac8208d650f15bf'

say() {
    printf '%s: %s\n' "$self" "$*" >&2
}

die() {
    say "$@"
    exit 2
}

# Names the product that the functions below are about, and lists the crates that it is made from, lowest first.
choose() { # program | mounts | library
    case $1 in
        program) what='the checker' crate=checker product=target/bin/checker ;;
        mounts) what='the program for mount sheets' crate=mount_sheets product=target/bin/mount_sheets ;;
        library) what='the library for C' crate=hromulice_c product=target/staticlib/libhromulice.a ;;
        *) die "$1 is none of program, mounts and library" ;;
    esac
    kind=$1
    record=$root/$product.built
    log=$root/target/log/$crate.build
    read_dependencies
    crates=() reached=' '
    reach "$crate"
}

# Reads crates.txt, in which a line is NAME: DEPENDENCY DEPENDENCY, with more words behind NAME for a crate that is no plain one.
read_dependencies() {
    local line name more
    declare -gA needs=() listed=()
    [[ -r $root/crates.txt ]] || die "$root/crates.txt cannot be read"
    while IFS= read -r line || [[ -n $line ]]; do
        line=${line%%#*}
        # shellcheck disable=SC2034
        read -r name more <<< "${line%%:*}"
        [[ $line != *:* || -z $name ]] || needs[$name]=${line#*:} listed[$name]=$line
    done < "$root/crates.txt"
}

# Adds a crate of the repository to `crates`, behind what it depends on. The kit's libraries are not among them.
reach() { # NAME
    local next
    [[ -n ${needs[$1]+listed} && $reached != *" $1 "* ]] || return 0
    reached+="$1 "
    for next in ${needs[$1]}; do
        reach "$next"
    done
    crates+=("$1")
}

# Prints the files and folders that rt reads of a crate, from the repository's folder.
parts_of() { # NAME
    local part
    for part in src specs proofs stdin stdout args status data; do
        part=crates/$1/$part
        [[ ! -e $part && ! -L $part ]] || printf '%s\n' "$part"
    done
}

# Runs find in the repository's folder on crates.txt and all that rt reads of each crate.
find_sources() { # what find is to do
    local name more parts=(crates.txt)
    [[ ! -e HANDLES ]] || parts+=(HANDLES)
    for name in "${crates[@]}"; do
        mapfile -t more < <(parts_of "$name")
        parts+=("${more[@]}")
    done
    find "${parts[@]}" "$@"
}

list_sources() {
    find_sources \( -type f -o -type l \) -print0 | LC_ALL=C sort -z
}

# Prints one hash of all these files and their names.
hash_sources() (
    cd "$root/" && list_sources | xargs -0 sha256sum | sha256sum | cut -d ' ' -f 1
)

# Prints that hash and, hashed, when each file was last touched, which tells of a file that was changed and changed back.
snapshot() (
    hash_sources && cd "$root/" && list_sources | xargs -0 stat -c '%n %i %z' | sha256sum
)

hash_product() {
    sha256sum < "$root/$product" | cut -d ' ' -f 1
}

# Prints the kit's identity, or nothing if there is none that runs.
find_kit() {
    if command -v rt > /dev/null; then rt version 2> /dev/null; fi
}

# Sets `why` to what speaks against the product that is there, or to nothing. `built` is its record's lines.
judge_product() {
    local file=$root/$product
    built=()
    sources=$(hash_sources 2> /dev/null) || die "the sources in $root/crates cannot be read"
    kit=$(find_kit)
    [[ ! -r $record ]] || mapfile -t built < "$record"
    if [[ ! -e $file && ! -e $record ]]; then why='it is not built yet'
    elif [[ ! -f $file || ! -r $file ]]; then why="$product is missing"
    elif [[ $kind != library && ! -x $file ]]; then why="$product may not be run"
    elif [[ ${#built[@]} -ne 3 ]]; then why="nothing says what $product was built from"
    elif [[ ${built[0]} != "sources $sources" ]]; then why='the sources changed since it was built'
    elif [[ -n $kit && ${built[1]} != "kit $kit" ]]; then why="it was built by another kit, ${built[1]#kit }"
    elif [[ ${built[2]} != "product $(hash_product)" ]]; then why="$product is not the file that was built"
    else why=''
    fi
}

# Builds the product if it has to be, or ends with one sentence.
ensure() { # program | mounts | library
    choose "$1"
    judge_product
    [[ -n $why ]] || return 0
    need_kit
    need_folder
    take_lock
    judge_product # another build may just have ended
    [[ -z $why ]] || build
    drop_lock
}

need_kit() {
    [[ -n $kit ]] || die "$what has to be built ($why), which needs the Rattle kit, $wanted_kit: no rt that runs is on the PATH"
}

need_folder() {
    local folder
    mkdir -p "$root"/target/{bin,log,staticlib} 2> /dev/null
    for folder in "$root"/target{,/bin,/log,/staticlib}; do
        [[ -w $folder ]] || die "$what has to be built ($why), and $folder cannot be written: copy the repository to a folder that you can write, and call it there"
    done
}

# Waits until no other build goes on. rt and all that it starts inherit the lock: what an interrupted build left running is waited for.
take_lock() {
    local file=$root/target/build.lock
    while true; do
        { exec {lock}>> "$file"; } 2> /dev/null || die "$file cannot be written"
        command -v flock > /dev/null || return 0
        if ! flock -n "$lock"; then
            say "waiting for another build to end"
            flock "$lock" || die "$file cannot be locked"
        fi
        # Somebody may have removed target/ meanwhile, and the lock with it.
        [[ ! $file -ef /dev/fd/$lock ]] || return 0
        drop_lock
    done
}

drop_lock() {
    exec {lock}>&-
}

# Has rt prove and make the product.
build() {
    local before
    say "building $what ($why). Every crate is proved first, which can take some minutes"
    before=$(snapshot 2> /dev/null) || die "the sources in $root/crates cannot be read"
    sources=${before%%$'\n'*}
    refuse_links
    rm -f -- "$record" "$root/$product" || die "$root/$product cannot be removed"
    if ! make_product || [[ ! -f $root/$product ]]; then
        tail -n 20 -- "$log" >&2
        die "$what was not built from the sources as they are; all that rt said is in $log"
    fi
    unchanged_since "$before"
    write_record
}

# rt follows no link in a crate.
refuse_links() {
    local links
    links=$(cd "$root/" && find_sources -type l)
    [[ -z $links ]] || die "${links%%$'\n'*} is a symbolic link, and rt follows none: put the file in its place"
}

# Proves a copy of the crates that the product is made from, and takes the product from there. The must-fail edits are not tried: they say
# nothing of it.
make_product() {
    local room
    : > "$log" && room=$(mktemp -d) || return
    (
        trap 'rm -rf -- "$room"' EXIT
        copy_sources && run_rt && { [[ $kind != library ]] || make_archive; } && take_product "$room/crates/$crate/out"
    )
}

# Copies the crates to the folder `room`, which rt takes for a repository of its own.
copy_sources() {
    local name part
    mkdir -- "$room/.git" || return
    cd "$root/" || return
    [[ ! -e HANDLES ]] || cp -- HANDLES "$room" || return
    for name in "${crates[@]}"; do
        mkdir -p -- "$room/crates/$name" && printf '%s\n' "${listed[$name]}" >> "$room/crates.txt" || return
        while IFS= read -r part; do
            cp -r --no-preserve=mode -- "$part" "$room/crates/$name" || return
        done < <(parts_of "$name")
    done
}

# Runs rt there, keeps what it says in the log and shows how far it is. It has done its work only if it has named every crate.
run_rt() {
    (cd "$room" && exec rt ci) < /dev/null 2>&1 | show_progress
}

show_progress() {
    local line count=0
    trap '' PIPE
    while IFS= read -r line; do
        printf '%s\n' "$line" >&3
        if [[ $line =~ ^rt:\ ([A-Za-z0-9_]+)\ (proved$|is\ kept:) ]]; then
            count=$((count + 1))
            say "$count/${#crates[@]} ${BASH_REMATCH[1]}"
        fi
    done 3>> "$log"
    ((count == ${#crates[@]}))
}

# Compiles the library for C there, over the libraries below it as rt ci has just built them. rt ci proves such a crate and makes no archive,
# and rt lib would prove every library below it once more.
make_archive() {
    local at name words
    at=$(rt doc) && at=${at%/*} || return
    words=(--crate-name "$crate" src/lib.rt --crate-type staticlib --extern "std=$at/rlibs/std.rlib" -L "dependency=$at/rlibs")
    for name in ${needs[$crate]}; do
        if [[ -n ${needs[$name]+listed} ]]; then words+=(--extern "$name=$room/crates/$name/out/rlib/$name.rlib")
        else words+=(--extern "$name=$at/rlibs/$name.rlib")
        fi
    done
    for name in "${crates[@]}"; do
        [[ $name == "$crate" ]] || words+=(-L "dependency=$room/crates/$name/out/rlib")
    done
    words+=(--antt-project "$at/rattle/logic/antt-project.json" --logic-built "$at/logic_built" --jobs 1 --links "$crate=")
    mkdir -p -- "$room/crates/$crate/out" && cd "$room/crates/$crate" || return
    "$at/bin/rattle" build "${words[@]}" --toolchain "$at/toolchain" --backend llvm -o out/libhromulice.a < /dev/null >> "$log" 2>&1
}

# Puts what stands in a crate's out/ where the product is to be.
take_product() { # FOLDER
    local made=$1/$crate
    [[ $kind != library ]] || made=$1/libhromulice.a
    cp --no-preserve=timestamps -- "$made" "$root/$product.new" && mv -f -- "$root/$product.new" "$root/$product"
} 2>> "$log"

# Ends if the sources are not what they were: what was proved meanwhile may belong to neither state.
unchanged_since() { # SNAPSHOT
    [[ $(snapshot 2> /dev/null) == "$1" ]] || die "the sources changed while $what was built from them: call again"
}

write_record() {
    { printf 'sources %s\nkit %s\nproduct %s\n' "$sources" "$kit" "$(hash_product)" > "$record.new" && mv -f -- "$record.new" "$record"; } 2> /dev/null ||
        die "$record cannot be written"
}

# Prints what the program does on the words, the data and the input that rt runs it on.
run_stored() (
    words=() input=/dev/null
    cd "$root/crates/$crate/" || exit
    [[ ! -f args ]] || mapfile -t words < args
    [[ ! -f stdin ]] || input=$PWD/stdin
    [[ ! -d data ]] || cd data || exit
    exec "$root/$product" "${words[@]}" < "$input" 2>&1
)

# Records the program that rt ci has left in its crate's out/, and builds nothing: no source may have changed since then, and the program
# has to print what its crate's stdout has.
record_built() { # program | mounts
    local before newer left
    choose "$1"
    left=crates/$crate/out/$crate
    judge_product
    need_kit
    need_folder
    take_lock
    rm -f -- "$record" "$root/$product"
    [[ -f $root/$left ]] || die "rt ci has left no $left"
    before=$(snapshot 2> /dev/null) || die "the sources in $root/crates cannot be read"
    sources=${before%%$'\n'*}
    newer=$(cd "$root/" && find_sources -newercm "$left" -print -quit) || die "the sources in $root/crates cannot be read"
    [[ -z $newer ]] || die "$left was not built from these sources: $newer changed after it"
    : > "$log"
    take_product "$root/crates/$crate/out" || die "$root/$product cannot be written"
    run_stored 2> /dev/null | cmp -s - "$root/crates/$crate/stdout" ||
        die "$product does not print what crates/$crate/stdout has"
    unchanged_since "$before"
    write_record
    drop_lock
}
