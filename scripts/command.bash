# What ./check and ./mounts share: how they begin, how they write, and how they run the program behind them. They have to set `status`, which
# they end with, `self`, their name, and `root`, the repository's folder, before they read this file.
# shellcheck shell=bash disable=SC2034,SC2154

# A closed descriptor would be taken by the next file that is opened. In place of standard input a folder stands, which cannot be read.
{ true 3>&2; } 2> /dev/null || exec 2> /dev/null
{ true 3>&1; } 2> /dev/null || { echo "$self: standard output is closed" >&2; exit; }
closed=''
{ true 3<&0; } 2> /dev/null || { closed=yes; exec < /; }

# shellcheck source=scripts/build.bash
. "$root/scripts/build.bash" || exit

# A number as the programs print it.
number='(0|[1-9][0-9]*)'

# Prints a file's name, or another word that was given, quoted if it is empty or could pass for more than one line.
shown() { # WORD
    if [[ -z $1 || $1 == *[[:cntrl:]]* ]]; then printf '%q' "$1"; else printf '%s' "$1"; fi
}

write() { # LINE [WHAT-WAS-DONE]
    printf '%s\n' "$1" 2> /dev/null || die "${2-}standard output cannot be written"
}

# Says what is wrong with the call, shows how it is to be, and ends.
misused() { # SENTENCE
    [[ -z $1 ]] || say "$1"
    printf '%s\n' "$usage" >&2
    exit
}

# Prints what is wrong with a file that cannot be read, or nothing. It does not open one that can: it may be a pipe.
fault_of() { # FILE
    local fault=''
    if [[ -d $1 ]]; then fault='it is a directory'
    elif [[ ! -r $1 ]]; then fault=$({ true < "$1"; } 2>&1)
    fi
    printf '%s' "${fault##*: }"
}

# Prints what the program says and, behind an x, its status.
run_program() { # WORD...
    "$root/$product" "$@" 2>&1
    printf 'x%s' $?
}

# Prints what the program said and how it ended, where that is no answer.
unanswered() { # SAID
    printf '%s' "the program $product ended with status ${1##*x} and no answer: $(printf '%q' "${1%x*}")"
}

print_version() { # program | mounts
    local version
    version=$(sed -n 's/^#define  *HROMULICE_VERSION_TEXT  *"\([^"]*\)".*/\1/p' "$root/include/hromulice.h" 2> /dev/null)
    [[ -n $version ]] || die "$root/include/hromulice.h names no version"
    choose "$1"
    judge_product
    if [[ -z $kit ]]; then kit=none; fi
    [[ -n $why ]] || kit=${built[1]#kit }
    write "hromulice $version
kit $kit
sources ${sources:0:12}"
}
