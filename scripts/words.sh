# shellcheck shell=bash disable=SC2154
# What ./run answers by itself, without a program and without the kit: `--help`, `--version`, and words that have no form.
# `top`, the top of the clone, is set before this file is read. `.ci/checks` compares both texts with the program's own.

# Whether the program may know these words, by the first of them and by how many there are. The program itself looks at the
# rest: numbers, addresses, options.
may_have_form() {
    case "$#:${1-}" in
    1:scenario | 1:idmap | 1:--help | 1:--version) ;;
    2:storm | 3:serve | 4:serve | 3:directory | 4:netgroup | 4:sudo | 7:innetgr) ;;
    3:query | 4:query | 5:query) is_question "${@:3}" ;;
    0:* | 1:* | 2:*) return 1 ;;
    *:cache) ;;
    *) return 1 ;;
    esac
}
is_question() {
    case "$#:$1" in
    1:offline | 1:online | 1:stop | 2:user | 2:uid | 2:group | 2:gid | 2:groups | 2:login | 3:access) ;;
    *) return 1 ;;
    esac
}

# Answers the words and ends, where they need no program.
answer_at_once() {
    case "$#:${1-}" in
    0:)
        usage
        exit 2
        ;;
    1:--help)
        cat "$top/scripts/help.txt"
        exit 0
        ;;
    1:--version)
        cat "$top/scripts/version.txt"
        exit 0
        ;;
    esac
    if ! may_have_form "$@"; then
        echo usage
        exit 2
    fi
}

# The program prints `usage` for no words as for wrong ones. A newcomer's first call also says where to read on.
usage() {
    echo usage
    echo "run: ./run --help lists the words; README.md has a scenario to begin with" >&2
}
