#!/usr/bin/env bash
# Runs shellcheck over each shell script of the repository, and pyflakes over each Python file, whatever its ending.
#
#     tools/lint.sh
#
# Where one of them is not installed (Debian: shellcheck, pyflakes3), it says so, and bash or Python only reads the files.
set -u
cd "$(dirname "$0")/.." || exit 2

# Files with this ending, or with this interpreter in the first line.
scripts() {
    local file first
    while IFS= read -r file; do
        case "${file##*/}" in
            *."$1") echo "$file" ;;
            *.*) ;;
            *) IFS= read -r first 2> /dev/null < "$file"; [[ "$first" != '#!'*"$2"* ]] || echo "$file" ;;
        esac
    done < <(find motcar .ci tools tests campaigns bench packaging examples docs -type f 2> /dev/null | grep -v __pycache__ | sort)
}

# Says what a program thinks of the files.
think() {
    echo "tools/lint.sh: $1: ${#files[@]} files"
    "${@:2}" "${files[@]}" || status=1
}

reads_shell() { local file; for file; do bash -n "$file" || return 1; done; }

compiles_python() {
    local made made_status=0
    made=$(mktemp -d) || return 1
    PYTHONPYCACHEPREFIX=$made python3 -m py_compile "$@" || made_status=1
    rm -rf "$made"
    return "$made_status"
}

status=0
mapfile -t files < <(scripts sh sh)
if command -v shellcheck > /dev/null; then
    # (functions that are called by name, through a trap or "$@", are no code without a caller: SC2317, SC2329)
    think shellcheck shellcheck -e SC2317,SC2329
else
    think "bash -n, since there is no shellcheck" reads_shell
fi
mapfile -t files < <(scripts py python)
pyflakes=$(command -v pyflakes3 || command -v pyflakes)
if [ -n "$pyflakes" ]; then
    think pyflakes "$pyflakes"
else
    think "python3 -m py_compile, since there is no pyflakes" compiles_python
fi
exit "$status"
