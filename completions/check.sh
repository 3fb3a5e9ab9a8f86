#!/usr/bin/env bash
# Tries the completion for bash, and for fish where that shell is here; where zsh is, its file is read. It ends with status 1
# at the first line that is completed otherwise.
set -euo pipefail
cd "$(dirname "$0")"
# shellcheck source=/dev/null
. ./capcheck.bash

# offers LINE WORDS..: the last word of a line is completed by these words, in any order. Files aren't compared.
offers() {
    local line=$1 got
    shift
    read -ra COMP_WORDS <<< "$line"
    case $line in *' ') COMP_WORDS+=('') ;; esac
    COMP_CWORD=$((${#COMP_WORDS[@]} - 1))
    COMPREPLY=()
    _capcheck "${COMP_WORDS[0]}" "${COMP_WORDS[COMP_CWORD]}" "${COMP_WORDS[COMP_CWORD - 1]}"
    got=$(printf '%s\n' "${COMPREPLY[@]}" | { grep -v -x -F -f <(compgen -f; echo) || :; } | sort | tr '\n' ' ')
    [ "$got" = "$(printf '%s\n' "$@" | { grep . || :; } | sort | tr '\n' ' ')" ] ||
        { echo "completions: '$line' is completed by $got" >&2; exit 1; }
}
offers 'capdiag ' why heap run --help --version
offers 'capdiag w' why
offers 'capdiag why ' --origins --freed --owned --owners --context --json --progress --help
offers 'capdiag why --or' --origins
offers 'capdiag why --freed ' held used both
offers 'capdiag why --origins -' --freed --owned --owners --context --json --progress
offers 'capdiag why --context '
offers 'capdiag why --context 3 -' --origins --freed --owned --owners --json --progress
offers 'capdiag why --json --origins -' --freed --owned --owners --context --progress
offers 'capdiag heap ' --report --why --context --json --progress --help
offers 'capdiag heap --report -' --why --context --json --progress
offers 'capdiag heap --why -' --report --context --json --progress
offers 'capdiag heap --why log --json --' --report --context --progress
offers 'capdiag heap --why --report -' --context --json --progress
offers 'capdiag why log --or' --origins
offers 'capdiag run ' --freed --owned --owners --why --context --json --progress --help
offers 'capdiag run --freed ' held used both
offers 'capdiag run --freed u' used
offers 'capdiag run --freed used --' --owned --owners --why --context --json --progress
offers 'capdiag run log --owned --' --freed --owners --why --context --json --progress
offers 'capdiag why -- -'
offers 'capcheck ' explain round judge vectors
offers 'capcheck j' judge
offers 'capcheck judge -' --origins
offers 'capcheck explain --memory ' --tag
offers 'capcheck round '
offers 'capcheck judge capcheck.f'
COMP_WORDS=(capcheck judge capcheck.f) COMP_CWORD=2
_capcheck capcheck capcheck.f judge
[ "${COMPREPLY[*]}" = capcheck.fish ] || { echo "completions: files are completed by ${COMPREPLY[*]}" >&2; exit 1; }
! command -v zsh > /dev/null || zsh -n _capcheck
if command -v fish > /dev/null; then
    got=$(fish -c 'source capdiag.fish; complete -C "capdiag heap --"' | cut -f 1 | sort | tr '\n' ' ')
    [ "$got" = '--context --help --json --progress --report --why ' ] || { echo "completions: fish completes 'capdiag heap --' by $got" >&2; exit 1; }
    got=$(fish -c 'source capcheck.fish; complete -C "capcheck "' | cut -f 1 | sort | tr '\n' ' ')
    [ "$got" = 'explain judge round vectors ' ] || { echo "completions: fish completes 'capcheck ' by $got" >&2; exit 1; }
fi
echo 'completions: the words of both programs are completed'
