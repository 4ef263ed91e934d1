# Counts what a check script tries: `verdict` and `try` say one line each and count it, `counted` says the last line.
#
#   . tests/counting.sh WIDTH     to be sourced; names are padded to WIDTH
#
# shellcheck shell=bash

names_width=$1
passed=0
failed=0

# verdict NAME STATUS [DETAIL]
verdict() {
    local said=${3-passed}
    if [ "$2" = 0 ]; then
        passed=$((passed + 1))
    else
        failed=$((failed + 1))
        said="FAILED${3:+ $3}"
    fi
    printf '%-*s %s\n' "$names_width" "$1" "$said"
}

# try NAME COMMAND..: what the command says is shown only if it fails.
try() {
    local name=$1 said status=0
    shift
    said=$("$@" 2>&1) || status=1
    verdict "$name" $status
    [ $status = 0 ] || printf '    %s\n' "${said//$'\n'/$'\n    '}"
}

# The gate reads this line; the status says the same.
counted() {
    echo "$passed passed, $failed failed"
    [ "$failed" = 0 ]
}
