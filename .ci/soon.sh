# shellcheck shell=sh
# Waiting for what comes soon, however slow the machine is. .ci/launcher and .ci/library read this file.

# soon COMMAND: waits until the command has status 0, at most a minute.
soon() {
    looks=300
    until "$@"; do
        looks=$((looks - 1))
        [ "$looks" -gt 0 ] || return 1
        sleep 0.2
    done
}

# gone PROCESS: whether it has ended.
gone() { ! kill -0 "$1" 2>/dev/null; }
