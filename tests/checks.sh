# Sourced by tests: counts what passed and what failed, and shows what a failed check said.
# The test sets scratch, a folder of its own, and label, what it tries.
passed=0 failed=0

check() { # WHAT COMMAND...
    local what=$1
    shift
    if "$@" >"$scratch/said" 2>&1; then passed=$((passed + 1)); else
        failed=$((failed + 1))
        echo "$label: failed: $what"
        sed 's/^/    /' "$scratch/said" | head -n 5
    fi
}

same() { [ "$1" = "$2" ] || { printf 'not the same:\n%s\n%s\n' "$1" "$2"; false; }; }
