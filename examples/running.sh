# What the scripts of examples/ share: they read it, and it isn't run. They say before in $longest for how many seconds they may run, and
# in $script their own path.
# shellcheck shell=bash disable=SC2154

# The program that is run; ADX names another one. In a clone it is the one that ./adx runs, and where none is built a quick build is made
# before, which takes minutes; beside a packed program it is that.
if [ -z "${ADX:-}" ]; then
    if [ -e crates.txt ]; then
        read -r kind _ ADX < <(./adx --which 2>/dev/null || ./adx --quick) || true
        [ -n "$ADX" ] || exit 1
        [ "$kind" = proved ] || echo "$(basename "$script"): with a quick build of adx, unproved" >&2
    else
        ADX=$(PATH=.:$PATH command -v adx) || { echo "$(basename "$script"): no adx is here or on the path" >&2; exit 1; }
    fi
    export ADX
fi
adx=$ADX

# The script begins once more under a limit of time.
if [ -z "${BOUNDED:-}" ]; then
    BOUNDED=1 exec timeout "$longest" "$script" "$@"
fi
folder=$(mktemp -d)
trap 'kill $(jobs -p) 2>/dev/null || true; rm -rf "$folder"' EXIT

# Ends where a tool isn't there.
need() {
    if ! command -v "$1" >/dev/null; then
        echo "$(basename "$0"): install $1 (Debian: apt-get install $1)" >&2
        exit 1
    fi
}

# The first port from one on at which nobody listens.
free_port() {
    local port=$1
    while (exec 3<>"/dev/tcp/127.0.0.1/$port") 2>/dev/null; do
        port=$((port + 1))
    done
    echo "$port"
}

# Starts a command that takes connections at a port, and waits until it says so. Its process is $started.
start() {
    local port=$1
    shift
    : >"$folder/said.$port"
    "$adx" "$@" --port "$port" 2>"$folder/said.$port" &
    started=$!
    for _ in $(seq 200); do
        ! grep -q "127\.0\.0\.1:$port" "$folder/said.$port" || return 0
        kill -0 "$started" 2>/dev/null || break
        sleep 0.1
    done
    cat "$folder/said.$port" >&2
    exit 1
}

# Ends what was started by a signal.
end() {
    {
        kill "$1" "$2"
        wait "$2"
    } 2>/dev/null || true
}

# Calls with curl.
call() {
    curl -s --max-time "${patience:-10}" "$@"
}
