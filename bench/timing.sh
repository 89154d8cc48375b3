# What the benchmarks share; each reads it in, with its own arguments. RUNS is how often a command is timed.
set -eu
shopt -s inherit_errexit
runs=${1:-9}
top=$(cd "$(dirname "$0")/.." && pwd)
work=$(mktemp -d)
trap 'rm -rf "$work"' EXIT
export PYTHONPATH="$top/bench" PYTHONDONTWRITEBYTECODE=1

# The median of the wall-clock times, in nanoseconds, of a command that has to end with this status.
median() {
  local wanted=$1 times=()
  shift
  for _ in $(seq "$runs"); do
    local start end status=0
    start=$(date +%s%N)
    "$@" > /dev/null 2>&1 || status=$?
    end=$(date +%s%N)
    [ "$status" -eq "$wanted" ]
    times+=($((end - start)))
  done
  printf '%s\n' "${times[@]}" | sort -n | sed -n "$(((runs + 1) / 2))p"
}
