# What the benchmarks of crates share that no program uses yet: a copy of the crates in a folder of its own. timing.sh is read in first.
mkdir -p "$work/crates"

# Proves and builds the crate in this folder.
built() {
  (cd "$1" && rt "$2" > "$work/log" 2>&1 < /dev/null) || { cat "$work/log" >&2; exit 1; }
}

# Copies a crate of the repository and those that it uses, as they are built, and lists them.
lay() {
  local used
  [ -d "$top/crates/$1" ] && [ ! -d "$work/crates/$1" ] || return 0
  tar -C "$top/crates" --exclude=incremental -c "$1" | tar -C "$work/crates" -x
  grep "^$1:" "$top/crates.txt" >> "$work/crates.txt"
  for used in $(sed -n "s/^$1://p" "$top/crates.txt"); do lay "$used"; done
}
