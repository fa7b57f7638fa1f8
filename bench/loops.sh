# Sourced by the scripts beside it that time one call in a loop. It makes a program over copies of crates, in a folder of
# its own that goes at the end.
top=$(cd "$(dirname "${BASH_SOURCE[0]}")/.." && pwd)
work=$(mktemp -d)
trap 'rm -rf "$work"' EXIT

# Copies the crate and those on which it stands. A name of no crate of the repository is one of the toolchain's.
copy_crate() {
  local crate=$1 below
  [[ -d $top/crates/$crate && ! -d $work/crates/$crate ]] || return 0
  cp -r "$top/crates/$crate" "$work/crates"
  grep "^$crate:" "$top/crates.txt" >>"$work/crates.txt"
  for below in $(sed -n "s/^$crate://p" "$top/crates.txt"); do
    copy_crate "$below"
  done
}

# Makes a program over the crates that are named, in the folder crates/timed. Its main.rt comes on standard input.
make_program() {
  local crate folder=$work/crates/timed
  mkdir -p "$folder/src"
  cat >"$folder/src/main.rt"
  cp "$top/HANDLES" "$work"
  for crate in "$@"; do
    copy_crate "$crate"
  done
  echo "timed: $*" >>"$work/crates.txt"
}

# Builds the program that was made. It takes three words: what to do in each round, how long the frame is, and how many rounds
# there are.
build_program() {
  if ! (cd "$work/crates/timed" && "${RT:-rt}" run -- nothing 64 1) >"$work/log" 2>&1; then
    cat "$work/log" >&2
    exit 70
  fi
}

# Makes a program over the crates that are named, and builds it. Its main.rt comes on standard input.
build_loop() {
  make_program "$@"
  build_program
}

# The least ns that five runs take: what, length, rounds, and what the program is to say.
least() {
  local start taken best= said
  for _ in 1 2 3 4 5; do
    start=$(date +%s%N)
    said=$("$work/crates/timed/out/timed" "$1" "$2" "$3")
    taken=$(($(date +%s%N) - start))
    if [[ $said != "$4" ]]; then
      echo "$1 of $2 bytes says $said in the place of $4" >&2
      exit 70
    fi
    if [[ -z $best || $taken -lt $best ]]; then
      best=$taken
    fi
  done
  echo "$best"
}

# The ns that a round takes, over what a round of nothing takes: what, length, what the program is to say, and rounds, an
# odd number.
each() {
  local full empty
  full=$(least "$1" "$2" "$4" "$3")
  empty=$(least nothing "$2" "$4" "$2")
  awk -v full="$full" -v empty="$empty" -v rounds="$4" 'BEGIN { printf "%.1f", (full - empty) / rounds }'
}
