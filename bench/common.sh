# shellcheck shell=bash
# What the scripts of this folder and of tests/long share. Each of them works in its own folder, and makes all in out/.

top=$(cd "$(dirname "${BASH_SOURCE[0]}")/.." && pwd)

# ---- programs

# Says that a test is not run, and ends it with 77, if one of these commands is not there.
needs() {
  local test=$1 name
  shift
  for name in "$@"; do
    command -v "$name" > /dev/null || { echo "not run: $test, since there is no $name" && exit 77; }
  done
}

# Builds what is timed in plain Rust, the Cargo package plain: out/plain, and out/target/release/embedded.
build_plain() {
  mkdir -p out
  RUSTFLAGS='-C target-cpu=x86-64-v2' cargo build --quiet --release --offline --locked \
    --manifest-path "$top/bench/plain/Cargo.toml" --target-dir out/target
  ln -sf target/release/plain out/plain
}

# A repository of its own in an empty folder: the program of the folder NAME as a crate, and the crates below it. Each
# module of the program is a file NAME/*.rt.in.
make_repository() {
  local room=$1 name=$2 crate file
  shift 2
  rm -rf "$room"
  mkdir -p "$room/.git" "$room/crates/$name/src"
  "$top/below" "$@" > "$room/crates.txt"
  for crate in $(sed 's/[ :].*//' "$room/crates.txt"); do
    mkdir "$room/crates/$crate"
    (cd "$top/crates/$crate" && cp -a src "$room/crates/$crate" && for file in specs proofs; do
      [ ! -d $file ] || cp -a $file "$room/crates/$crate"
    done)
  done
  for file in "$name"/*.rt.in; do
    cp "$file" "$room/crates/$name/src/$(basename "$file" .in)"
  done
  cp "$top/HANDLES" "$room"
  echo "$name: $*" >> "$room/crates.txt"
}

# Proves and builds the program of the folder NAME over these crates, as out/NAME, unless it was built of the same
# sources before. Its repository is in .git: rt ci reads every other folder, and takes no crates.txt below the top. What
# the gate proved on this machine is not proved again. What rt prints is in out/NAME.log.
build_program() {
  local name=$1 room sources
  room=$(git rev-parse --absolute-git-dir)/bench/$name
  sources=$("$top/release" --sources && sha256sum "$name"/*.rt.in && echo "$@")
  mkdir -p out
  if [ "$(cat "$room/sources" 2> /dev/null)" != "$sources" ]; then
    make_repository "$room" "$@"
    if ! (cd "$room" && rt ci) > "out/$name.log" 2>&1; then
      echo "$0: $name was not proved or not built; out/$name.log says why" >&2
      return 1
    fi
    echo "$sources" > "$room/sources"
  fi
  ln -sf "$room/crates/$name/out/$name" "out/$name"
}

# Proves and builds the program of the folder proved, out/proved, once for all scripts.
build_proved() {
  build_program proved laws item_core digest_core store_core range_tree io_core wire_core place_core \
    strategy_core strategy_check ends_core version_log atomic_table version_lock settings_core
}

# Builds both.
build_both() {
  build_plain
  build_proved
}

# Runs the proved program on these words in out/, from which it reads its files.
run_proved() {
  (cd out && ./proved "$@")
}

# ---- times

# Of what several runs of a program printed, lines `STEP TIME`: the least time of each step. A process may find that
# each large vector takes new pages, or that it gets those of the one before, so one run alone says little.
least() {
  awk '!($1 in time) { steps[++count] = $1 }
    !($1 in time) || $2 < time[$1] { time[$1] = $2 }
    END { for (i = 1; i <= count; i++) print steps[i], time[steps[i]] }'
}

# Runs a subcommand of the plain program, with these words, and that of the proved one, so many times in turn, each run
# in a process of its own, and leaves the least times in out/plain.times and out/proved.times.
in_turn() {
  local times=$1 name=$2
  shift 2
  rm -f out/plain.all out/proved.all
  for ((run = 0; run < times; run++)); do
    out/plain "$name" "$@" >> out/plain.all
    run_proved "$name" >> out/proved.all
  done
  least < out/plain.all > out/plain.times
  least < out/proved.all > out/proved.times
}

# Prints the steps of both files, under a heading of their column and as wide as this, and how many times the plain
# program's time the proved one takes.
side_by_side() {
  awk -v heading="${3:-step}" -v width="${4:-14}" '
    BEGIN { printf "%-*s %12s %12s %8s\n", width, heading, "plain (us)", "proved (us)", "ratio" }
    NR == FNR { plain[$1] = $2; next }
    $1 in plain {
      printf "%-*s %12.1f %12.1f %8.2f\n", width, $1, plain[$1], $2, $2 / (plain[$1] > 0 ? plain[$1] : 1)
    }' "$1" "$2"
}

# How often a command is run whose seconds are asked for: once before, and then as often as it is timed.
timed_runs=10
hyperfine_runs=0
if command -v hyperfine > /dev/null; then hyperfine_runs=$((1 + timed_runs)); fi

# The median seconds of a whole command, as hyperfine has them, or a dash where it is not installed. The words before
# the command are options of hyperfine.
seconds_of() {
  if [ "$hyperfine_runs" = 0 ]; then
    echo -
    return
  fi
  hyperfine --ignore-failure --warmup 1 --runs "$timed_runs" --command-name timed --export-csv out/seconds.csv "$@" \
    > out/hyperfine.log 2>&1
  awk -F , 'NR == 2 { printf "%.2f\n", $4 }' out/seconds.csv
}

# Says so where no whole command was timed.
note_untimed() {
  [ "$hyperfine_runs" != 0 ] || echo 'not timed: whole commands, since there is no hyperfine'
}
