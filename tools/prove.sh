# shellcheck shell=bash
# Read by ./mapcheck, ./sheetgraph and ./install: proves and builds what they run or copy, and says what that is made from.
# They have root, the folder of the repository, and the functions of tools/command.sh.
: "${root:?}"

# How long the proof of the crates that $1 uses takes, as measured.
proof_time() {
  case $1 in
  sheetgraph) echo '3 to 6 minutes on two cores' ;;
  *) echo '8 to 15 minutes on two cores' ;;
  esac
}

# Crate $1 and the crates that it uses, the uppermost first. In crates.txt a crate stands behind those that it uses.
crates_of() {
  tac "$root/crates.txt" | awk -F: -v top="$1" '
    !/^#/ { sub(/ .*/, "", $1) }
    !/^#/ && ($1 == top || $1 in used) { print $1; n = split($2, names, " "); for (k = 1; k <= n; k++) used[names[k]] }'
}

# Some file of crate $1, or of a crate that it uses, is newer than file $2, or was added or removed since: then its folder is newer.
changed_since() {
  local crate files=("$root/crates.txt")
  for crate in $(crates_of "$1"); do
    files+=("$root/crates/$crate"/{src,specs,proofs})
  done
  [ -n "$(find "${files[@]}" -newer "$2" -print -quit 2>/dev/null)" ]
}

# Reads what rt says and shows which of $1 crates it has proved last: on a terminal in one line, elsewhere in a line for every tenth. Of a crate that
# was proved in another copy of the repository on this machine rt says nothing.
show_progress() {
  local line crate='' at=0
  while IFS= read -r line; do
    [[ $line != 'crate '*': modules '* ]] || { crate=${line#crate } && crate=${crate%%:*}; }
    [[ $line == logic=proved* ]] || continue
    at=$((at + 1))
    if [ -t 2 ]; then
      printf '\r\033[Kcrate %d of %d proved: %s' "$at" "$1" "$crate" >&2
    elif [ $((at % 10)) -eq 0 ]; then
      say "crate $at of $1 proved: $crate"
    fi
  done
  [ ! -t 2 ] || printf '\r\033[K' >&2
}

# Says $4, then proves crate $2 with those that it uses and builds the file $3, by `rt $1` in the crate's folder: `rt lib` for a library, and for a program
# `rt run`, which also runs it, on an empty input. What rt says is kept in a log. Two that are started at the same time prove one after the other.
prove() {
  local log=$root/target/prove.log lock=$root/target/prove.lock said
  command -v rt >/dev/null || stop 'rt, the Rattle toolchain, is not on the PATH'
  said=$({ mkdir -p "$root/target" && : >"$lock"; } 2>&1) || stop "$lock: ${said##*: }"
  say "$4"
  (
    flock 9 2>/dev/null
    cd "$root/crates/$2" && rt "$1" 2>&1 </dev/null 9>&- | tee "$log" 2>/dev/null | show_progress "$(crates_of "$2" | wc -l)"
  ) 9>"$lock" || {
    said=$(sed -n -e 's/^rt: the library \([^ ]*\) did not build.*/crate \1 is not proved/p' -e "s/^logic=not-proved.*/crate $2 is not proved/p" "$log" | tail -n 1)
    stop "${said:-rt failed}; what rt said is in $log"
  }
  [ -e "$3" ] || stop "rt built no $3; remove ${3%/*} and try again"
}

# Proves crate $1 and builds its program $2 on first use, and again where a crate has changed since. Its time is then that at which the proof began.
build_where_due() {
  local due began
  if [ ! -x "$2" ]; then
    due="first use: proving $(crates_of "$1" | wc -l) crates and building the program, which takes $(proof_time "$1")"
  elif changed_since "$1" "$2"; then
    due="sources have changed: proving those of $(crates_of "$1" | wc -l) crates that depend on them, which takes at most $(proof_time "$1")"
  else
    return
  fi
  began=$(date +%s.%N)
  prove run "$1" "$2" "$due"
  touch -d "@$began" "$2"
  say 'the program is proved and built'
}

# Runs git on the repository, also where the caller, such as a hook, has named another one.
git_here() (
  unset GIT_DIR GIT_WORK_TREE GIT_INDEX_FILE
  git -C "$root" "$@" 2>/dev/null
)

# The commit, whether what ./install copies and its sources are as committed, and the toolchain. A repository that only has root in a folder is not ours.
version_text() {
  local prefix commit changes tree toolchain
  if prefix=$(git_here rev-parse --show-prefix) && [ -z "$prefix" ] && commit=$(git_here rev-parse HEAD) &&
    changes=$(git_here status --porcelain -- crates.txt crates mapcheck sheetgraph tools/command.sh include docs examples); then
    [ -z "$changes" ] && tree='as committed' || tree='with changes'
  else
    commit=unknown tree=unknown
  fi
  toolchain=$(rt version 2>/dev/null) || toolchain=unknown
  printf 'Healdrip\ncommit: %s\ntree: %s\ntoolchain: %s\n' "$commit" "$tree" "$toolchain"
}
