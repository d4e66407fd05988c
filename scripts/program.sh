# shellcheck shell=bash disable=SC2154
# What the scripts know of the program: where it stands once it is built, which crates it is built from, and whether it is older than
# their sources. A script sets top, the folder of the repository, before it reads this file.

# The name under which a script is called says which program it is for: malpas, or the one that lists literals.
case ${0##*/} in
  *literals) own=malpas_literals unproved=./quick_literals ;;
  *) own=malpas unproved=./quick ;;
esac
program="$top/crates/$own/out/$own"

# The crates that the program stands on, by crates.txt, each after those that it stands on, the program's own last.
crates_of_program() {
  awk -v own="$own" '
    { sub(/#.*/, "") }
    /:/ { head = $0; sub(/:.*/, "", head); split(head, words, " "); deps = $0; sub(/[^:]*:/, "", deps); below[words[1]] = deps }
    function visit(name, list, n, k) {
      if (!(name in below) || name in seen) return
      seen[name]
      n = split(below[name], list, " ")
      for (k = 1; k <= n; k++) visit(list[k])
      print name
    }
    END { visit(own) }
  ' "$top/crates.txt"
}

# The folders of these crates that have any of the given names.
folders_of_program() {
  for crate in $(crates_of_program); do
    for part in "$@"; do
      [ ! -d "$top/crates/$crate/$part" ] || printf '%s\n' "$top/crates/$crate/$part"
    done
  done
}

# Whether the program is there and no older than the text that it is built from.
is_built() {
  local folders
  mapfile -t folders < <(folders_of_program src specs)
  [ -x "$program" ] && [ -z "$(find "$top/crates.txt" "${folders[@]}" -newer "$program" -type f -print -quit)" ]
}
