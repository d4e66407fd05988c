# shellcheck shell=bash disable=SC2154
# What the two scripts of this folder do with a text and the report beside it. A script sets here, this folder, before it reads this file.

top=$(cd "$here/.." && pwd)
. "$top/scripts/program.sh"
made=$(mktemp -d)
trap 'rm -rf "$made"' EXIT

# Sets chosen, the command that is tried: the one given, else the proved program, else the unproved one.
choose_program() {
  if [ $# -gt 0 ]; then
    chosen=$1
  elif is_built; then
    chosen=$program
  else
    chosen="$top/quick"
    echo "examples: the proved program is not built, so the unproved one of ./quick is run" >&2
    "$chosen" < "$here/copy.mal" > /dev/null || exit 1
  fi
}

# Writes what the program writes of a text, with the words that stand in a file beside it, one a line, where there is one, and ends with
# its status. What it says on standard error is in $made/said.
write_report() {
  local words=()
  [ ! -e "$here/$1.words" ] || mapfile -t words < "$here/$1.words"
  "$chosen" "${words[@]}" < "$here/$1.mal" 2> "$made/said"
}

# The status that a report tells: that of its last line, or 2 for the line of a refusal.
status_told() {
  awk '{ last = $0 } END { if (last ~ /^STATUS [01]$/) print $2; else if (NR == 1 && last ~ /^malpas: E[0-9]+ at byte /) print 2 }' "$1"
}

# Says how the program's output or status differs from the stored report of a text; nothing where it does not.
compare() {
  local report="$here/$1.report" status
  [ -e "$report" ] || { echo "no report is stored beside it"; return; }
  write_report "$1" > "$made/report"
  status=$?
  cmp -s "$made/report" "$report" || { echo "the program writes another report: $(cmp "$made/report" "$report" 2>&1 | sed 's/.*differ: //')"; return; }
  [ "$status" = "$(status_told "$report")" ] || { echo "the program ends with status $status, and the report tells another"; return; }
  [ "$chosen" = "$top/quick" ] || [ ! -s "$made/said" ] || echo "the program wrote on standard error"
}
