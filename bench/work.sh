# Read by the scripts that measure: it makes the folder $work, which goes as the script ends.
work=$(mktemp -d)
trap 'rm -rf "$work"' EXIT
