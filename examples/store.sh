#!/bin/sh
# Makes a store of the outline beside this script, in a folder that is gone afterwards, runs the script of statements on it
# twice, and makes the store once more; then one of the outline in JSON, with formulas, and a script of queries on it.
here=$(cd "$(dirname "$0")" && pwd) || exit 2
folder=$(mktemp -d) || exit 2
trap 'rm -rf "$folder"' EXIT
"$here/../aso" create "$folder/demo" "$here/year.outline"
echo "status $?"
"$here/../aso" run "$folder/demo" "$here/year.script"
echo "status $?"
"$here/../aso" run "$folder/demo" "$here/year.script"
echo "status $?"
"$here/../aso" create "$folder/demo" "$here/year.outline"
echo "status $?"
"$here/../aso" create "$folder/margins" "$here/basic.json"
echo "status $?"
"$here/../aso" run "$folder/margins" "$here/margin.script"
echo "status $?"
