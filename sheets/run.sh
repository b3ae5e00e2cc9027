#!/bin/sh
# Runs the worksheet, which `rt run` has built, on a sheet: run.sh SHEET [table|picture]. Exit status: 0 where the sheet was read to its end, 1 where it stopped, 2 where there is no sheet.
here=$(cd "$(dirname "$0")" && pwd)
[ -f "$1" ] || { echo "usage: run.sh SHEET [table|picture]" >&2; exit 2; }
sheet=$1
shift
answer=$(mktemp) || exit 2
trap 'rm -f "$answer"' EXIT
"$here/../crates/worksheet/out/worksheet" "$@" < "$sheet" > "$answer"
cat "$answer"
case $(tail -n 1 "$answer") in
done | "<!-- done -->") exit 0 ;;
*) exit 1 ;;
esac
