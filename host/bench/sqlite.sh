#!/bin/sh
# SQLite on the sizes that bench-recovery recovers: a database of 16 KiB pages with about 80 rows each, and a WAL that a
# killed writer left behind. Prints the best of five times, in seconds, for open, checkpoint and integrity_check, and then
# what was measured. Nothing is synced, as recovery in memory syncs nothing either, and the files lie in memory where the
# machine has a place for that.
# Use: sqlite.sh PAGES WAL_BYTES
set -eu
pages=$1
wal_bytes=$2

if ! command -v sqlite3 >/dev/null 2>&1; then
    { apt-get update && apt-get install -y --no-install-recommends sqlite3; } >&2 || {
        echo "sqlite3 is missing and could not be installed" >&2
        exit 2
    }
fi

if [ -d /dev/shm ] && [ -w /dev/shm ]; then parent=/dev/shm; else parent=${TMPDIR:-/tmp}; fi
dir=$(mktemp -d "$parent/lumbraquay-sqlite.XXXXXX")
writer=
cleanup() {
    [ -z "$writer" ] || kill -9 "$writer" 2>/dev/null || true
    rm -rf "$dir"
}
trap cleanup EXIT
trap 'exit 2' INT TERM

# The database: rows of which 80 fill a page, until it has that many pages.
rows=$((pages * 80))
sqlite3 "$dir/made" >/dev/null <<SQL
PRAGMA page_size = 16384;
PRAGMA journal_mode = WAL;
PRAGMA synchronous = OFF;
CREATE TABLE orders(id INTEGER PRIMARY KEY, payload BLOB);
WITH RECURSIVE n(i) AS (SELECT 1 UNION ALL SELECT i + 1 FROM n WHERE i < $rows)
    INSERT INTO orders SELECT i, randomblob(193) FROM n;
PRAGMA wal_checkpoint(TRUNCATE);
SQL
made=$(sqlite3 "$dir/made" "PRAGMA page_count")

# The log: one frame of 16,408 bytes for each update of one row, by a writer that is killed before it can close.
frames=$((wal_bytes / 16408))
mkfifo "$dir/words"
sqlite3 "$dir/made" <"$dir/words" >"$dir/told" &
writer=$!
exec 3>"$dir/words"
{
    echo "PRAGMA synchronous = OFF; PRAGMA wal_autocheckpoint = 0;"
    awk -v frames="$frames" -v rows="$rows" 'BEGIN {
        for (k = 0; k < frames; k++)
            printf "UPDATE orders SET payload = randomblob(193) WHERE id = %d;\n", 1 + (k * 7919 * 80) % rows
    }'
    echo ".print done"
} >&3
tries=0
until grep -q done "$dir/told"; do
    tries=$((tries + 1))
    [ "$tries" -lt 600 ] || { echo "the writer does not end" >&2; exit 2; }
    sleep 0.1
done
kill -9 "$writer"
wait "$writer" 2>/dev/null || true
writer=
exec 3>&-
left=$(wc -c <"$dir/made-wal")
[ "$left" -ge $((frames * 16408)) ] || { echo "the writer left a WAL of $left bytes" >&2; exit 2; }

best=
for run in 1 2 3 4 5; do
    rm -f "$dir/run" "$dir/run-wal" "$dir/run-shm"
    cp "$dir/made" "$dir/run"
    cp "$dir/made-wal" "$dir/run-wal"
    start=$(date +%s%N)
    answer=$(sqlite3 "$dir/run" "PRAGMA synchronous = OFF; PRAGMA wal_checkpoint(FULL); PRAGMA integrity_check;")
    end=$(date +%s%N)
    case $answer in
    "0|$frames|$frames
ok") ;;
    *)
        echo "run $run answered: $answer" >&2
        exit 2
        ;;
    esac
    took=$((end - start))
    if [ -z "$best" ] || [ "$took" -lt "$best" ]; then best=$took; fi
done
version=$(sqlite3 --version | cut -d ' ' -f 1)
awk -v ns="$best" 'BEGIN { printf "%.6f ", ns / 1e9 }'
echo "SQLite $version, $made pages of 16 KiB, WAL of $left bytes, in $parent"
