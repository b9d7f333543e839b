#!/bin/sh
# Four requests by curl, each on a connection of its own. ada appends two rows to the table in the columns A to C, reads
# the table, and protects its first row. bo may not write into that row, and is refused. Start the server first, then run
# this in another terminal:
#
#     ./sheets serve --port 8080 --limit 4 --users examples/users.csv --journal book.journal
#     sh examples/serve.sh [URL]    # URL is http://127.0.0.1:8080 where it isn't given
#
# After the fourth connection the server prints three lines and ends.
set -eu
book=${1:-http://127.0.0.1:8080}/v4/spreadsheets/book1
status=0

# Prints what a request is answered with, and notes where its status isn't the one that is wanted.
ask() {
    user=$1 wanted=$2 && shift 2
    answer=$(curl -sS -H "Authorization: Bearer $user" -w '\n%{http_code}' "$@")
    printf '%s\n' "${answer%?[0-9][0-9][0-9]}"
    [ "${answer##*[!0-9]}" = "$wanted" ] || { echo "wanted: status $wanted" >&2 && status=1; }
}

protect='{"requests":[{"addProtectedRange":{"protectedRange":{"range":{"startRowIndex":0,"endRowIndex":1}}}}]}'
ask ada 200 "$book/values/A:C:append?valueInputOption=RAW" -d '{"values":[["Ada",1,12],["Bo",2,9]]}'
ask ada 200 "$book/values/A:C"
ask ada 200 "$book:batchUpdate" -d "$protect"
ask bo 403 "$book/values/A1?valueInputOption=RAW" -X PUT -d '{"values":[["Bo"]]}'
exit "$status"
