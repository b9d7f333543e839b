#!/bin/sh
# The same requests by curl. What to set: the address, and the token in the field Authorization, which without a file of
# users is the user's name.
#
#     ./sheets serve --port 8080 --limit 100
#     sh examples/clients/scores.sh [URL]    # URL is http://127.0.0.1:8080 where it isn't given
set -eu
sheets=${1:-http://127.0.0.1:8080}/v4/spreadsheets

# Prints the body that a user's request is answered with.
ask() { user=$1 && shift && curl -sS -H "Authorization: Bearer $user" "$@"; }

# Prints an answer, and ends the script where it isn't the one that is wanted.
show() {
    printf '%s\n' "$1"
    [ "$1" = "$2" ] || { printf 'wanted:\n%s\n' "$2" >&2 && exit 1; }
}

book=$(ask ada "$sheets" -d '{"properties":{"title":"Scores"}}' | sed -E 's/.*"spreadsheetId":"([^"]*)".*/\1/')

written=$(ask ada "$sheets/$book/values/Sheet1!A:C:append?valueInputOption=USER_ENTERED" -d '{"values":[["Ada",1,12],["Bo",2,"=C1-3"]]}')
show "$written" '{"spreadsheetId":"'"$book"'","updates":{"spreadsheetId":"'"$book"'","updatedCells":6,"updatedColumns":3,"updatedRange":"Sheet1!A1:C2","updatedRows":2}}'

values=$(ask ada "$sheets/$book/values/Sheet1!A:C")
show "$values" '{"majorDimension":"ROWS","range":"Sheet1!A1:C1000","values":[["Ada","1","12"],["Bo","2","9"]]}'

protected=$(ask ada "$sheets/$book:batchUpdate" -d '{"requests":[{"addProtectedRange":{"protectedRange":{"range":{"endRowIndex":1}}}}]}')
show "$protected" '{"replies":[{"addProtectedRange":{"protectedRange":{"editors":{"users":[]},"protectedRangeId":1,"range":{"endRowIndex":1,"sheetId":0,"startRowIndex":0},"requestingUserCanEdit":true}}}],"spreadsheetId":"'"$book"'"}'

refused=$(ask bo "$sheets/$book/values/Sheet1!A1?valueInputOption=RAW" -X PUT -d '{"values":[["Bo"]]}')
show "$refused" '{"error":{"code":403,"message":"Protected 1","status":"PERMISSION_DENIED"}}'
