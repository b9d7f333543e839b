// Google's client for Go (Debian: golang-google-api-dev) with this server. What to set: option.WithEndpoint, and a
// token, which without a file of users is the user's name.
//
//	./sheets serve --port 8080 --limit 100
//	GO111MODULE=off GOPATH=/usr/share/gocode go run examples/clients/scores.go [URL]    # http://127.0.0.1:8080
package main

import (
	"context"
	"errors"
	"fmt"
	"os"

	"golang.org/x/oauth2"
	"google.golang.org/api/googleapi"
	"google.golang.org/api/option"
	"google.golang.org/api/sheets/v4"
)

// service has the calls of the API, made by the user of a token.
func service(base, token string) *sheets.Service {
	source := oauth2.StaticTokenSource(&oauth2.Token{AccessToken: token})
	made, err := sheets.NewService(context.Background(), option.WithEndpoint(base), option.WithTokenSource(source))
	check(err)
	return made
}

// check ends the program where a call failed.
func check(err error) {
	if err != nil {
		fmt.Fprintln(os.Stderr, err)
		os.Exit(1)
	}
}

// show prints what was answered, and ends the program where it isn't what is wanted.
func show(name string, got, wanted interface{}) {
	fmt.Printf("%s: %v\n", name, got)
	if fmt.Sprint(got) != fmt.Sprint(wanted) {
		fmt.Fprintln(os.Stderr, "wanted:", wanted)
		os.Exit(1)
	}
}

func main() {
	base := "http://127.0.0.1:8080"
	if len(os.Args) > 1 {
		base = os.Args[1]
	}
	ada, bo := service(base, "ada"), service(base, "bo")
	scores := &sheets.Spreadsheet{Properties: &sheets.SpreadsheetProperties{Title: "Scores"}}
	made, err := ada.Spreadsheets.Create(scores).Do()
	check(err)
	book := made.SpreadsheetId

	rows := &sheets.ValueRange{Values: [][]interface{}{{"Ada", 1, 12}, {"Bo", 2, "=C1-3"}}}
	written, err := ada.Spreadsheets.Values.Append(book, "Sheet1!A:C", rows).ValueInputOption("USER_ENTERED").Do()
	check(err)
	show("written", written.Updates.UpdatedRange, "Sheet1!A1:C2")

	read, err := ada.Spreadsheets.Values.Get(book, "Sheet1!A:C").Do()
	check(err)
	show("read", read.Values, "[[Ada 1 12] [Bo 2 9]]")

	header := &sheets.ProtectedRange{Range: &sheets.GridRange{SheetId: 0, EndRowIndex: 1}}
	protect := []*sheets.Request{{AddProtectedRange: &sheets.AddProtectedRangeRequest{ProtectedRange: header}}}
	batch, err := ada.Spreadsheets.BatchUpdate(book, &sheets.BatchUpdateSpreadsheetRequest{Requests: protect}).Do()
	check(err)
	show("protected range", batch.Replies[0].AddProtectedRange.ProtectedRange.ProtectedRangeId, 1)

	name := &sheets.ValueRange{Values: [][]interface{}{{"Bo"}}}
	_, err = bo.Spreadsheets.Values.Update(book, "Sheet1!A1", name).ValueInputOption("RAW").Do()
	var refused *googleapi.Error
	if !errors.As(err, &refused) {
		check(errors.New("bo is not refused"))
	}
	show("bo is refused", fmt.Sprint(refused.Code, " ", refused.Message), "403 Protected 1")
}
