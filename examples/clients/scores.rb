#!/usr/bin/env ruby
# Google's client for Ruby (Debian: ruby-google-api-client) with this server. What to set: root_url, and a token, which
# without a file of users is the user's name.
#
#     ./sheets serve --port 8080 --limit 100
#     ruby examples/clients/scores.rb [URL]    # URL is http://127.0.0.1:8080 where it isn't given

require "google/apis/sheets_v4"

V4 = Google::Apis::SheetsV4

# The calls of the API, made by the user of a token.
def service(base, token)
  made = V4::SheetsService.new
  made.root_url = base + "/"
  made.authorization = token
  made
end

# Prints what was answered, and ends the program where it isn't what is wanted.
def show(name, got, wanted)
  puts "#{name}: #{got}"
  abort "wanted: #{wanted}" if got != wanted
end

base = ARGV.fetch(0, "http://127.0.0.1:8080")
ada = service(base, "ada")
bo = service(base, "bo")
title = V4::SpreadsheetProperties.new(title: "Scores")
book = ada.create_spreadsheet(V4::Spreadsheet.new(properties: title)).spreadsheet_id

rows = V4::ValueRange.new(values: [["Ada", 1, 12], ["Bo", 2, "=C1-3"]])
written = ada.append_spreadsheet_value(book, "Sheet1!A:C", rows, value_input_option: "USER_ENTERED")
show("written", written.updates.updated_range, "Sheet1!A1:C2")

show("read", ada.get_spreadsheet_values(book, "Sheet1!A:C").values, [["Ada", "1", "12"], ["Bo", "2", "9"]])

header = V4::ProtectedRange.new(range: V4::GridRange.new(sheet_id: 0, end_row_index: 1))
request = V4::Request.new(add_protected_range: V4::AddProtectedRangeRequest.new(protected_range: header))
batch = ada.batch_update_spreadsheet(book, V4::BatchUpdateSpreadsheetRequest.new(requests: [request]))
show("protected range", batch.replies[0].add_protected_range.protected_range.protected_range_id, 1)

refusal =
  begin
    bo.update_spreadsheet_value(book, "Sheet1!A1", V4::ValueRange.new(values: [["Bo"]]), value_input_option: "RAW")
    "none"
  rescue Google::Apis::ClientError => refused
    "#{refused.status_code} #{JSON.parse(refused.body)["error"]["message"]}"
  end
show("bo is refused", refusal, "403 Protected 1")
