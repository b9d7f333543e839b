-- A script of wrk: gets or puts (as MODE says) of one cell, each thread in a column of its own, rows 1 to 1,000
-- by turns. `setup` gives each thread its column, which is a global there.
local mode = os.getenv("MODE")
local threads, requests = 0, 0
local headers = { ["Authorization"] = "Bearer owner", ["Content-Type"] = "application/json" }

function setup(thread)
  thread:set("column", threads)
  threads = threads + 1
end

function request()
  requests = requests + 1
  local cell = string.char(65 + column % 26) .. (requests % 1000 + 1)
  local target = "/v4/spreadsheets/book1/values/Sheet1!" .. cell
  if mode == "put" then
    return wrk.format("PUT", target .. "?valueInputOption=RAW", headers, '{"values":[[' .. requests .. "]]}")
  end
  return wrk.format("GET", target, headers)
end

function done(summary)
  local failed = summary.errors
  local errors = failed.connect + failed.read + failed.write + failed.status + failed.timeout
  io.write(string.format("RATE %.0f %d\n", summary.requests / summary.duration * 1e6, errors))
end
