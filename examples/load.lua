-- What wrk sends for examples/load.sh: requests for bids, each of an id of its own, and a bill for each ad that was sold.
local threads = {}

function setup(thread)
   table.insert(threads, thread)
   thread:set("number", #threads)
end

function init()
   bills = {}
   asked, sold, unsold, billed, other = 0, 0, 0, 0, 0
end

function request()
   local path = table.remove(bills)
   if path then
      return wrk.format("GET", path)
   end
   asked = asked + 1
   return wrk.format("POST", "/openrtb", nil, string.format('{"id":"%d-%d","imp":[{"id":"1"}]}', number, asked))
end

-- A sale is answered with a body, a bill and a request without a sale without one.
function response(status, headers, body)
   if status == 200 then
      sold = sold + 1
      for path in body:gmatch('"burl":"http://[^/]*([^"]*)"') do
         table.insert(bills, path)
      end
   elseif status == 204 then
      billed = billed + 1
   else
      other = other + 1
   end
end

function done(summary, latency, requests)
   local sums = { sold = 0, billed = 0, other = 0 }
   for _, thread in ipairs(threads) do
      for name, sum in pairs(sums) do
         sums[name] = sum + thread:get(name)
      end
   end
   io.write(string.format("calls     %d in %.1f seconds, %.0f a second\n", summary.requests, summary.duration / 1e6, summary.requests / summary.duration * 1e6))
   io.write(string.format("replies   %d sold, %d billed or not sold, %d others\n", sums.sold, sums.billed, sums.other))
   io.write(string.format("took      half of them below %.2f ms, 99 of a hundred below %.2f ms, the longest %.2f ms\n",
      latency:percentile(50) / 1000, latency:percentile(99) / 1000, latency.max / 1000))
   local errors = summary.errors
   io.write(string.format("sockets   %d errors\n", errors.connect + errors.read + errors.write + errors.timeout))
end
