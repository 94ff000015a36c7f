-- Repeats logins, for wrk with as many threads as connections: requests a protected page, posts the form, requests the page again, and ends the session.
-- The form is the argument after `--`. At the end it prints the number of wrong answers.
local FORM = { ["Content-Type"] = "application/x-www-form-urlencoded" }
local threads = {}
local steps, step, cookie

function setup(thread)
    table.insert(threads, thread)
end

function init(arguments)
    wrong, step = 0, 1
    steps = {
        { method = "GET", path = "/secret/page.html", status = 200, body = "login" },
        { method = "POST", path = "/j_security_check", status = 303, form = arguments[1] },
        { method = "GET", path = "/secret/page.html", status = 200, body = "secret" },
        { method = "GET", path = "/bye", status = 200 },
    }
end

function request()
    local it = steps[step]
    local fields = { Host = wrk.headers["Host"], Cookie = cookie }
    for name, value in pairs(it.form and FORM or {}) do
        fields[name] = value
    end
    return wrk.format(it.method, it.path, fields, it.form)
end

function response(status, fields, body)
    local it = steps[step]
    if status ~= it.status or not body:find(it.body or "", 1, true) then
        wrong, step, cookie = wrong + 1, 1, nil
        return
    end
    for name, value in pairs(fields) do
        cookie = name:lower() == "set-cookie" and value:match("^[^;]*") or cookie
    end
    step = step % #steps + 1
    if step == 1 then
        cookie = nil
    end
end

function done()
    local sum = 0
    for _, thread in ipairs(threads) do
        sum = sum + thread:get("wrong")
    end
    print("wrong answers: " .. sum)
end
