-- Posts a form, for wrk: the argument after `--`.
function init(arguments)
    wrk.method, wrk.body = "POST", arguments[1]
    wrk.headers["Content-Type"] = "application/x-www-form-urlencoded"
end
