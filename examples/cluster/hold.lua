-- Holds a request of a server while the server's weight is 0, for 20 seconds at most. haproxy.cfg says which requests.
core.register_action("hold", { "http-req" }, function(_, name)
    local server = core.backends.served.servers[name]
    for _ = 1, 200 do
        if server:get_weight() ~= 0 then
            return
        end
        core.msleep(100)
    end
end, 1)
