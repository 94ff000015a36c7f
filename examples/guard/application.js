// node examples/guard/application.js SOCKET   serves an application at a Unix socket, which only nginx can reach
const fs = require("fs");
const http = require("http");

const OURS = "x-application-";

// Takes the secret out of a request, since a page may show all fields. This application needs none: its socket is for nginx only.
function hideSecret(request) {
  delete request.headers[OURS + "secret"];
  request.rawHeaders.forEach((text, place, all) => {
    if (place % 2 === 0 && text.toLowerCase() === OURS + "secret") all[place + 1] = "";
  });
}

function decoded(field) {
  return (field || "").split(",").filter(Boolean).map(decodeURIComponent);
}

const server = http.createServer((request, response) => {
  hideSecret(request);
  let bytes = 0;
  request.on("data", (piece) => (bytes += piece.length));
  request.on("end", () => {
    const [caller = ""] = decoded(request.headers[OURS + "caller"]);
    const roles = decoded(request.headers[OURS + "roles"]).join("+");
    const path = decodeURIComponent(request.url.split("?")[0]);
    const ours = Object.keys(request.headers).filter((name) => name.startsWith(OURS));
    const fields = ours.map((name) => name.slice(OURS.length)).sort().join("+");
    const text = `${request.method} ${path} caller=${caller} roles=${roles} bytes=${bytes}`;
    response.setHeader("Content-Type", "text/plain; charset=utf-8");
    response.end(`${text} fields=${fields}\n`);
  });
});

// The user of the workers of nginx needs write access: here it is in the group of the socket.
server.listen(process.argv[2], () => fs.chmodSync(process.argv[2], 0o660));
