// An origin in Node: it says which answers are templates, and how long each may be kept.
//
//     node origin.js [PORT]     serves /, which greets by the hour, and fragments, on 127.0.0.1:9000 or at this port
"use strict";
const http = require("node:http");

const TEMPLATE = 'max-age=10+60, content="ESI/1.0"'; // fresh for 10 seconds, and used for 60 more if this origin fails
const FRAGMENT = "max-age=60+600"; // plain, and inserted unchanged

const PAGE = `<!doctype html>
<title>Example news</title>
<p><esi:include src="/fragments/greeting"/></p>
<p><esi:include src="/fragments/stock?of=lamps" onerror="continue"/></p>
<p>Your language: <esi:vars>$(HTTP_COOKIE{language}|en)</esi:vars></p>
`;

const ROUTES = {
  "/": () => [200, TEMPLATE, PAGE],
  "/fragments/greeting": () => [200, FRAGMENT, new Date().getHours() < 12 ? "Good morning." : "Good day."],
  // What may not be kept has no Surrogate-Control, and each page asks for it.
  "/fragments/stock": (query) => [200, null, `${Number(query.get("of") === "lamps") * 7} lamps in stock.`],
};

const server = http.createServer((request, response) => {
  const url = new URL(request.url, "http://origin.invalid");
  const route = ROUTES[url.pathname];
  const [status, control, body] = route ? route(url.searchParams) : [404, null, "There is no such page.\n"];
  response.statusCode = status;
  response.setHeader("Content-Type", "text/html; charset=utf-8");
  // With a length the edge can tell that a body is whole, and may keep it.
  response.setHeader("Content-Length", Buffer.byteLength(body));
  if (control) response.setHeader("Surrogate-Control", control);
  response.end(body);
});

// Longer than the 15 seconds for which the edge uses an idle connection (--origin-keep-alive).
server.keepAliveTimeout = 20000;
server.listen(Number(process.argv[2] || 9000), "127.0.0.1", () => {
  console.log(`origin on 127.0.0.1:${server.address().port}`);
});
