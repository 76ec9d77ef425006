// Keeps the page where it is served from, so that it opens without a network: each of its files as it came last. It
// fetches those alone, from where it came itself.
const KEPT = "mitsubadoor", FILES = ["./mitsubadoor.html", "./mitsubadoor.webmanifest"];
const plain = (url) => url.split(/[?#]/, 1)[0];
const isOwn = (url) => FILES.some((file) => new URL(file, location.href).href === plain(url));

async function keepAll() {
  const kept = await caches.open(KEPT);
  await kept.addAll(FILES);
}
// What the server has now; or what it had, where there is no answer.
async function answer(request) {
  const kept = await caches.open(KEPT), file = plain(request.url);
  try {
    const response = await fetch(request);
    if (response.ok) await kept.put(file, response.clone());
    return response;
  } catch (why) {
    const before = await kept.match(file);
    if (!before) throw why;
    return before;
  }
}
addEventListener("install", (event) => event.waitUntil(keepAll().then(() => skipWaiting())));
addEventListener("activate", (event) => event.waitUntil(clients.claim()));
addEventListener("fetch", (event) => {
  if (event.request.method === "GET" && isOwn(event.request.url)) event.respondWith(answer(event.request));
});
