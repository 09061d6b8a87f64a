// Keeps the page for when there is no network: what was loaded is taken from the network while it is there, and else from here.
const CACHE = "m2";
const LIST = "../m2/list.json";

async function keepAll() {
  const cache = await caches.open(CACHE);
  const { offline } = await (await fetch(LIST, { cache: "no-cache" })).json();
  await cache.addAll([LIST, ...offline.map((path) => `../${path}`)].map((path) => new Request(path, { cache: "no-cache" })));
}

async function answerTo(request) {
  try {
    const answer = await fetch(request);
    if (answer.ok) {
      const copy = answer.clone();
      caches.open(CACHE).then((cache) => cache.put(request, copy)).catch(() => {});
    }
    return answer;
  } catch (error) {
    const kept = (await caches.match(request, { ignoreSearch: true })) ?? (request.mode === "navigate" ? await caches.match("index.html") : undefined);
    if (kept === undefined) {
      throw error;
    }
    return kept;
  }
}

self.addEventListener("install", (event) => event.waitUntil(keepAll().then(() => self.skipWaiting())));
self.addEventListener("activate", (event) => event.waitUntil(self.clients.claim()));
self.addEventListener("fetch", (event) => {
  if (event.request.method === "GET") {
    event.respondWith(answerTo(event.request));
  }
});
