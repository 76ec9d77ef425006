// Where the page is served, and not opened from disk, it can be installed, and then opens without a network: its
// manifest and what keeps it stand beside it. Nothing else is fetched.
import { made } from "./dom.mjs";

const OWN_HOSTS = ["localhost", "127.0.0.1", "[::1]"];
const isServed = () => location.protocol === "https:" || OWN_HOSTS.includes(location.hostname);
export async function makeInstallable() {
  if (!isServed() || !("serviceWorker" in navigator)) return;
  document.head.append(made("link", { rel: "manifest", href: "mitsubadoor.webmanifest" }));
  // where what keeps it isn't served, the page is as it is from disk
  await navigator.serviceWorker.register("offline.js").catch(() => null);
}
