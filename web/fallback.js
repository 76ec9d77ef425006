// Shows a sentence in place of the page in a browser that can't run it, or can't even read its modules. Written so that
// any browser reads it.
function showFallback() {
  var others = document.querySelectorAll("main > .bench, main > details, .tabs");
  for (var k = 0; k < others.length; k++) others[k].setAttribute("hidden", "");
  document.getElementById("broken").removeAttribute("hidden");
}
if (!("noModule" in document.createElement("script"))) showFallback();
addEventListener("error", showFallback); // until page.mjs runs
