// Says in a sentence that no module can run here. Old browsers have to understand this file: it has
// no word that came later than 2009.
(function () {
  var lacks = typeof WebAssembly !== "object" ? "WebAssembly"
    : typeof BigInt !== "function" ? "BigInt"
    : typeof Worker !== "function" ? "workers" : "";
  window.cannotRun = function (why) {
    var told = document.getElementById("unable");
    told.textContent = "This browser cannot run the converter: " + why +
      " Use a newer browser, or the program pgn_tool.";
    told.removeAttribute("hidden");
    document.getElementById("main").setAttribute("hidden", "");
  };
  window.canRun = !lacks;
  if (lacks) {
    window.cannotRun("it has no " + lacks + ".");
  }
})();
