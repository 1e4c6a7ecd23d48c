(function () {
  "use strict";
  var root = document.documentElement;
  function each(selector, act) { Array.prototype.forEach.call(document.querySelectorAll(selector), act); }
  function light(who, on) {
    each(".who", function (chip) { if (chip.title === who) { chip.classList.toggle("lit", on); } });
  }
  each(".who", function (chip) {
    chip.addEventListener("mouseenter", function () { light(chip.title, true); });
    chip.addEventListener("mouseleave", function () { light(chip.title, false); });
  });
  document.getElementById("theme").addEventListener("click", function () {
    var dark = root.dataset.theme ? root.dataset.theme === "dark" : matchMedia("(prefers-color-scheme: dark)").matches;
    root.dataset.theme = dark ? "light" : "dark";
  });
  document.getElementById("all").addEventListener("click", function () {
    var closed = document.querySelector("details.tx:not([open])") !== null;
    each("details.tx", function (tx) { tx.open = closed; });
  });
  each(".map a", function (link) {
    link.addEventListener("click", function () {
      var card = document.getElementById(link.hash.slice(1));
      if (card) { card.open = true; }
    });
  });
})();
