"use strict";
// Shows the sections that have a name with the word that is typed, or that stands in the address after #filter=.
(() => {
  const form = document.getElementById("filter");
  const word = document.getElementById("word");
  const shown = document.getElementById("shown");
  // Capitals and accents do not count.
  const plain = (text) => text.normalize("NFD").replace(/\p{M}/gu, "").toLowerCase();
  const sections = [...document.querySelectorAll(".pair")].map((section) => ({
    section,
    names: [...section.querySelectorAll("bdi")].map((name) => plain(name.textContent)),
  }));
  const show = () => {
    const wanted = plain(word.value.trim());
    for (const { section, names } of sections) section.hidden = !names.some((name) => name.includes(wanted));
    const left = sections.filter(({ section }) => !section.hidden).length;
    shown.hidden = wanted === "";
    shown.textContent = `${left} of ${sections.length} shown: those with a name that has “${word.value.trim()}”.`;
  };
  const follow = () => {
    const at = /^#filter=(.*)$/.exec(location.hash);
    if (at) word.value = decodeURIComponent(at[1]);
    show();
  };
  form.hidden = false;
  form.addEventListener("submit", (event) => event.preventDefault());
  word.addEventListener("input", show);
  window.addEventListener("hashchange", follow);
  follow();
})();
