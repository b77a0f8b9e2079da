// Opens the clauses that an address leads into, and all of them when a page is printed.
const openFolds = (folds) => folds.forEach((fold) => { fold.open = true; });
window.addEventListener("beforeprint", () => openFolds(document.querySelectorAll("details.clauses")));
// The buttons of a tree step by step: which picture each of them shows, of one with a number.
const LAST = 40;
const PLACES = { first: () => 0, back: (at) => at - 1, next: (at) => at + 1, split: () => 7, root: () => 28, last: () => LAST };
let at = 0;
const show = (steps, place) => {
  at = Math.max(0, Math.min(LAST, place));
  steps.querySelector("img").src = `steps/${String(at).padStart(2, "0")}.svg`;
  steps.querySelector("img").alt = `The tree after line ${at + 1}`;
  steps.querySelector("span").textContent = `${at + 1} of ${LAST + 1}`;
};
document.addEventListener("click", ({ target }) => {
  const steps = target.closest(".steps");
  if (steps && PLACES[target.name]) show(steps, PLACES[target.name](at));
});
