// Which results of the search come first: tasks, then types and their calls, then the other languages, then the pages that stand,
// then words of clauses, and last what proofs need. A result is [page, title, anchor, what it is, score, file].
const WEIGHTS = { tasks: 45, reference: 35, languages: 20, words: 0, docs: 0, proofs: -20, "docs/work": -40 };
const OBJECT = 30;
const weightOf = (page) => Object.keys(WEIGHTS).filter((it) => page.startsWith(`${it}/`)).map((it) => WEIGHTS[it]).pop() || 0;
var Scorer = {
  score: ([page, title, anchor, what, score]) => score + weightOf(page) + (what && !page.startsWith("languages/") ? OBJECT : 0),
  objNameMatch: 40,
  objPartialMatch: 6,
  objPrio: { 0: 15, 1: 5, 2: -5 },
  objPrioDefault: 0,
  title: 15,
  partialTitle: 7,
  term: 5,
  partialTerm: 2,
};
