// The words nearest to a word, and letters that cannot be printed, as Python's difflib and `repr` have them.

/** The longest run of letters that two texts share: its length and where it begins in each; the first of several. */
function longest(left, right) {
  let [best, before] = [[0, 0, 0], []];
  for (let i = 0; i < left.length; i++) {
    const here = Array.from(right, (letter, j) => letter === left[i] ? (j && before[j - 1] || 0) + 1 : 0), size = Math.max(0, ...here);
    if (size > best[0]) best = [size, i - size + 1, here.indexOf(size) - size + 1];
    before = here;
  }
  return best;
}

/** How many letters two texts share in order: those of the longest run, and those on both sides of it. */
function shared(left, right) {
  const [size, i, j] = longest(left, right);
  return size && size + shared(left.slice(0, i), right.slice(0, j)) + shared(left.slice(i + size), right.slice(j + size));
}

/** The words of a list that are nearest to a word, `most` at most. `least` is from 0 to 1, for equal words. */
export function nearest(word, list, most, least) {
  const found = list.map(each => [2 * shared(each, word) / (each.length + word.length), each]).filter(([ratio]) => ratio >= least);
  return found.sort(([ratio, one], [other, two]) => other - ratio || (one < two ? 1 : -1)).slice(0, most).map(([, each]) => each);
}

/** A letter, or how Python writes it where it cannot be printed. */
export function printable(letter) {
  if (letter === " " || /[^\p{C}\p{Z}]/u.test(letter)) return letter;
  const known = { "\t": "\\t", "\n": "\\n", "\r": "\\r" }[letter], code = letter.codePointAt(0), digits = code < 0x100 ? 2 : code < 0x10000 ? 4 : 8;
  return known ?? `\\${{ 2: "x", 4: "u", 8: "U" }[digits]}${code.toString(16).padStart(digits, "0")}`;
}
