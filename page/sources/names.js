// ---------- Texts from elsewhere: what nobody sees in them, and what looks like something else ----------

// Characters that nobody sees, that turn the direction of what stands beside them, or that look like a blank, like an
// ASCII letter (of full width, mathematical).
const UNSEEN = new RegExp("[\\0-\\x08\\x0b-\\x1f\\x7f-\\xa0\\xad\\u061c\\u1680\\u180e\\u2000-\\u200b\\u200e\\u200f"
  + "\\u2028-\\u202f\\u205f-\\u206f\\u3000\\ufeff\\uff01-\\uff5e\\ufff9-\\ufffb\\u{1d400}-\\u{1d7ff}]", "u");
const FOREIGN = /[\p{Script=Cyrillic}\p{Script=Greek}\p{Script=Armenian}\p{Script=Cherokee}]/u;
// The parts of a text: every other one, from the second on, is the number of a character that is not shown as it is.
// Letters of another script are such in a word that has ASCII letters, too.
function seenParts(given) {
  const parts = [""];
  if (/^[\n -~]*$/.test(given)) return [given];
  for (const [word] of given.matchAll(/\p{L}+|\P{L}/gu)) {
    const isMixed = /[A-Za-z]/.test(word) && FOREIGN.test(word);
    for (const one of word) {
      if (UNSEEN.test(one) || (isMixed && FOREIGN.test(one))) parts.push(`\\u{${one.codePointAt(0).toString(16)}}`, "");
      else parts[parts.length - 1] += one;
    }
  }
  return parts;
}
// Names that differ, but in nothing that is seen at a glance: upper and lower case, accents, forms of a letter.
function alike(names) {
  const found = new Map(), keyOfName = name => name.normalize("NFKD").replace(/\p{M}/gu, "").toLowerCase();
  for (const name of names) found.set(keyOfName(name), [...found.get(keyOfName(name)) ?? [], name]);
  return [...found.values()].filter(group => group.length > 1);
}
