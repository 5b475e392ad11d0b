// Names of files as `anscheck table` shows them, so that none writes a control character, hides a part of itself, or
// turns the direction of the text around it.

const ESCAPES = { "\t": "\\t", "\n": "\\n", "\\": "\\\\" };

// Control characters, the backslash, and what turns the direction of writing or hides.
const NOT_SHOWN = /[\u0000-\u001f\\\u007f-\u009f\u061c\u200b-\u200f\u202a-\u202e\u2060-\u2069\ufeff]/g;

/** The bytes of a character in UTF-8, each as `\xHH`. */
function byteEscapes(character) {
  return Array.from(new TextEncoder().encode(character), (byte) => `\\x${byte.toString(16).padStart(2, "0")}`).join("");
}

/** A name as it is shown. The file that is saved keeps its own. */
const shownName = (name) => name.replace(NOT_SHOWN, (character) => ESCAPES[character] ?? byteEscapes(character));

export { shownName };
