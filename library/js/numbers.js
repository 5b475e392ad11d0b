// Numbers that the module's exports take, by name, and the length of the longest file.

const PARTS = { screen: 1, cursor: 2, saved: 4, colours: 8, wrap: 16 };
const CLEARED = 31;
const CLASSES = { takeOut: 1, crlf: 2, joinRows: 4, leastLines: 8, nameColours: 16, mixed: 32, ice: 64, record: 128 };
const LONGEST_FILE = 16777216;

export { CLASSES, CLEARED, LONGEST_FILE, PARTS };
