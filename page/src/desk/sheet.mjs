// Rows as spreadsheets write them: CSV with commas, semicolons or tabs, with quotes; in UTF-8, UTF-16 or the old Windows code page.

const QUOTE = '"', SEPARATORS = ["\t", ";", ","];

/** The text of a file's bytes. */
export function decoded(bytes) {
  if (bytes[0] === 0xff && bytes[1] === 0xfe) return new TextDecoder("utf-16le").decode(bytes);
  try {
    return new TextDecoder("utf-8", { fatal: true }).decode(bytes);
  } catch {
    return new TextDecoder("windows-1252").decode(bytes);
  }
}

/** What parts the fields: the sign that stands most often outside of quotes. */
export function separatorOf(text) {
  const plain = text.replace(/"[^"]*"/g, ""), count = s => plain.split(s).length;
  return SEPARATORS.reduce((best, s) => (count(s) > count(best) ? s : best));
}

/** The rows of a text; empty ones are left out. */
export function rowsOf(text, separator = separatorOf(text)) {
  const rows = [], body = text.replace(/^\ufeff/, "").replace(/\r\n?/g, "\n");
  let row = [], field = "", quoted = false;
  const end = () => {
    row.push(field.trim());
    field = "";
  };
  for (let i = 0; i < body.length; i++) {
    const c = body[i];
    if (quoted && c === QUOTE && body[i + 1] === QUOTE) field += body[++i];
    else if (c === QUOTE && (quoted || field.trim() === "")) quoted = !quoted;
    else if (!quoted && c === separator) end();
    else if (!quoted && c === "\n") rows.push((end(), row)), (row = []);
    else field += c;
  }
  end();
  return [...rows, row].filter(r => r.some(Boolean)).map(r => r.map(unguarded));
}

// A field that begins so would be a formula to a spreadsheet: it gets an apostrophe, and loses it on the way in.
const FORMULA = /^[=+\-@\t\r]/, GUARDED = /^'(?=[=+\-@\t\r])/;
const unguarded = field => field.replace(GUARDED, "");
const guarded = field => (FORMULA.test(field) ? `'${field}` : field);

/**
 * What parts the fields for spreadsheets of a language, or of the browser's: a semicolon where the comma is in numbers.
 * @param {string} [language]
 */
export function partingFor(language) {
  return new Intl.NumberFormat(language).formatToParts(1.5).some(p => p.type === "decimal" && p.value === ",") ? ";" : ",";
}

/** Rows as CSV that spreadsheets open: quotes where needed, and a mark that it is UTF-8. */
export function csvOf(rows, parting = partingFor()) {
  const field = value => {
    const word = guarded(String(value ?? ""));
    return /[",\n\r;]|^\s|\s$/.test(word) ? `"${word.replaceAll(QUOTE, '""')}"` : word;
  };
  return `\ufeff${rows.map(r => r.map(field).join(parting)).join("\r\n")}\r\n`;
}

// What a column's head may be called.
const HEADS = {
  name: /^(name|speaker|names?|sprecher|nom)$/i, role: /^(role|function|rolle|fonction|r\u00f4le)$/i, spelling: /^(spelling|spelled|written|schreibweise|orthographe)$/i,
  first: /^(first page|first|page of first|erste seite|premi\u00e8re page)$/i, page: /^(page|pages|p\.|seite)$/i, from: /^(set from|from|speaker|rests on)$/i, words: /^(words|text|first words)$/i,
};
const ORDER = ["name", "role", "spelling", "first"];

/** Which column is which: by their heads, or in the order of name, role, spelling, first page. */
function columnsOf(head) {
  const heads = head.map(h => h.trim()), known = Object.entries(HEADS).filter(([, re]) => heads.some(h => re.test(h)));
  const pages = heads.some(h => HEADS.page.test(h)), found = Object.fromEntries(known.map(([key, re]) => [key, heads.findIndex(h => re.test(h))]));
  if (!known.length) return { pages: false, headed: false, at: Object.fromEntries(ORDER.map((key, i) => [key, i])) };
  return { pages, headed: true, at: found };
}

/**
 * A sheet of names or of pages: its rows by what their columns are.
 * @returns {{pages: boolean, rows: {[column: string]: string}[]}}
 */
export function sheetOf(text) {
  const rows = rowsOf(text), { pages, headed, at } = rows.length ? columnsOf(rows[0]) : { pages: false, headed: false, at: {} };
  const read = row => Object.fromEntries(Object.entries(at).map(([key, i]) => [key, row[i] ?? ""]));
  return { pages, rows: rows.slice(headed ? 1 : 0).map(read).filter(r => (pages ? r.page : r.name || r.spelling)) };
}
