// Phrases that are looked for: the words of a line, each a term as the desks take it (docs/FORMATS.md, bp_looks).
import { NotNow } from './review.js'

const MOST_TERMS = 8
const MOST_BYTES = 200
const COMMENT = /^(--|;)/

// `where` names what has the text, for what is said of a phrase that no desk would take
export function phraseOf(text, where = 'The phrase') {
  const terms = text.split(/\s+/).filter((term) => term !== '')
  if (terms.length > MOST_TERMS) throw new NotNow(`${where} has more than ${MOST_TERMS} words: ${text}`)
  if (terms.some((term) => new TextEncoder().encode(term).length > MOST_BYTES)) {
    throw new NotNow(`${where} has a word of more than ${MOST_BYTES} bytes.`)
  }
  return { text: terms.join(' '), terms }
}

// several in one field, with `;` between them
export function phrasesIn(text) {
  const phrases = text.split(';').map((part) => phraseOf(part)).filter(({ terms }) => terms.length > 0)
  if (phrases.length === 0) throw new NotNow('Type what to look for first.')
  return phrases
}

// those of a file: one a line, and lines of comment that begin with `--` or `;`
export function phrasesOfFile(name, text) {
  const lines = text.replace(/^\ufeff/, '').split(/\r\n|\r|\n/)
  const found = lines.map((line, k) => ({ line: line.trim(), where: `${name}, line ${k + 1}` }))
  return found.filter(({ line }) => line !== '' && !COMMENT.test(line)).map(({ line, where }) => phraseOf(line, where))
}
