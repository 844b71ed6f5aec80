// Screens: lists of phrases that an office keeps as files beside the page, and the documents of a range that one hits while they
// are going out as they stand: called Produce, or Redact without a box on the hit, or not called yet.
import { grouped } from './grouped.js'
import { hitsInRange } from './hits.js'
import { phrasesOfFile } from './phrases.js'
import { statesInRange } from './range_states.js'
import { NotNow } from './review.js'
import { isCovered, wordsOfHit } from './term_boxes.js'
import { walk } from './walk.js'

const FILE = /^[a-z0-9_-]+\.txt$/
const MOST = 200000 // hits

async function textOf(file) {
  const answer = await fetch(`screens/${file}`, { cache: 'no-store', credentials: 'same-origin' })
  if (!answer.ok) throw new NotNow(`The file screens/${file} can’t be had (${answer.status}). Tell the one who looks after the page.`)
  return answer.text()
}

// { name, phrases } of each screen; the file list.txt names them, as no folder can be listed
export async function readScreens() {
  const files = phrasesOfFile('screens/list.txt', await textOf('list.txt')).map(({ text }) => text)
  const screens = []
  for (const file of files) {
    if (!FILE.test(file)) throw new NotNow(`screens/list.txt names ${file}: a screen is a file NAME.txt of small letters, digits, - and _.`)
    screens.push({ name: file.slice(0, -4), phrases: phrasesOfFile(`screens/${file}`, await textOf(file)) })
  }
  return screens
}

// How a document is called, as far as a screen looks at it; null where nothing of its pages goes out.
function calledOf({ editor, treatment }) {
  if (editor === 0) return 'not called'
  return treatment.startsWith('Withhold') ? null : treatment
}

export class RangeCheck {
  constructor(review, far) {
    Object.assign(this, { review, far })
  }

  // The answer is { rows, hits, withheld, covered }, or null where it was stopped. A row is of a document, a page or a field, and
  // a phrase, with how many hits it has there.
  async check(screens, range) {
    const phrases = screens.flatMap(({ name, phrases: own }) => own.map((phrase) => ({ ...phrase, screen: name })))
    const { hits, isStopped } = await hitsInRange(this.review.looks, phrases, range, MOST, (k) =>
      this.far(`Looked for ${k.toLocaleString('en')} of ${phrases.length.toLocaleString('en')} phrases.`))
    if (isStopped) return null
    const states = await statesInRange(this.review, range, this.far)
    if (states === null) return null
    const byDocument = grouped(hits, ({ doc }) => doc)
    const docs = [...byDocument.keys()].sort((a, b) => a - b)
    const found = { rows: [], hits: hits.length, withheld: 0, covered: 0 }
    const { done } = await walk(docs.length, (k) => this.addDocument(states.get(docs[k]), byDocument.get(docs[k]), found), (k) =>
      this.far(`Looked at ${k.toLocaleString('en')} of ${docs.length.toLocaleString('en')} documents that are hit.`))
    return done < docs.length ? null : found
  }

  async addDocument(state, hits, found) {
    const called = calledOf(state)
    if (called === null) {
      found.withheld += 1
      return
    }
    const open = called === 'Redact' ? await this.uncovered(state.doc, hits) : hits
    if (open.length === 0) found.covered += 1
    found.rows.push(...rowsOf(open, { called, ...state }))
  }

  // the hits of a redacted document that stand beside its boxes, and those in fields that aren't held back
  async uncovered(number, hits) {
    const doc = await this.review.lookAt(number, true)
    const open = []
    for (const hit of hits) {
      const isGone = hit.page === 0 ? doc.held.some(({ field }) => field === hit.field)
        : isCovered(wordsOfHit(await this.wordsOf(number, hit.page), hit), doc.boxes.filter(({ page }) => page === hit.page))
      if (!isGone) open.push(hit)
    }
    return open
  }

  // of one page at a time
  async wordsOf(doc, page) {
    if (this.read?.doc !== doc || this.read.page !== page) {
      this.read = { doc, page, words: await this.review.readWords(doc, page, true) }
    }
    return this.read.words
  }
}

// a row for each page or field and phrase, in their order
function rowsOf(hits, { called, responsive, production }) {
  const alike = [...grouped(hits, ({ page, field, phrase }) => `${page} ${field} ${phrase.screen} ${phrase.text}`).values()]
  return alike
    .map((own) => ({ ...own[0], called, responsive, production, count: own.length }))
    .sort((a, b) => a.page - b.page || a.field - b.field)
}

// the list as a text: a line each, with tabs between
export function listAsText({ from, to }, screens, rows, nameOfField) {
  const lines = rows.map(({ doc, page, field, phrase, called, responsive, production, count }) => [
    doc, page === 0 ? '' : page, field === 0 ? '' : nameOfField(field), called,
    called === 'not called' ? '' : responsive ? 'yes' : 'no', production ?? '', phrase.text, count, phrase.screen,
  ].join('\t'))
  const head = ['document', 'page', 'field', 'called', 'responsive', 'production', 'phrase', 'hits', 'screen'].join('\t')
  return [`Documents ${from} to ${to}, screens ${screens.map(({ name }) => name).join(', ')}`, head, ...lines, ''].join('\n')
}
