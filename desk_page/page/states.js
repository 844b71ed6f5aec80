// What stands of a document, in words and with a sign; nothing of it is told by colour alone.
import { whoIs } from './staff.js'

export const TREATMENTS = {
  Produce: 'Produce', Redact: 'Redact', 'Withhold-AC': 'Withhold AC', 'Withhold-WP': 'Withhold WP',
}
export const BASES = {
  AC: 'attorney-client', WP: 'work product', PI: 'personal information', TS: 'trade secret',
}

const SIGNS = { uncalled: '○', first: '◐', settled: '●' }

// How far the review of a document is: a document to be produced needs no second person.
export function progressOf(doc) {
  if (doc.editor === 0) return 'uncalled'
  return doc.treatment === 'Produce' || doc.confirmer !== 0 ? 'settled' : 'first'
}

export const signOf = (doc) => SIGNS[progressOf(doc)]

// What stands of a document without its boxes, fields and entry, as a desk tells it of many. A document that was told whole
// has no word of a production: it stands in the one that was told before, for good.
export function rowOf(doc, before) {
  const { parent, pages, responsive, treatment, designation, editor, confirmer } = doc
  return {
    doc: doc.doc, parent, pages, responsive, treatment, designation, editor, confirmer, boxes: doc.boxes.length, held: doc.held.length,
    entry: doc.entry !== null, production: before?.production ?? null,
  }
}

export const isSameRow = (a, b) => Object.keys(a).every((name) => a[name] === b[name])

// a few words for a row of the list
export function inShort(doc) {
  if (doc.editor === 0) return 'not called'
  const after = progressOf(doc) === 'first' ? ', to confirm' : doc.confirmer === 0 ? '' : ', confirmed'
  return TREATMENTS[doc.treatment] + after + (doc.responsive ? '' : ' · not responsive')
}

// a sentence for the head of the document
export function inFull(doc) {
  if (doc.editor === 0) return 'Not called yet.'
  const responsive = doc.responsive ? 'responsive' : 'not responsive'
  const called = `${TREATMENTS[doc.treatment]}, ${responsive}; last edited by ${whoIs(doc.editor)}`
  if (doc.confirmer !== 0) return `${called}, confirmed by ${whoIs(doc.confirmer)}.`
  return progressOf(doc) === 'first' ? `${called}, not confirmed.` : `${called}.`
}

const isPrivileged = (doc) =>
  doc.treatment.startsWith('Withhold') || [...doc.boxes, ...doc.held].some(({ basis }) => basis === 'AC' || basis === 'WP')

// what has to be done before a document is settled
export function lacksOf(doc) {
  if (doc.editor === 0) return ['a call']
  const lacks = []
  if (doc.treatment === 'Redact' && doc.boxes.length + doc.held.length === 0) lacks.push('a box or a held field')
  if (isPrivileged(doc) && doc.entry === null) lacks.push('a log entry')
  if (progressOf(doc) === 'first') lacks.push('a second person’s confirmation')
  return lacks
}
