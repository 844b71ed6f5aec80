// What the desk tells of a document, beside what it told before: whether it is the same, and in words what is not.
import { whoIs } from './staff.js'
import { inFull } from './states.js'

const PARTS = [
  ['call', ['responsive', 'treatment', 'designation', 'editor']],
  ['boxes', ['boxes']],
  ['held fields', ['held']],
  ['log entry', ['entry']],
  ['confirmation', ['confirmer']],
]
const CALL = ['responsive', 'treatment', 'designation']

const text = (doc, names) => JSON.stringify(names.map((name) => doc[name]))
const differ = (before, now, names) => text(before, names) !== text(now, names)

export const isAlike = (before, now) => PARTS.every(([, names]) => !differ(before, now, names))

// who it was, as far as the desk tells: it knows the last one alone, and of an uncalled document nobody
function whoOf(before, now) {
  const isConfirmed = now.confirmer !== 0 && now.confirmer !== before.confirmer
  if (isConfirmed && !differ(before, now, ['boxes', 'held', 'entry', ...CALL])) return `by ${whoIs(now.confirmer)}`
  if (now.editor !== 0) return `last by ${whoIs(now.editor)}`
  return before.editor === 0 ? 'by somebody' : 'by somebody who sent it back'
}

// `Document 3 was changed since you looked, last by Ellis (call): ..`
export function changeInWords(before, now) {
  const parts = PARTS.filter(([, names]) => differ(before, now, names)).map(([name]) => name).join(', ')
  return `Document ${now.doc} was changed since you looked, ${whoOf(before, now)} (${parts}). Now: ${inFull(now)}`
}
