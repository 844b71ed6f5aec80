// What the list may show: a filter takes a document by what stands of it, and by who works at this window.
import { progressOf } from './states.js'

const isCalled = (treatment) => (row) => row.editor !== 0 && row.treatment.startsWith(treatment)

// name, how the choice shows it, whether it takes a document
export const FILTERS = [
  ['all', 'all', () => true],
  ['uncalled', 'not called', (row) => row.editor === 0],
  ['first', 'to confirm', (row) => progressOf(row) === 'first'],
  ['settled', 'settled', (row) => progressOf(row) === 'settled'],
  ['mine', 'by me', (row, { me }) => me !== null && (row.editor === me || row.confirmer === me)],
  ['produce', 'called Produce', isCalled('Produce')],
  ['redacted', 'called Redact', isCalled('Redact')],
  ['withheld', 'withheld', isCalled('Withhold')],
  ['unresponsive', 'not responsive', (row) => row.editor !== 0 && !row.responsive],
  ['produced', 'produced', (row) => row.production !== null],
  ['marked', 'marked', (row, { marked }) => marked.has(row.doc)],
]

const TAKES = new Map(FILTERS.map(([name, , takes]) => [name, takes]))

export const isFilter = (name) => TAKES.has(name)
export const takes = (name, row, around) => row !== undefined && TAKES.get(name)(row, around)

// how many of the rows each filter takes
export function countsOf(rows, around) {
  const counts = new Map(FILTERS.map(([name]) => [name, 0]))
  for (const row of rows) {
    for (const [name, , takesIt] of FILTERS) if (takesIt(row, around)) counts.set(name, counts.get(name) + 1)
  }
  return counts
}
