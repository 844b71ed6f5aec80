// The privilege log as it will be, by docs/FORMATS.md (bp_freeze), of what the desks tell of each document: a preview, as the log itself
// is made at the freeze.
import { labelOf } from './labels.js'

export const LOG_COLUMNS = ['BEGLABEL', 'ENDLABEL', 'TREATMENT', 'BASIS', 'DATE', 'AUTHOR', 'RECIPIENTS', 'DESCRIPTION']
const PRIVILEGES = ['AC', 'WP']

// the privileges for which something of a document is held back; `doc` as the desk tells it
function claimsOf({ treatment, boxes, held }) {
  const bases = treatment.startsWith('Withhold') ? [treatment.slice(-2)] : [...boxes, ...held].map(({ basis }) => basis)
  return PRIVILEGES.filter((basis) => bases.includes(basis))
}

// The lines as lists of values. `docs` has each document of which something is held back, by its number.
export function logRows(production, docs) {
  return production.items.flatMap((item) => {
    const doc = docs.get(item.doc)
    const claims = doc === undefined ? [] : claimsOf(doc)
    if (claims.length === 0) return []
    const { date, author, recipients, description } = doc.entry ?? { date: '', author: '', recipients: '', description: '' }
    return [[labelOf(production, item.first), labelOf(production, item.last),
      item.treatment.startsWith('Withhold') ? 'Withheld' : 'Redacted', claims.join(';'), date, author, recipients, description]]
  })
}

const quoted = (value) => (/[",]/.test(value) ? `"${value.replaceAll('"', '""')}"` : value)

// the file, lines ended by a newline alone
export const logText = (rows) => [LOG_COLUMNS, ...rows].map((row) => `${row.map(quoted).join(',')}\n`).join('')
