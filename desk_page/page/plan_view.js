// A plan on the screen: what goes out, what is held back and on which ground, the held fields, the privilege log as it will be.
import { button, made } from './elements.js'
import { labelOf, spanOf } from './labels.js'
import { isWithheld } from './plan.js'
import { Pieces } from './pieces.js'
import { LOG_COLUMNS, logText } from './privilege_log.js'
import { download } from './saving.js'
import { BASES, TREATMENTS } from './states.js'

export const counted = (count, one, many = `${one}s`) => (count === 1 ? `1 ${one}` : `${count.toLocaleString('en')} ${many}`)

// `AC 1, PI 2`: how often each basis occurs
function byBasis(bases) {
  const told = Object.keys(BASES).map((basis) => [basis, bases.filter((it) => it === basis).length])
  return told.filter(([, count]) => count > 0).map(([basis, count]) => `${basis} ${count.toLocaleString('en')}`).join(', ')
}

const labelsOf = (items) => items.reduce((sum, { first, last }) => sum + last - first + 1, 0)

function leftOutInWords(rows) {
  const gone = rows.filter(({ production }) => production !== null)
  const apart = rows.length - gone.length
  const parts = [...(gone.length === 0 ? [] : [`${counted(gone.length, 'document')} produced before`]),
    ...(apart === 0 ? [] : [`${counted(apart, 'document')} of families without a responsive one`])]
  return parts.length === 0 ? [] : [`Left out: ${parts.join(', ')}.`]
}

// what goes out, in a few lines
export function summaryOf(plan) {
  const { production, docs } = plan
  const items = (treatment) => production.items.filter((item) => item.treatment.startsWith(treatment))
  const [whole, redacted, withheld] = ['Produce', 'Redact', 'Withhold'].map(items)
  const boxes = redacted.flatMap(({ doc }) => docs.get(doc).boxes.map(({ basis }) => basis))
  const held = plan.heldFields().map(({ basis }) => basis)
  return [
    `${counted(production.items.length, 'document')}, ${counted(plan.count, 'page')}: ${spanOf(production, production)}.`,
    `Produced whole: ${counted(whole.length, 'document')}, ${counted(labelsOf(whole), 'page')}.`,
    `Redacted: ${counted(redacted.length, 'document')}, ${counted(labelsOf(redacted), 'page')}`
      + `${boxes.length === 0 ? '' : `; ${counted(boxes.length, 'box', 'boxes')} (${byBasis(boxes)})`}`
      + `${held.length === 0 ? '' : `; ${counted(held.length, 'held field')} (${byBasis(held)})`}.`,
    `Withheld: ${counted(withheld.length, 'document')}`
      + `${withheld.length === 0 ? '.' : ` (${byBasis(withheld.map(({ treatment }) => treatment.slice(-2)))}), a sheet in the place of each.`}`,
    ...leftOutInWords(plan.leftOut()),
  ]
}

// what is held back of a document that goes out
function heldInWords(plan, item) {
  if (isWithheld(item)) return 'all of it'
  const doc = plan.docs.get(item.doc)
  if (doc === undefined) return ''
  const fields = plan.heldOf(item).map(({ name, basis }) => `${name} (${basis})`)
  const boxes = doc.boxes.length === 0 ? [] : [`${counted(doc.boxes.length, 'box', 'boxes')} (${byBasis(doc.boxes.map(({ basis }) => basis))})`]
  return [...boxes, ...fields].join(', ')
}

class Listed {
  constructor(id, head, columns, row) {
    const rows = made('tbody')
    const table = made('table', { class: 'listed' }, made('thead', {}, made('tr', {}, ...columns.map((name) => made('th', {}, name)))), rows)
    this.head = made('summary')
    this.text = head
    this.block = made('details', { id }, this.head, table)
    this.pieces = new Pieces(rows, (it) => made('tr', {}, ...row(it).map((cell) => made('td', {}, cell))), table)
  }

  show(items) {
    this.head.textContent = `${this.text} (${items.length.toLocaleString('en')})`
    this.pieces.show(items)
  }
}

export class PlanView {
  // `look` opens the pages as they will go out, at a place
  constructor({ place, look, act }) {
    this.summary = made('ul', { id: 'plan_summary' })
    this.documents = new Listed('planned_documents', 'Documents',
      ['Document', 'Treatment', 'Labels', 'Designation', 'Held back'], (item) => this.document(item))
    this.held = new Listed('planned_held', 'Held fields',
      ['Document', 'Label', 'Field', 'Value that is held back', 'Basis', 'Load file'], (row) => this.field(row))
    this.log = new Listed('planned_log', 'Privilege log, a preview', LOG_COLUMNS, (row) => row)
    Object.assign(this, { look, act })
    const save = button('Save the preview as a file', { id: 'save_log' })
    save.addEventListener('click', act(() => this.saveLog()))
    this.log.block.append(save)
    place.append(made('h3', {}, 'What would go out'), this.summary, this.documents.block, this.held.block, this.log.block)
  }

  show(plan) {
    this.plan = plan
    this.summary.replaceChildren(...summaryOf(plan).map((line) => made('li', {}, line)))
    this.documents.show(plan.production.items)
    this.held.show(plan.heldFields())
    this.log.show(plan.logRows())
  }

  saveLog() {
    const name = `${this.plan.production.volume}-LOG-PREVIEW.CSV`
    download(name, new Blob([logText(this.plan.logRows())], { type: 'text/csv' }))
    return `The preview of the log is saved as ${name}.`
  }

  document(item) {
    const { production, states } = this.plan
    const labels = button(spanOf(production, item), { title: 'Look at its pages as they will go out' })
    labels.addEventListener('click', this.act(() => this.look(item.first - production.first)))
    return [String(item.doc), TREATMENTS[item.treatment] ?? item.treatment, labels, states.get(item.doc).designation, heldInWords(this.plan, item)]
  }

  field({ item, name, value, basis, isChosen }) {
    const { production } = this.plan
    return [String(item.doc), labelOf(production, item.first), name, value, basis, isChosen ? `WITHHELD - ${basis}` : 'not in it']
  }
}
