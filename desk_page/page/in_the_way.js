// What keeps a range from being frozen: the families that it cuts, and each document that isn't settled with what it lacks; not the
// first alone, which is all that a refusal names.
import { button, made } from './elements.js'
import { openButton } from './open_button.js'
import { Pieces } from './pieces.js'
import { statesOf } from './plan.js'
import { NotNow } from './review.js'
import { inShort, lacksOf, progressOf } from './states.js'
import { walk } from './walk.js'

// as `lacksOf` takes a document: of a state the numbers of boxes and held fields are known
const asDoc = (row) => ({ ...row, boxes: Array(row.boxes).fill({}), held: Array(row.held).fill({}), entry: row.entry ? {} : null })

// only the document itself tells whether something of it is held back for privilege
const isUnclear = (row) => row.treatment === 'Redact' && row.editor !== 0 && !row.entry && row.boxes + row.held > 0

async function unsettledOf(review, states, far) {
  const rows = states.filter((row) => row.production === null && progressOf(row) !== 'settled')
  const unclear = rows.filter(isUnclear)
  const docs = new Map()
  const { done } = await walk(unclear.length, async (k) => { docs.set(unclear[k].doc, await review.lookAt(unclear[k].doc)) }, (k) =>
    far(`Looked at ${k.toLocaleString('en')} of ${unclear.length.toLocaleString('en')} documents that aren’t settled.`))
  if (done < unclear.length) throw new NotNow('Stopped.')
  return rows.map((row) => ({ row, lacks: lacksOf(docs.get(row.doc) ?? asDoc(row)) }))
}

// The last document of the family that the last one of the range is of.
async function endOfFamily(review, { doc, parent }) {
  let end = doc
  while (end < review.count) {
    const next = await statesOf(review, end + 1, Math.min(end + 500, review.count))
    const other = next.findIndex((row) => row.parent !== parent)
    if (other >= 0) return end + other
    end = next.at(-1).doc
  }
  return end
}

// The families that reach outside the range: at most the first and the last one of it.
async function cutOf(review, states) {
  const [first, last] = [states[0], states.at(-1)]
  const end = await endOfFamily(review, last)
  const families = [{ parent: first.parent, from: first.parent, to: last.parent === first.parent ? end : lastOf(states, first.parent) },
    { parent: last.parent, from: last.parent, to: end }]
  const isCut = ({ from, to }) => from < first.doc || to > last.doc
  return families.filter((family, k) => isCut(family) && (k === 0 || family.parent !== first.parent))
}

const lastOf = (states, parent) => states.findLast((row) => row.parent === parent).doc

export async function obstaclesOf(review, { from, to }, far) {
  const states = await statesOf(review, from, to)
  return { cut: await cutOf(review, states), unsettled: await unsettledOf(review, states, far) }
}

function headOf(cut, unsettled) {
  const parts = [...(cut === 0 ? [] : ['families that are cut']),
    ...(unsettled === 0 ? [] : [unsettled === 1 ? '1 document isn’t settled' : `${unsettled.toLocaleString('en')} documents aren’t settled`])]
  return parts.length === 0 ? 'Nothing is in the way any more: press Plan again' : `In the way: ${parts.join('; ')}`
}

// What stands in the way, listed; each document is opened by a button.
export class InTheWay {
  // `widen` takes a range that has the families whole
  constructor({ dialog, review, act, place, widen }) {
    Object.assign(this, { dialog, review, act, place, widen })
    this.head = made('h3')
    this.cut = made('ul', { id: 'cut_families' })
    const list = made('ul', { id: 'unsettled' })
    place.append(this.head, this.cut, list)
    this.list = new Pieces(list, (it) => this.unsettled(it))
  }

  show({ cut, unsettled }, request) {
    this.head.textContent = headOf(cut.length, unsettled.length)
    this.cut.replaceChildren(...cut.map((family) => this.family(family, request)))
    this.list.show(unsettled)
    this.place.hidden = false
  }

  hide() {
    this.place.hidden = true
  }

  family({ parent, from, to }, request) {
    const outside = from < request.from ? from : to
    const wide = { from: Math.min(from, request.from), to: Math.max(to, request.to) }
    const take = button(`Take documents ${wide.from} to ${wide.to}`)
    take.addEventListener('click', () => this.widen(wide))
    const text = ` The family of document ${parent}, documents ${from} to ${to}, reaches outside the range. `
    return made('li', {}, openButton(this, outside), text, take)
  }

  unsettled({ row, lacks }) {
    return made('li', {}, openButton(this, row.doc), ` ${inShort(row)}: needs ${lacks.join(', ')}.`)
  }
}
