// What a production would be: the desk's plan, and what it tells of the documents in the range. Boxes, entries and values are asked for
// where something is held back; all else is told by states.
import { changeInWords, isAlike } from './changes.js'
import { labelOf } from './labels.js'
import { knowStaff } from './staff.js'
import { logRows } from './privilege_log.js'
import { NotNow } from './review.js'
import { walk } from './walk.js'

const CHANGED = 'Something was changed while the plan was gathered. Press Plan again.'
const STOPPED = 'Stopped: nothing was planned.'

export const isWithheld = ({ treatment }) => treatment.startsWith('Withhold')
const isWhole = ({ treatment }) => treatment === 'Produce'

// The states of the documents from one to another, in order.
export async function statesOf(review, from, to) {
  const rows = []
  while (from + rows.length <= to) rows.push(...(await review.looks.states(from + rows.length)))
  await knowStaff(review.looks, ...rows.flatMap(({ editor, confirmer }) => [editor, confirmer]))
  return rows.filter(({ doc }) => doc <= to)
}

export class Plan {
  // `far` is told how far it is; a walk that is stopped plans nothing
  static async of(review, request, far) {
    const production = await review.looks.plan(request)
    const plan = new Plan(request, production, await statesOf(review, request.from, request.to))
    await plan.lookAtHeld(review, far)
    const isSame = JSON.stringify(await review.looks.plan(request)) === JSON.stringify(production)
    if (!isSame || !plan.isOfOnePiece()) throw new NotNow(CHANGED)
    return plan
  }

  constructor(request, production, states) {
    Object.assign(this, { request, production, docs: new Map(), values: new Map() })
    this.states = new Map(states.map((row) => [row.doc, row]))
    this.count = production.last - production.first + 1
  }

  async lookAtHeld(review, far) {
    const items = this.production.items.filter((item) => !isWhole(item))
    const { done } = await walk(items.length, async (k) => {
      const doc = await review.lookAt(items[k].doc)
      this.docs.set(doc.doc, doc)
      if (doc.held.length > 0) this.values.set(doc.doc, await review.looks.values(doc.doc))
    }, (k) => far(`Looked at ${k.toLocaleString('en')} of ${items.length.toLocaleString('en')} documents of which something is held back.`))
    if (done < items.length) throw new NotNow(STOPPED)
  }

  // whether plan, states and documents tell the same
  isOfOnePiece() {
    return this.production.items.every((item) => {
      const [row, doc] = [this.states.get(item.doc), this.docs.get(item.doc)]
      const labels = isWithheld(item) ? 1 : row.pages
      if (row.treatment !== item.treatment || item.last - item.first + 1 !== labels) return false
      if (doc === undefined) return true
      return doc.treatment === item.treatment && doc.designation === row.designation && doc.boxes.length === row.boxes
        && doc.held.length === row.held && (doc.entry !== null) === row.entry
    })
  }

  // ---- what it tells

  // The page that goes out in this place, from 0: `page` is 0 where it is a slip sheet.
  pageAt(place) {
    const number = this.production.first + place
    const item = this.production.items[this.itemAt(number)]
    const page = isWithheld(item) ? 0 : number - item.first + 1
    const boxes = (this.docs.get(item.doc)?.boxes ?? []).filter((box) => box.page === page)
    const basis = isWithheld(item) ? item.treatment.slice(-2) : null
    const { designation } = this.states.get(item.doc)
    return { place, label: labelOf(this.production, number), doc: item.doc, page, basis, boxes, designation }
  }

  // the place of the item with a number
  itemAt(number) {
    const { items } = this.production
    let [low, high] = [0, items.length - 1]
    while (low < high) {
      const middle = (low + high + 1) >> 1
      if (items[middle].first <= number) low = middle
      else high = middle - 1
    }
    return low
  }

  // the places of the pages on which something is held back
  heldPlaces() {
    return this.production.items.filter((item) => !isWhole(item)).flatMap(({ first, last }) =>
      Array.from({ length: last - first + 1 }, (_, k) => first + k - this.production.first)).filter((place) => {
      const { page, boxes } = this.pageAt(place)
      return page === 0 || boxes.length > 0
    })
  }

  // the held fields of a document that goes out, by name and value
  heldOf(item) {
    return (this.docs.get(item.doc)?.held ?? []).map(({ field, basis }) => {
      const { name, value } = this.values.get(item.doc).find((row) => row.field === field)
      return { item, name, value, basis, isChosen: this.request.fields.includes(name) }
    })
  }

  heldFields() {
    return this.production.items.flatMap((item) => this.heldOf(item))
  }

  logRows() {
    return logRows(this.production, this.docs)
  }

  // the documents of the range that don't go out
  leftOut() {
    const items = new Set(this.production.items.map(({ doc }) => doc))
    return [...this.states.values()].filter(({ doc }) => !items.has(doc))
  }

  // ---- what isn't so any more

  // Looks once more at all that it was gathered from; in words what was changed.
  async changes(review, far) {
    const found = []
    const docs = [...this.docs.values()]
    for (const now of await statesOf(review, this.request.from, this.request.to)) {
      const { production: before, ...was } = this.states.get(now.doc)
      const { production: after, ...is } = now
      if (!this.docs.has(now.doc) && JSON.stringify(was) !== JSON.stringify(is)) found.push(`Document ${now.doc} was changed.`)
    }
    const { done } = await walk(docs.length, async (k) => {
      const now = await review.lookAt(docs[k].doc)
      if (!isAlike(docs[k], now)) found.push(changeInWords(docs[k], now))
    }, (k) => far(`Compared ${k.toLocaleString('en')} of ${docs.length.toLocaleString('en')} documents.`))
    if (done < docs.length) throw new NotNow('Stopped.')
    return found
  }

  // What a production that was frozen has otherwise, in words.
  differences(frozen) {
    const planned = this.production
    const names = ['id', 'volume', 'prefix', 'width', 'first', 'last'].filter((name) => planned[name] !== frozen[name])
    const before = new Map(planned.items.map((item) => [item.doc, item]))
    const after = new Map(frozen.items.map((item) => [item.doc, item]))
    const docs = [...new Set([...before.keys(), ...after.keys()])].sort((a, b) => a - b)
      .filter((doc) => JSON.stringify(before.get(doc)) !== JSON.stringify(after.get(doc)))
    return [
      ...names.map((name) => `The ${name} is ${frozen[name]}, and was planned as ${planned[name]}.`),
      ...docs.map((doc) => `Document ${doc} ${inWords(frozen, after.get(doc))}, and was planned as one that ${inWords(planned, before.get(doc))}.`),
    ]
  }
}

function inWords(production, item) {
  if (item === undefined) return 'isn’t in it'
  return `is in it as ${item.treatment}, ${labelOf(production, item.first)} to ${labelOf(production, item.last)}`
}
