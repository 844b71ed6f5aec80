// Which documents are listed, and in which order: those that a filter takes, of all or of those that the search found. The rest
// of the page asks it for the place of a document in the list, and for the one that comes next. It tells `change` where the
// list is another one, and `counts` where a filter may take more or fewer.
import { countsOf, isFilter, takes } from './filters.js'
import { walk } from './walk.js'

// 0 where nobody called it, 1 where it is to be confirmed, 2 where it is settled
const stageOf = (row) => (row.editor === 0 ? 0 : row.confirmer === 0 && row.treatment !== 'Produce' ? 1 : 2)

// Orders that go by what stands of a document, and so may change with it; one document before another of the same is by number.
const BY_ROW = {
  state: (row) => stageOf(row) * 2 + Number(row.production !== null),
  changed: (row, { changes }) => -(changes.get(row.doc) ?? 0),
}

export const ORDERS = ['number', 'name', 'date', 'author', 'state', 'changed']

export class Listing extends EventTarget {
  // `names` has the texts of fields that a list goes by, `search` what was found, `me` who works here
  constructor(review, { names, search, me }) {
    super()
    Object.assign(this, { review, names, search, me })
    this.filter = 'all'
    this.order = 'number'
    this.isBackward = false
    this.isFoundOnly = false
    this.sorted = null // all documents in their order; null where they are by number
    this.numbers = null // those listed, in order; null where all are, by number
    review.addEventListener('row', ({ detail }) => this.note([detail.doc]))
    review.addEventListener('states', ({ detail }) => this.note(detail))
    review.addEventListener('marked', ({ detail }) => this.note([detail]))
    for (const kind of ['begun', 'hits']) search.addEventListener(kind, () => this.noteSearch())
    me.addEventListener('change', () => this.list())
  }

  // ---- what is chosen

  choose(filter) {
    this.filter = isFilter(filter) ? filter : 'all'
    this.list()
  }

  showFound(isFoundOnly) {
    this.isFoundOnly = isFoundOnly
    this.list()
  }

  sort(order, isBackward) {
    this.order = ORDERS.includes(order) ? order : 'number'
    this.isBackward = isBackward
    this.sortAll()
    this.list()
  }

  sortAll() {
    this.sorted = null
    if (this.order === 'number' && !this.isBackward) return
    this.sorted = Array.from({ length: this.review.count }, (_, k) => k + 1)
    if (this.order === 'number') this.sorted.reverse()
    else if (this.order in BY_ROW) this.sortByRow(BY_ROW[this.order], this.isBackward ? -1 : 1)
    else this.names.sort(this.sorted, this.order, this.isBackward)
  }

  sortByRow(keyOf, sign) {
    const keys = new Map(this.sorted.map((number) => [number, keyOf(this.review.rows.get(number), this.review)]))
    this.sorted.sort((a, b) => sign * (keys.get(a) - keys.get(b)) || a - b)
  }

  // ---- what is listed

  get around() {
    return { me: this.me.number, marked: this.review.marked }
  }

  isFound(number) {
    return !this.isFoundOnly || this.search.has(number)
  }

  takes(number) {
    return this.isFound(number) && takes(this.filter, this.review.rows.get(number), this.around)
  }

  // the list from anew
  list() {
    const isAll = this.filter === 'all' && !this.isFoundOnly
    const all = () => Array.from({ length: this.review.count }, (_, k) => k + 1)
    this.countThen = this.review.count
    this.numbers = isAll ? this.sorted : (this.sorted ?? all()).filter((number) => this.takes(number))
    this.places = this.numbers === null ? null : new Map(this.numbers.map((number, k) => [number, k + 1]))
    this.dispatchEvent(new CustomEvent('change'))
    this.countSoon()
  }

  // what stands of some documents, or their mark, may have them come or go, or stand elsewhere
  note(numbers) {
    const isMoved = this.order in BY_ROW
    const isMore = this.review.count !== this.countThen
    if (isMoved || isMore) this.sortAll()
    if (isMoved || isMore || numbers.some((number) => (this.placeOf(number) !== undefined) !== this.takes(number))) this.list()
    this.countSoon()
  }

  noteSearch() {
    if (this.isFoundOnly) this.list()
  }

  get count() {
    return this.numbers?.length ?? this.review.count
  }

  // the document at a place from 1, and the place of a listed one; else undefined
  at(place) {
    if (this.numbers !== null) return this.numbers[place - 1]
    return place >= 1 && place <= this.review.count ? place : undefined
  }

  placeOf(number) {
    return this.places === null || this.places === undefined ? number : this.places.get(number)
  }

  // the listed document that comes so many after one, which needn't be listed, or before it; or undefined
  next(number, by) {
    const place = this.placeOf(number)
    if (place !== undefined) return this.at(place + by)
    const rank = this.sorted === null ? number - 1 : this.sorted.indexOf(number)
    const at = (k) => (this.sorted === null ? k + 1 : this.sorted[k])
    let left = Math.abs(by)
    for (let k = rank + Math.sign(by); k >= 0 && k < this.review.count; k += Math.sign(by)) {
      if (this.takes(at(k)) && (left -= 1) === 0) return at(k)
    }
    return undefined
  }

  // ---- how many each filter takes, once what is under way is told

  countSoon() {
    if (this.isCounting) return
    this.isCounting = true
    queueMicrotask(() => {
      this.isCounting = false
      this.dispatchEvent(new CustomEvent('counts'))
    })
  }

  counts() {
    const { rows } = this.review
    const found = this.isFoundOnly ? [...this.search.byDoc.keys()].map((number) => rows.get(number)).filter(Boolean) : rows.values()
    return countsOf(found, this.around)
  }

  // Has the fields told of each document, by which the list is to be sorted. The answer says what came of it.
  async readAll(far) {
    const wanting = Array.from({ length: this.review.count }, (_, k) => k + 1).filter((number) => !this.names.isKnown(number))
    const all = wanting.length.toLocaleString('en')
    const { done, isStopped } = await walk(wanting.length, (k) => this.names.read(wanting[k]).then(() => true), (k) =>
      far(`Asked for the fields of ${k.toLocaleString('en')} of ${all} documents. Escape stops.`))
    return isStopped ? `Stopped after the fields of ${done.toLocaleString('en')} of ${all} documents: the others stand last.` : null
  }
}
