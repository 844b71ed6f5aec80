// The search that stands in this window: its terms, and what was found, in order and by document. It tells `begun`, `hits` with
// those that came, and `ended`.
import { hitsOf } from './looks.js'
import { walk } from './walk.js'

const MOST = 100_000 // hits, as more take too much memory, and nobody reads them

export class Search extends EventTarget {
  constructor(looks) {
    super()
    this.looks = looks
    this.reset([], null)
  }

  // { doc, page, field, place, count }: `count` words from the place on, counted from 1, of the page, or of the value of a field
  // where the page is 0
  reset(terms, current) {
    this.terms = terms
    this.hits = []
    this.byDoc = new Map()
    this.reached = 0 // documents that were searched to their end
    this.end = null // how it ended: { isStopped, isFull }, or { why } where it failed
    this.current = current // the one that is under way
    this.dispatchEvent(new CustomEvent('begun'))
  }

  clear() {
    this.reset([], null)
  }

  get isUnderWay() {
    return this.current !== null
  }

  get text() {
    return this.terms.join(' ')
  }

  has(doc) {
    return this.byDoc.has(doc)
  }

  // those of a page; of page 0 those of the fields
  of(doc, page) {
    return (this.byDoc.get(doc) ?? []).filter((hit) => hit.page === page)
  }

  // Terms, which are words in turn; another search ends. `far` is told from time to time that it goes on.
  async begin(terms, far) {
    const own = {}
    this.reset(terms, own)
    let end
    try {
      end = await this.goOn(own, far)
    } catch (why) {
      end = { why }
    }
    if (this.current !== own) return
    Object.assign(this, { current: null, end })
    this.dispatchEvent(new CustomEvent('ended'))
    if (end.why !== undefined) throw end.why
  }

  async goOn(own, far) {
    const answers = hitsOf(this.looks, this.terms)
    const { isStopped } = await walk(Infinity, async () => {
      const { value, done } = await answers.next()
      if (done || this.current !== own) return false
      this.add(value)
      return this.hits.length < MOST
    }, () => far(this))
    const isFull = this.hits.length >= MOST && this.reached !== Infinity
    return { isStopped: isStopped && this.reached !== Infinity, isFull }
  }

  add({ hits, next }) {
    for (const hit of hits) {
      this.hits.push(hit)
      const own = this.byDoc.get(hit.doc)
      if (own === undefined) this.byDoc.set(hit.doc, [hit])
      else own.push(hit)
    }
    this.reached = next === 0 ? Infinity : next - 1
    if (hits.length > 0) this.dispatchEvent(new CustomEvent('hits', { detail: hits }))
  }
}
