// What a desk tells of many documents, of people and of productions, and what it finds and plans: six calls that change
// nothing. Two of them are POSTs, as they have members; they go as looks do.

export class Looks {
  #values = new Map() // promises by document

  constructor(desk) {
    this.desk = desk
  }

  // What stands of the documents `from`, `from + 1`, .. : at most 500 rows, in order. `isBehind`: nobody pressed for it.
  states(from, isBehind = false) {
    return this.desk.see(`/states/${from}`, isBehind)
  }

  // The fields of a document in order: { field, name, value, held }, `field` its number, `held` a basis or null. They are
  // asked for once, until `forget`.
  values(doc, isBehind = false) {
    const path = `/docs/${doc}/values`
    if (!isBehind) this.desk.hurry(path)
    const known = this.#values.get(doc)
    if (known !== undefined) return known
    const asked = this.desk.see(path, isBehind)
    this.#values.set(doc, asked)
    asked.catch(() => { if (this.#values.get(doc) === asked) this.#values.delete(doc) })
    return asked
  }

  // the held fields of a document may have changed
  forget(doc) {
    this.#values.delete(doc)
  }

  // { name, role, staff } of everybody
  staff() {
    return this.desk.see('/staff')
  }

  // { id, volume, prefix, width, first, last, items, from, to } of each production, `items` the number of its documents
  productions() {
    return this.desk.see('/productions')
  }

  // { hits, next, next_page }: hits of the terms, which are words in turn, from a page of a document on, page 0 its fields
  find(terms, from, page, isBehind = false) {
    return this.desk.ask('/find', { terms, from, page }, isBehind)
  }

  // the production that this request would freeze
  plan(request) {
    return this.desk.ask('/plan', request)
  }
}

// Goes on with a search until its end, and yields each answer. Each has all hits of what it went through.
export async function* hitsOf(looks, terms, { from = 1, page = 0, isBehind = false } = {}) {
  for (let at = { next: from, next_page: page }; at.next !== 0;) {
    at = await looks.find(terms, at.next, at.next_page, isBehind)
    yield at
  }
}
