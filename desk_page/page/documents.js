// The list of documents: what stands of each, its name, date and author. Its texts are asked for where a row rests in sight, as
// each look takes a place of the desks' journal.
import { FILTERS } from './filters.js'
import { PARTS } from './names.js'
import { Rows, piece } from './rows.js'
import { inShort, signOf } from './states.js'

const HIGH = { plain: 3.1, named: 4.4 } // of a row, in em

export class Documents {
  constructor(review, listing, { list, tall, count, filter, found, names, act, behind }) {
    Object.assign(this, { review, listing, list, count, filter, found, names })
    this.isAsking = false
    this.rows = new Rows({
      list, tall, prefix: 'document', high: HIGH.plain, keys: listing, fill: (row, number) => this.fill(row, number),
      rest: behind(() => this.ask()),
    })
    tall.addEventListener('click', act((event) => this.press(event)))
    filter.addEventListener('change', () => listing.choose(filter.value))
    found.addEventListener('change', () => listing.showFound(found.checked))
    this.listen()
  }

  // those alone that the search found, or all
  showFound(isWanted) {
    this.found.checked = isWanted
    this.listing.showFound(isWanted)
  }

  listen() {
    const { review, listing, names, rows } = this
    listing.addEventListener('change', () => this.begin())
    listing.addEventListener('counts', () => this.showCounts())
    for (const kind of ['begun', 'hits', 'ended']) listing.search.addEventListener(kind, () => this.offerFound())
    review.addEventListener('row', ({ detail }) => rows.redraw(detail.doc))
    review.addEventListener('states', ({ detail }) => detail.forEach((number) => rows.redraw(number)))
    review.addEventListener('marked', ({ detail }) => rows.redraw(detail))
    review.addEventListener('doc', ({ detail }) => this.mark(detail.doc))
    names.addEventListener('chosen', () => this.begin())
    names.addEventListener('told', ({ detail }) => rows.redraw(detail))
  }

  // without a search there is nothing to choose
  offerFound() {
    const isThere = this.listing.search.terms.length > 0
    if (this.found.disabled === !isThere) return
    this.found.disabled = !isThere
    if (!isThere && this.found.checked) this.showFound(false)
  }

  begin() {
    this.rows.begin(this.names.isNamed ? HIGH.named : HIGH.plain)
    this.tell()
  }

  tell() {
    const { listing } = this
    const isAll = listing.filter === 'all' && !listing.isFoundOnly
    const all = this.review.count === 1 ? '1 document' : `${this.review.count.toLocaleString('en')} documents`
    this.count.textContent = isAll ? all : `${listing.count.toLocaleString('en')} of ${all}`
  }

  // each filter with how many documents it takes
  showCounts() {
    const counts = this.listing.counts()
    if (this.filter.childElementCount === 0) this.makeFilters()
    for (const [name, text] of FILTERS) {
      const shown = `${text} (${counts.get(name).toLocaleString('en')})`
      const option = this.filter.querySelector(`[value=${name}]`)
      if (option.textContent !== shown) option.textContent = shown
    }
  }

  makeFilters() {
    for (const [name, text] of FILTERS) this.filter.append(new Option(text, name))
    this.filter.value = this.listing.filter
  }

  fill(row, number) {
    const it = this.review.rows.get(number)
    const isOpen = this.review.doc?.doc === number
    const isMember = it !== undefined && it.parent !== it.doc
    row.className = `row${isOpen ? ' open' : ''}${isMember ? ' member' : ''}`
    row.setAttribute('aria-selected', isOpen)
    if (it === undefined) return
    const [name, date, author] = PARTS.map((part) => this.names.of(number, part))
    const pages = (it.pages === 1 ? '1 page' : `${it.pages} pages`) + (isMember ? ` · with ${it.parent}` : '')
    const rest = piece('rest', [date, author, pages].filter((text) => text !== '').join(' · '))
    const state = piece('state', inShort(it) + (it.production === null ? '' : ` · in ${it.production}`))
    row.classList.toggle('named', this.names.isNamed)
    row.title = [`${number} ${name}`.trim(), date, author].filter((text) => text !== '').join(' · ')
    row.replaceChildren(
      piece('sign', signOf(it)),
      piece('number', `${number}${this.review.marked.has(number) ? ' ✓ marked' : ''}`),
      piece('name', name === '' ? '' : ` ${name}`),
      ...(this.names.isNamed ? [state, rest] : [' · ', rest, state]),
    )
    row.children[0].setAttribute('aria-hidden', 'true')
  }

  // the open document is marked, and comes into sight
  mark(number) {
    const before = this.marked
    this.marked = number
    if (before !== undefined) this.rows.redraw(before)
    this.rows.makeActive(number)
    this.rows.redraw(number)
    this.rows.restSoon() // what failed before: a desk answers now
  }

  // the row of the open document, in sight
  showOpen() {
    this.rows.draw()
    this.rows.makeActive(this.marked)
  }

  press(event) {
    const row = event.target.closest('[role=option]')
    return row === null ? null : this.review.open(Number(row.dataset.number))
  }

  // Asks for the texts of the rows in sight that weren't told yet, one after another, so that what is pressed needn't wait for all.
  async ask() {
    if (this.isAsking || !this.names.isWanted) return null
    this.isAsking = true
    const next = () => this.rows.keysInSight().find((number) => !this.names.isKnown(number))
    try {
      for (let number = next(); number !== undefined; number = next()) await this.names.read(number, true)
    } finally {
      this.isAsking = false
    }
    return null
  }
}
