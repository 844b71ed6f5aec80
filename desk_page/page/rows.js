// A list of which only the rows in sight are there, each as high as the others. Where it came to rest is told, so that what the
// rows want is asked for there alone.

const REST = 150 // milliseconds
const SPARE = 3 // rows beyond each edge

export class Rows {
  // `prefix` begins the ids of rows; `keys` has what is listed: count, at(place), placeOf(key), places from 1; `fill` fills a
  // row's element with what stands of a key; `rest` is told that the list came to rest
  constructor({ list, tall, prefix, high, keys, fill, rest }) {
    Object.assign(this, { list, tall, prefix, high, keys, fill, rest })
    this.drawn = new Map() // rows by their keys
    list.addEventListener('scroll', () => this.draw())
    new ResizeObserver(() => this.draw()).observe(list)
  }

  // from anew: other keys, or in another order. `high` is how high a row is, in em
  begin(high = this.high) {
    this.high = high
    for (const row of this.drawn.values()) row.remove()
    this.drawn.clear()
    this.tall.style.height = `${this.keys.count * high}em`
    this.draw()
  }

  rowHeight() {
    return this.tall.clientHeight / Math.max(this.keys.count, 1)
  }

  // places of the list, from 1
  inSight() {
    const height = Math.max(this.rowHeight(), 1)
    const first = Math.floor(this.list.scrollTop / height)
    const last = Math.ceil((this.list.scrollTop + this.list.clientHeight) / height)
    return { first: first + 1, last: Math.min(last, this.keys.count) }
  }

  keysInSight() {
    if (this.list.clientHeight === 0) return []
    const { first, last } = this.inSight()
    return Array.from({ length: Math.max(last - first + 1, 0) }, (_, k) => this.keys.at(first + k))
  }

  draw() {
    if (this.list.clientHeight === 0) return
    const { first, last } = this.inSight()
    const from = Math.max(1, first - SPARE)
    const to = Math.min(this.keys.count, last + SPARE)
    for (const [key, row] of this.drawn) {
      const place = this.keys.placeOf(key)
      if (place >= from && place <= to) continue
      row.remove()
      this.drawn.delete(key)
    }
    for (let place = from; place <= to; place += 1) if (!this.drawn.has(this.keys.at(place))) this.addRow(place)
    this.restSoon()
  }

  restSoon() {
    clearTimeout(this.resting)
    this.resting = setTimeout(() => this.rest(), REST)
  }

  addRow(place) {
    const key = this.keys.at(place)
    const row = document.createElement('div')
    row.id = `${this.prefix}_${key}`
    row.dataset.number = key
    row.dataset.place = place
    row.setAttribute('role', 'option')
    row.setAttribute('aria-setsize', this.keys.count)
    row.setAttribute('aria-posinset', place)
    Object.assign(row.style, { top: `${(place - 1) * this.high}em`, height: `${this.high}em` })
    this.drawn.set(key, row)
    this.fill(row, key)
    // in their order, for those who read the list by ear
    const next = [...this.tall.children].find((it) => Number(it.dataset.place) > place) ?? null
    this.tall.insertBefore(row, next)
  }

  redraw(key) {
    const row = this.drawn.get(key)
    if (row !== undefined) this.fill(row, key)
  }

  redrawAll() {
    for (const [key, row] of this.drawn) this.fill(row, key)
  }

  // a row is the one where somebody is, or none is
  makeActive(key) {
    const place = key === undefined ? undefined : this.keys.placeOf(key)
    if (place === undefined) {
      this.list.removeAttribute('aria-activedescendant')
      return
    }
    this.reveal(place)
    this.list.setAttribute('aria-activedescendant', `${this.prefix}_${key}`)
  }

  reveal(place) {
    const height = this.rowHeight()
    const top = (place - 1) * height
    const { scrollTop, clientHeight } = this.list
    if (top < scrollTop) this.list.scrollTop = top - height
    else if (top + height > scrollTop + clientHeight) this.list.scrollTop = top + 2 * height - clientHeight
  }
}

export function piece(name, text) {
  const made = document.createElement('span')
  made.className = name
  made.textContent = text
  return made
}
