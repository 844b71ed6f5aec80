// A long list in pieces: the first of its rows, and a button for those that come next.
import { button } from './elements.js'

const PIECE = 200

export class Pieces {
  // `place` takes what `make` makes of each item; the button stands behind `block`
  constructor(place, make, block = place) {
    Object.assign(this, { place, make, items: [], shown: 0 })
    this.more = button('', { hidden: true })
    this.more.addEventListener('click', () => this.goOn())
    block.after(this.more)
  }

  show(items) {
    Object.assign(this, { items, shown: 0 })
    this.place.replaceChildren()
    this.goOn()
  }

  goOn() {
    const next = this.items.slice(this.shown, this.shown + PIECE)
    this.place.append(...next.map(this.make))
    this.shown += next.length
    const left = this.items.length - this.shown
    this.more.hidden = left === 0
    this.more.textContent = `Show ${Math.min(left, PIECE).toLocaleString('en')} more of ${left.toLocaleString('en')}`
  }
}
