// The dialog that says how the list stands: which fields give a document its name, date and author, and the order.
import { button, made } from './elements.js'
import { PARTS } from './names.js'
import { NotNow } from './review.js'

const OF_PART = { name: 'Name of a document', date: 'Date', author: 'Author' }
const ORDERS = [
  ['number', 'number'], ['name', 'name'], ['date', 'date'], ['author', 'author'], ['state', 'state: not called first'],
  ['changed', 'changed last, as seen in this window'],
]

export class ListDialog {
  constructor(review, listing, { names, place, say, act }) {
    Object.assign(this, { review, listing, names, place, say })
    this.form = this.makeForm()
    this.dialog = made('dialog', { id: 'list_dialog', 'aria-label': 'The list' }, this.form)
    document.body.append(this.dialog)
    this.form.addEventListener('submit', act((event) => {
      event.preventDefault()
      return this.send()
    }))
    names.addEventListener('chosen', () => this.dialog.open && this.fill())
  }

  makeForm() {
    const choice = (text, name, options = []) =>
      made('label', {}, text, made('select', { name }, ...options.map(([value, shown]) => made('option', { value }, shown))))
    const close = button('Cancel')
    close.addEventListener('click', () => this.dialog.close())
    return made('form', {},
      made('h2', {}, 'The list'),
      ...PARTS.map((part) => choice(`${OF_PART[part]} `, part)),
      choice('Sorted by ', 'order', ORDERS),
      made('label', {}, made('input', { type: 'checkbox', name: 'backward' }), ' the other way round'),
      made('p', {}, 'To sort by a field, it is asked for of each document once: a call each.'),
      made('p', {}, made('button', {}, 'Show'), ' ', close))
  }

  open() {
    this.fill()
    this.dialog.showModal()
  }

  fill() {
    const { elements } = this.form
    for (const part of PARTS) {
      elements[part].replaceChildren(new Option('none', ''), ...this.names.fields.map((name) => new Option(name, name)))
      elements[part].value = this.names.fieldOf(part)
    }
    elements.order.value = this.listing.order
    elements.backward.checked = this.listing.isBackward
  }

  async send() {
    const { elements } = this.form
    const chosen = Object.fromEntries(PARTS.map((part) => [part, elements[part].value]))
    this.dialog.close()
    if (PARTS.some((part) => chosen[part] !== this.names.fieldOf(part))) this.names.choose(chosen)
    return this.sort(elements.order.value, elements.backward.checked)
  }

  async sort(order, isBackward) {
    if (PARTS.includes(order) && this.names.fieldOf(order) === '') throw new NotNow(`Choose a field for the ${order} first (I).`)
    this.place.keep({ order, isBackward })
    const isStopped = PARTS.includes(order) ? await this.listing.readAll(this.say) : null
    this.listing.sort(order, isBackward)
    return isStopped ?? `The list is sorted by ${order}.`
  }
}
