// The fields of the open document, with their values, as the desk tells them; those that are held back, each with its basis and the
// value that is held. What hold and free did is read off what the desk tells before and after.
import { button, made } from './elements.js'
import { NotNow } from './review.js'
import { BASES } from './states.js'

const LEAST_VALUE = '(empty)'

// the held fields of one list that another one hasn't, or has with another basis
const beside = (held, other) =>
  held.filter(({ name, held: basis }) => !other.some((it) => it.name === name && it.held === basis))

export class HeldFields {
  constructor(review, { form, list, act, behind }) {
    Object.assign(this, { review, form, list, act, values: null })
    this.choice = form.elements.field
    this.all = made('tbody')
    form.append(made('details', { id: 'all_fields' }, made('summary', {}, 'All fields and their values'),
      made('table', { class: 'listed' },
        made('thead', {}, made('tr', {}, ...['Field', 'Value'].map((name) => made('th', {}, name)))), this.all)))
    review.addEventListener('doc', behind(({ detail }) => this.show(detail)))
    form.addEventListener('submit', act((event) => {
      event.preventDefault()
      return this.hold()
    }))
  }

  // ---- what is shown

  // The rows of a document as the desk tells them, with what is held of it as `doc` has it, which was told last.
  async rowsOf(doc, isBehind = false) {
    const basisOf = new Map(doc.held.map(({ field, basis }) => [field, basis]))
    const rows = await this.review.looks.values(doc.doc, isBehind)
    return rows.map((row) => ({ ...row, held: basisOf.get(row.field) ?? null }))
  }

  async heldOf(doc) {
    return doc.held.length === 0 ? [] : (await this.rowsOf(doc)).filter(({ held }) => held !== null)
  }

  // Lines such as `AUTHOR (PI): Ng`, for one more look.
  async inLines(doc) {
    return (await this.heldOf(doc)).map(({ name, held, value }) => `${name} (${held}): ${value === '' ? LEAST_VALUE : value}`)
  }

  async show(doc) {
    if (this.shown !== doc.doc) this.clear(doc)
    const rows = await this.rowsOf(doc, true).catch((why) => {
      this.list.replaceChildren(...doc.held.map(() => made('li', {}, 'Held, and not told by name: look again (L).')))
      throw why
    })
    if (this.review.doc !== doc) return
    this.list.replaceChildren(...rows.filter(({ held }) => held !== null).map((row) => this.row(row)))
    this.all.replaceChildren(...rows.map(({ name, value, held }) => made('tr', { class: held === null ? null : 'held' },
      made('td', {}, held === null ? name : `${name} (held back: ${held})`), made('td', {}, value))))
    this.offer(rows)
  }

  clear(doc) {
    this.shown = doc.doc
    this.choice.value = ''
    this.list.replaceChildren(...doc.held.map(() => made('li', {}, '..')))
    this.all.replaceChildren()
  }

  // the choices of Hold back are the matter's fields
  offer(rows) {
    if (this.choice.options.length === rows.length + 1) return
    const { value } = this.choice
    this.choice.replaceChildren(made('option', { value: '' }, 'a field ..'), ...rows.map(({ name }) => made('option', { value: name }, name)))
    this.choice.value = value
  }

  row({ name, value, held }) {
    return made('li', {},
      made('span', {}, made('b', {}, name), ` ${held}, ${BASES[held]}: `, made('q', {}, value)),
      this.freeing(name))
  }

  freeing(name) {
    const free = button('Free', { 'aria-label': `Free ${name}` })
    free.addEventListener('click', this.act(() => this.free(name)))
    return free
  }

  isUnsent() {
    return this.choice.value !== ''
  }

  // ---- what is done

  async hold() {
    const { basis } = this.form.elements
    const name = this.choice.value
    if (name === '') throw new NotNow('Choose a field first.')
    const { came, still } = await this.edit('hold', { field: name, basis: basis.value })
    this.choice.value = ''
    if (came.length === 1 && came[0].name === name && came[0].held === basis.value) return `${name} is held back. Held now: ${still}.`
    if (came.length === 0) return `Nothing changed: ${name} was held back for ${basis.value} before. Held: ${still}.`
    throw new NotNow(`The desk took it, but somebody else was at the same document. Held now: ${still}.`)
  }

  async free(name) {
    const { gone, still } = await this.edit('free', { field: name })
    if (gone.length === 1 && gone[0].name === name) return `${name} is freed. Held still: ${still}.`
    if (gone.length === 0) throw new NotNow(`Nothing was freed: ${name} isn’t held here. Held still: ${still}.`)
    throw new NotNow(`The desk took it, but somebody else was at the same document. Held now: ${still}.`)
  }

  // An edit, and by names what it brought, what it took away, and what is held now.
  async edit(what, members) {
    const { before, after } = await this.review.edit(what, members)
    const [was, is] = await this.told(before, after)
    const still = is.length === 0 ? 'no field' : is.map(({ name, held }) => `${name} (${held})`).join(', ')
    return { came: beside(is, was), gone: beside(was, is), still }
  }

  async told(before, after) {
    try {
      return [await this.heldOf(before), await this.heldOf(after)]
    } catch (why) {
      why.message = `It was done, but the fields weren’t told: look again (L). ${why.message}`
      throw why
    } finally {
      this.review.looks.forget(after.doc)
    }
  }
}
