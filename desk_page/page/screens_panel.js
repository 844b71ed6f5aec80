// The dialog of screens: which of them, which documents, and the list of what they hit.
import { button, made } from './elements.js'
import { reasonOf } from './messages.js'
import { openButton } from './open_button.js'
import { NotNow } from './review.js'
import { download } from './saving.js'
import { RangeCheck, listAsText, readScreens } from './screens.js'
import { stopWalk } from './walk.js'

const MOST_ROWS = 1000 // that are shown; a saved list has all

const counted = (count, one, many) => `${count.toLocaleString('en')} ${count === 1 ? one : many}`

export class ScreensPanel {
  // `opened` is told the phrase of a row that was opened
  constructor(review, { doors, opened, act }) {
    Object.assign(this, { review, opened, act, screens: [], found: null, names: new Map() })
    this.build()
    const door = button('Screens')
    doors.insertBefore(door, doors.lastElementChild)
    door.addEventListener('click', this.saidHere(() => this.open()))
  }

  build() {
    const number = (name, text) => made('label', {}, `${text} `,
      made('input', { name, inputmode: 'numeric', autocomplete: 'off', size: 6, required: true }))
    this.chosen = made('fieldset', {}, made('legend', {}, 'Screens'))
    this.stop = button('Stop', { disabled: true })
    this.save = button('Save the list', { disabled: true })
    this.told = made('p', { id: 'screens_told', role: 'status' })
    this.list = made('ul', { id: 'screened', tabindex: 0, 'aria-label': 'What was hit', hidden: true })
    const close = button('Close')
    this.form = made('form', {}, made('p', {}, number('from', 'From document'), ' ', number('to', 'To document')), this.chosen,
      made('p', {}, made('button', {}, 'Check the range'), ' ', this.stop, ' ', this.save))
    this.dialog = made('dialog', { id: 'screens', 'aria-label': 'Screens' }, made('h2', {}, 'Screens'),
      made('p', {}, 'Lists of phrases that the office keeps beside the page. Listed is what they hit in documents that are called '
        + 'Produce, that are called Redact and have no box on the hit, or that aren’t called yet.'),
      this.form, this.told, this.list, made('p', {}, close))
    document.body.append(this.dialog)
    close.addEventListener('click', () => this.dialog.close())
    this.stop.addEventListener('click', () => stopWalk())
    this.save.addEventListener('click', () => this.saveList())
    // Escape stops what is under way first
    this.dialog.addEventListener('cancel', (event) => { if (stopWalk()) event.preventDefault() })
    this.dialog.addEventListener('close', () => stopWalk())
    this.form.addEventListener('submit', this.saidHere((event) => {
      event.preventDefault()
      return this.check()
    }))
  }

  // the dialog stands before what is said on the page
  saidHere(work) {
    return this.act(async (event) => {
      try {
        const text = await work(event)
        if (typeof text === 'string') this.told.textContent = text
        return text
      } catch (why) {
        this.told.textContent = `✗ ${reasonOf(why)}`
        throw why
      }
    })
  }

  // what was listed stays, so that one row after another can be opened
  async open() {
    const { from, to } = this.form.elements
    if (from.value === '') from.value = 1
    if (to.value === '') to.value = this.review.count
    this.dialog.showModal()
    this.screens = await readScreens()
    const before = new Map(this.choices().map(({ value, checked }) => [value, checked]))
    this.chosen.replaceChildren(this.chosen.firstElementChild, ...this.screens.map(({ name, phrases }) => {
      const box = made('input', { type: 'checkbox', name: 'screen', value: name })
      box.checked = before.get(name) ?? true
      return made('label', {}, box, ` ${name} (${counted(phrases.length, 'phrase', 'phrases')})`)
    }))
  }

  choices() {
    return [...this.chosen.querySelectorAll('[name=screen]')]
  }

  range() {
    const [from, to] = ['from', 'to'].map((name) => this.form.elements[name].value.trim())
    const isNumber = [from, to].every((text) => /^\d{1,9}$/.test(text))
    if (!isNumber || Number(from) < 1 || Number(from) > Number(to) || Number(to) > this.review.count) {
      throw new NotNow(`From and to are numbers of documents, 1 to ${this.review.count.toLocaleString('en')}.`)
    }
    return { from: Number(from), to: Number(to) }
  }

  async check() {
    const range = this.range()
    const names = this.choices().filter(({ checked }) => checked).map(({ value }) => value)
    const screens = this.screens.filter(({ name }) => names.includes(name))
    if (screens.length === 0) throw new NotNow('Choose a screen first.')
    this.found = null
    this.show()
    this.stop.disabled = false
    try {
      const check = new RangeCheck(this.review, (text) => { this.told.textContent = `${text} Escape or Stop stops.` })
      const found = await check.check(screens, range)
      if (found === null) return 'Stopped: nothing is listed.'
      await this.readNames(found.rows)
      this.found = { ...found, range, screens }
    } finally {
      this.stop.disabled = true
    }
    this.show()
    return this.inWords()
  }

  // the names of fields, where one is hit
  async readNames(rows) {
    const hit = rows.find(({ field }) => field !== 0)
    if (hit === undefined) return
    for (const { field, name } of await this.review.looks.values(hit.doc)) this.names.set(field, name)
  }

  nameOf(field) {
    return this.names.get(field) ?? `field ${field}`
  }

  inWords() {
    const { rows, hits, withheld, covered, range } = this.found
    const docs = new Set(rows.map(({ doc }) => doc)).size
    return `Documents ${range.from} to ${range.to}: ${counted(hits, 'hit', 'hits')}. `
      + `${docs === 0 ? 'No document is listed' : `${counted(docs, 'document is', 'documents are')} listed`}. `
      + `Hit and not listed: ${withheld.toLocaleString('en')} withheld, ${covered.toLocaleString('en')} with a box on each hit.`
  }

  show() {
    const rows = this.found?.rows ?? []
    this.save.disabled = this.found === null
    this.list.hidden = rows.length === 0 // it is a stop of the keyboard
    const more = rows.length > MOST_ROWS
      ? [made('li', {}, `and ${(rows.length - MOST_ROWS).toLocaleString('en')} more: a saved list has them`)] : []
    this.list.replaceChildren(...rows.slice(0, MOST_ROWS).map((row) => this.row(row)), ...more)
  }

  row({ doc, page, field, phrase, called, responsive, production, count }) {
    const open = openButton(this, doc, page === 0 ? undefined : page)
    open.addEventListener('click', () => this.opened(phrase.text))
    const where = page === 0 ? `in its ${this.nameOf(field)}, ` : ''
    const times = count === 1 ? '' : `, ${count.toLocaleString('en')} times`
    const as = called === 'Redact' ? `Redact, ${page === 0 ? 'not held back' : 'without a box on it'}` : called
    const further = (called === 'not called' || responsive ? '' : ', not responsive')
      + (production === null ? '' : `, stands in ${production}`)
    return made('li', {}, open, ` ${where}“${phrase.text}”${times} (${phrase.screen}): ${as}${further}`)
  }

  saveList() {
    const { range, screens, rows } = this.found
    const text = listAsText(range, screens, rows, (field) => this.nameOf(field))
    download(`screens-${range.from}-${range.to}.txt`, new Blob([text], { type: 'text/plain' }))
  }
}
