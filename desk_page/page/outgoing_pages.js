// The pages as they will go out, before they are frozen: each is drawn as the volume will have it, one after another or those of a sample,
// with ticks for what was looked at.
import { button, made } from './elements.js'
import { imageOf } from './ink.js'
import { producedPage, slipSheet } from './outgoing.js'
import { mostScale } from './paper.js'
import { counted } from './plan_view.js'
import { NotNow } from './review.js'
import { spread } from './sample.js'

const SIZES = [['width', 'page width'], ['page', 'whole page'], ['1', '100 %']]
const SAMPLE = 10
const MOST = 1000

// what a page is, in words
function inWords({ label, doc, page, basis, boxes }) {
  if (page === 0) return `${label}: document ${doc}, sheet, withheld for ${basis}`
  return `${label}: document ${doc}, page ${page}${boxes.length === 0 ? '' : `, ${counted(boxes.length, 'box', 'boxes')}`}`
}

// a tick is for what was drawn: it falls where a box, a label or a designation becomes another
const nameOf = (drawn) => JSON.stringify({ ...drawn, place: 0 })

// a button with the key that does the same
function keyed(text, key, attributes = {}) {
  const it = button(`${text} `, attributes)
  it.append(made('kbd', {}, key))
  return it
}

export class OutgoingPages {
  constructor(review, { decoder, act }) {
    Object.assign(this, { review, decoder, act, plan: null, at: 0, sample: [], ticks: new Set() })
    this.build()
    this.listen()
  }

  build() {
    this.count = made('input', { name: 'count', inputmode: 'numeric', size: '5', autocomplete: 'off', value: String(SAMPLE) })
    this.from = made('select', { name: 'from' }, made('option', { value: 'all' }, 'all pages'),
      made('option', { value: 'held' }, 'pages with boxes, and sheets'))
    this.form = made('form', { id: 'sample' }, made('label', {}, 'Sample of ', this.count), made('label', {}, ' of ', this.from),
      made('button', {}, 'Take'))
    this.list = made('ul', { id: 'sample_pages', 'aria-label': 'Pages of the sample' })
    this.told = made('p', { id: 'outgoing_told', role: 'status' })
    this.name = made('strong', { id: 'outgoing_name' })
    this.tick = made('input', { type: 'checkbox', id: 'looked_at' })
    this.size = made('select', { id: 'outgoing_size', 'aria-label': 'Size' }, ...SIZES.map(([value, text]) => made('option', { value }, text)))
    this.canvas = made('canvas', { id: 'outgoing_ink', role: 'img', 'aria-label': 'The page as it will go out' })
    this.sheet = made('div', { id: 'outgoing_sheet', tabindex: '0', role: 'region', 'aria-label': 'The page' }, this.canvas)
    this.before = button('←', { 'aria-label': 'Page before' })
    this.after = button('→', { 'aria-label': 'Next page' })
    this.beforeSample = keyed('Before', 'K', { 'aria-label': 'The page of the sample before' })
    this.nextSample = keyed('Next of the sample', 'J')
    this.close = button('Close')
    const bar = made('p', { class: 'bar' }, made('span', { class: 'bar' }, this.before, this.after), this.name, this.size,
      made('label', {}, this.tick, ' Looked at ', made('kbd', {}, 'Y')), this.beforeSample, this.nextSample)
    this.dialog = made('dialog', { id: 'outgoing', 'aria-label': 'Pages as they will go out' },
      made('div', { class: 'side' }, made('h2', {}, 'Pages as they will go out'), this.form, this.told, this.list, made('p', {}, this.close)),
      made('div', { class: 'viewed' }, bar, this.sheet))
    document.body.append(this.dialog)
  }

  listen() {
    const on = (it, name, work) => it.addEventListener(name, this.act((event) => this.said(() => work(event))))
    on(this.form, 'submit', (event) => {
      event.preventDefault()
      this.takeSample()
    })
    on(this.before, 'click', () => this.show(this.at - 1))
    on(this.after, 'click', () => this.show(this.at + 1))
    on(this.nextSample, 'click', () => this.step(1))
    on(this.beforeSample, 'click', () => this.step(-1))
    on(this.tick, 'change', () => this.lookedAt(this.tick.checked))
    on(this.size, 'change', () => this.draw())
    on(this.dialog, 'keydown', (event) => this.press(event))
    new ResizeObserver(() => this.fit()).observe(this.sheet)
    this.close.addEventListener('click', () => this.dialog.close())
  }

  // the dialog stands before what is said on the page
  async said(work) {
    try {
      await work()
    } catch (why) {
      this.told.textContent = `✗ ${why.message}`
      throw why
    }
  }

  press(event) {
    const does = {
      ArrowRight: () => this.turn(event, 1), ArrowLeft: () => this.turn(event, -1),
      j: () => this.step(1), k: () => this.step(-1), y: () => this.lookedAt(true).then(() => this.step(1)),
    }[event.key]
    const isOthers = event.ctrlKey || event.metaKey || event.altKey || event.target.matches('select, input:not([type=checkbox])')
    if (does === undefined || isOthers) return null
    event.preventDefault()
    return does()
  }

  // the next page or the one before; with Shift the other side of one that is wider than its place
  turn({ shiftKey }, by) {
    if (!shiftKey) return this.show(this.at + by)
    this.sheet.scrollBy((by * this.sheet.clientWidth) / 2, 0)
    return null
  }

  // ---- the sample

  // another plan, and so a sample of its pages
  take(plan) {
    this.plan = plan
    if (!this.isCount()) this.count.value = SAMPLE
    this.takeSample()
  }

  isCount() {
    const count = Number(this.count.value)
    return Number.isInteger(count) && count >= 1 && count <= MOST
  }

  takeSample() {
    const count = Number(this.count.value)
    if (!this.isCount()) throw new NotNow(`A sample has 1 to ${MOST.toLocaleString('en')} pages.`)
    const places = this.from.value === 'held' ? this.plan.heldPlaces() : Array.from({ length: this.plan.count }, (_, k) => k)
    this.sample = spread(places, count)
    this.list.replaceChildren(...this.sample.map((place) => this.row(place)))
    this.tell()
  }

  row(place) {
    const drawn = this.plan.pageAt(place)
    const open = button(inWords(drawn))
    open.addEventListener('click', this.act(() => this.said(() => this.show(place))))
    return made('li', {}, made('span', { class: 'tick' }), open)
  }

  isTicked(place) {
    return this.ticks.has(nameOf(this.plan.pageAt(place)))
  }

  // how much of the sample was looked at, in words
  tally() {
    const done = this.sample.filter((place) => this.isTicked(place)).length
    return `${done} of ${counted(this.sample.length, 'page')} of the sample ${done === 1 ? 'was' : 'were'} looked at`
  }

  tell() {
    this.told.textContent = `${this.tally()}.`
    for (const [k, row] of [...this.list.children].entries()) {
      const isTicked = this.isTicked(this.sample[k])
      row.firstChild.textContent = isTicked ? '✓ ' : '○ '
      row.lastChild.setAttribute('aria-current', this.sample[k] === this.at)
      row.lastChild.setAttribute('aria-label', `${row.lastChild.textContent}${isTicked ? ', looked at' : ''}`)
    }
    this.dialog.dispatchEvent(new CustomEvent('ticked'))
  }

  async lookedAt(isSo) {
    if (!this.isDrawn) throw new NotNow('The page isn’t on the screen yet.')
    this.ticks[isSo ? 'add' : 'delete'](nameOf(this.plan.pageAt(this.at)))
    this.tick.checked = isSo
    this.tell()
  }

  // the next page of the sample, or the one before
  step(by) {
    const next = by > 0 ? this.sample.find((place) => place > this.at) : this.sample.findLast((place) => place < this.at)
    return next === undefined ? null : this.show(next)
  }

  // ---- the page

  async open(place) {
    this.dialog.showModal()
    this.sheet.focus()
    await this.said(() => this.show(place ?? this.sample[0]))
  }

  async show(place) {
    if (place < 0 || place >= this.plan.count) return
    this.at = place
    this.isDrawn = false
    this.canvas.dataset.state = 'waits'
    const drawn = this.plan.pageAt(place)
    this.name.textContent = inWords(drawn)
    this.before.disabled = place === 0
    this.after.disabled = place === this.plan.count - 1
    this.tick.checked = this.isTicked(place)
    this.tell()
    const page = await this.make(drawn)
    if (this.at !== place) return
    this.page = page
    await this.draw()
    this.sheet.scrollTo(0, 0)
    this.fetchAhead(place + 1)
  }

  fetchAhead(place) {
    if (place >= this.plan.count) return
    const { doc, page } = this.plan.pageAt(place)
    if (page > 0) this.review.pages.read(doc, page, true).catch(() => {}) // it is asked for again where it is shown
  }

  async make({ doc, page, label, basis, boxes, designation }) {
    if (page === 0) return slipSheet(basis, designation, label)
    const image = await this.review.pages.read(doc, page)
    if (image.fault !== undefined) throw new NotNow(`This page can’t be drawn (${image.fault}). Tell the one who looks after the desks.`)
    return producedPage(image, boxes, designation, label)
  }

  layout({ width, height }) {
    const points = window.devicePixelRatio
    const room = { width: this.sheet.clientWidth * points, height: this.sheet.clientHeight * points }
    const across = Math.min(room.width / width, 1)
    const wanted = { width: across, page: Math.min(across, room.height / height), 1: 1 }[this.size.value]
    const scale = Math.min(wanted, mostScale(width, height))
    return { across: Math.max(1, Math.floor(width * scale)), down: Math.max(1, Math.floor(height * scale)), points }
  }

  // on a window of another size a page that fits it is drawn anew
  fit() {
    if (this.dialog.open && this.isDrawn && this.size.value !== '1') this.act(() => this.draw())()
  }

  async draw() {
    const { page } = this
    const { across, down, points } = this.layout(page)
    const grey = await this.decoder.grey(page, across, down)
    if (this.page !== page) return
    Object.assign(this.canvas, { width: across, height: down })
    Object.assign(this.canvas.style, { width: `${across / points}px`, height: `${down / points}px` })
    this.canvas.getContext('2d').putImageData(imageOf(grey, across, down), 0, 0)
    Object.assign(this.canvas.dataset, { place: this.at, state: 'whole' })
    this.isDrawn = true
  }
}
