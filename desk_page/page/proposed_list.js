// The proposed boxes, as a list of choices and as they stand over the page. A choice holds for one box, a page, a document or
// all.
import { isRedact } from './box_run.js'
import { button, made } from './elements.js'
import { grouped } from './grouped.js'
import { rectangle, shape } from './paper.js'

const MOST_ROWS = 400 // documents that have a row

export class ProposedList {
  constructor(review, proposals, boxes, paper, { place, act }) {
    Object.assign(this, { review, proposals, boxes, paper, place, act, choices: [], at: null, states: new Map() })
    boxes.layers.push((scale) => this.shapes(scale))
    proposals.addEventListener('change', () => this.begin())
    proposals.addEventListener('taken', () => this.mark())
    review.addEventListener('page', () => this.draw())
    review.addEventListener('row', ({ detail }) => this.tellState(detail))
    review.addEventListener('states', ({ detail }) => detail.forEach((doc) => this.tellState(review.rows.get(doc))))
    paper.over.addEventListener('pointerdown', (event) => this.press(event), true)
  }

  begin() {
    this.at = null
    this.draw()
    this.boxes.draw()
  }

  // ---- the list

  draw() {
    const { proposals } = this
    this.choices = []
    this.states.clear()
    const docs = proposals.byDocument()
    const rows = [...docs].slice(0, MOST_ROWS).map(([doc, boxes]) => this.documentRow(doc, boxes))
    if (docs.size > MOST_ROWS) rows.push(made('li', {}, `and ${(docs.size - MOST_ROWS).toLocaleString('en')} documents more`))
    const all = proposals.all.length
    const where = docs.size === 1 ? '1 document' : `${docs.size.toLocaleString('en')} documents`
    this.place.replaceChildren(...(all === 0 ? [] : [
      made('p', {}, this.choice(`all ${all.toLocaleString('en')} in ${where}`, proposals.all), ' ',
        this.stepButton('Before', -1, ','), ' ', this.stepButton('Next', 1, '.')),
      made('ul', { id: 'proposed', tabindex: 0, 'aria-label': 'Proposed boxes' }, ...rows),
    ]))
    this.mark()
  }

  stepButton(text, by, key) {
    const element = button(`${text} `, { 'aria-label': by > 0 ? 'Next proposed box' : 'Proposed box before' })
    element.append(made('kbd', {}, key))
    element.addEventListener('click', this.act(() => this.step(by)))
    return element
  }

  documentRow(doc, boxes) {
    const state = made('span')
    this.states.set(doc, state)
    const row = made('li', {}, this.choice(`document ${doc}: ${boxes.length}`, boxes), state)
    if (doc === this.review.doc?.doc) row.append(made('ul', {}, ...this.pageRows(boxes)))
    else row.append(' ', this.opening(boxes[0], `Open document ${doc} at its first proposed box`))
    const told = this.review.rows.get(doc)
    if (told !== undefined) this.tellState(told)
    return row
  }

  opening(box, name) {
    const element = button('Open', { 'aria-label': name })
    element.addEventListener('click', this.act(() => this.goTo(box)))
    return element
  }

  // the pages of the open document; of the open page its boxes
  pageRows(boxes) {
    return [...grouped(boxes, ({ page }) => page)].map(([page, own]) => {
      const choice = this.choice(`page ${page}: ${own.length}`, own)
      if (page === this.review.page) return made('li', {}, choice, made('ul', {}, ...own.map((box) => this.boxRow(box))))
      return made('li', {}, choice, ' ', this.opening(own[0], `Open page ${page}`))
    })
  }

  boxRow(box) {
    const others = box.others === 0 ? '' : `, takes ${box.others} more ${box.others === 1 ? 'word' : 'words'}`
    const show = button('Show', { 'aria-label': `Show “${box.text}” on page ${box.page}` })
    show.addEventListener('click', this.act(() => this.goTo(box)))
    return made('li', {}, this.choice(`“${box.text}”${others}`, [box]), ' ', show)
  }

  choice(text, boxes) {
    const input = made('input', { type: 'checkbox' })
    input.addEventListener('change', () => this.proposals.take(boxes, input.checked))
    this.choices.push({ input, boxes })
    return made('label', {}, input, ` ${text}`)
  }

  // what is taken, in the list and over the page
  mark() {
    for (const { input, boxes } of this.choices) {
      const taken = boxes.filter(({ isTaken }) => isTaken).length
      input.checked = taken === boxes.length
      input.indeterminate = taken > 0 && taken < boxes.length
    }
    this.boxes.draw()
  }

  tellState(doc) {
    const state = this.states.get(doc.doc)
    if (state === undefined) return
    state.textContent = !isRedact(doc) ? ', not called Redact' : doc.confirmer !== 0 ? ', confirmed' : ''
  }

  // ---- over the page

  shapes(scale) {
    const { doc, page } = this.review
    if (doc === null) return []
    return this.proposals.on(doc.doc, page).flatMap((box) => {
      const kind = `proposed${box.isTaken ? ' taken' : ''}${box === this.at ? ' at' : ''}`
      const drawn = rectangle(box, kind)
      drawn.dataset.proposed = box.num
      // the sign stands above the box, at the upper edge of the page inside
      const place = { x: box.left, y: box.top, class: box.top * scale < 16 ? 'mark inside' : 'mark' }
      return [drawn, shape('text', place, box.isTaken ? '✓' : '✗')]
    })
  }

  press(event) {
    const { proposed } = event.target.dataset
    if (proposed === undefined || event.button !== 0) return
    event.stopPropagation()
    const box = this.proposals.all.find(({ num }) => num === Number(proposed))
    this.at = box
    this.proposals.take([box], !box.isTaken)
  }

  // ---- one after another

  // the next proposed box, or the one before; its choice has the focus then
  step(by) {
    const { all } = this.proposals
    if (all.length === 0) return 'No box is proposed yet.'
    const at = all.indexOf(this.at)
    if (at >= 0) return this.goTo(all[(at + by + all.length) % all.length])
    const { doc, page } = this.review
    const isHere = (box) => box.doc > doc.doc || (box.doc === doc.doc && box.page >= page)
    return this.goTo(by > 0 ? all.find(isHere) ?? all[0] : all.findLast((box) => !isHere(box)) ?? all.at(-1))
  }

  async goTo(box) {
    const { doc, page } = this.review
    if (doc.doc !== box.doc) await this.review.open(box.doc, box.page)
    else if (page !== box.page) await this.review.turn(box.page)
    this.at = box
    this.boxes.draw()
    this.paper.reveal(box)
    this.choices.find(({ boxes }) => boxes.length === 1 && boxes[0] === box)?.input.focus()
    const place = this.proposals.all.indexOf(box) + 1
    return `Proposed box ${place} of ${this.proposals.all.length}: “${box.text}”. Space takes or leaves it.`
  }
}
