// Boxes on the open page: drawn and moved by the mouse or by keys, each with its basis. What is drawn here is a draft until
// the desk has it; then what the desk tells is drawn.
import { boxShapes, draftShapes, wordShapes } from './box_shapes.js'
import { Changed } from './review.js'
import { between, moved, opposite, sameRectangle, sized, touches } from './rectangles.js'

// A box of fewer pixels a side was a click.
const LEAST = 4
// A pointer that goes less far on the screen was a click, and moves nothing.
const STILL = 4
const NEW_BOX = { width: 600, height: 60 }

const counted = (count) => (count === 1 ? '1 word' : `${count} words`)

// the least number that no box of a document has
export function freeNumber(boxes) {
  const taken = new Set(boxes.map((box) => box.num))
  let num = 1
  while (taken.has(num)) num += 1
  return num
}

export class Boxes {
  constructor(review, paper, { list, basis, showWords, act }) {
    Object.assign(this, { review, paper, list, basis, showWords, act })
    this.draft = null // { num, page, left, top, width, height, basis, isNew }
    this.drag = null // what the pointer does to the draft
    this.isSending = false // what it does is on its way to the desk
    this.layers = [] // what others draw over the page: each gives the shapes of the open page
    review.addEventListener('doc', ({ detail }) => this.showAnew(detail))
    review.addEventListener('page', () => this.refresh())
    showWords.addEventListener('change', act(() => this.toggleWords()))
    basis.addEventListener('change', act(() => this.rebase(basis.value)))
    this.listen(paper.over)
  }

  listen(over) {
    over.addEventListener('pointerdown', (event) => this.press(event))
    over.addEventListener('pointermove', (event) => this.pull(event))
    over.addEventListener('pointerup', this.act((event) => this.release(event)))
    over.addEventListener('pointercancel', () => this.cancel())
  }

  // ---- what is shown

  onPage() {
    const { doc, page } = this.review
    return doc === null ? [] : doc.boxes.filter((box) => box.page === page)
  }

  // The document as it was told anew. A draft that somebody is at stays, under a number that is free.
  showAnew(doc) {
    const isDragged = this.drag !== null && this.draft === null
    const isAt = this.draft?.doc === doc.doc && (this.drag !== null || this.isUnsent())
    if (this.isSending || !(isDragged || isAt)) {
      this.refresh()
      return
    }
    if (this.draft?.isNew && doc.boxes.some((box) => box.num === this.draft.num)) this.draft.num = this.freeNumber()
    this.draw()
    this.drawList()
  }

  // what the desk told takes the place of a draft
  refresh() {
    this.draft = null
    this.drag = null
    this.draw()
    this.drawList()
  }

  draw() {
    const shown = this.onPage().filter((box) => box.num !== this.draft?.num)
    const all = this.draft === null ? shown : [...shown, this.draft]
    this.paper.over.replaceChildren(
      ...wordShapes(this.showWords.checked ? this.review.knownWords() ?? [] : [], all),
      ...this.layers.flatMap((layer) => layer(this.paper.scale)),
      ...shown.flatMap((box) => boxShapes(box, 'box', this.paper.scale)),
      ...(this.draft === null ? [] : draftShapes(this.draft, this.paper.scale)),
    )
  }

  drawList() {
    const { doc } = this.review
    this.list.replaceChildren(...(doc?.boxes ?? []).map((box) => this.listRow(box)))
  }

  listRow(box) {
    const row = document.createElement('li')
    const words = box.page === this.review.page ? this.review.knownWords() : null
    const taken = words === null ? '' : `, takes ${counted(words.filter((word) => touches(box, word)).length)}`
    const { num, basis, page, left, top, width, height } = box
    const text = `Box ${num}, ${basis}: page ${page}, ${width} × ${height} at ${left}, ${top}${taken}`
    row.append(
      this.button(text, () => this.choose(box)),
      this.button('Drop', () => this.drop(num), `Drop box ${num}`),
    )
    return row
  }

  button(text, work, label = text) {
    const button = document.createElement('button')
    button.type = 'button'
    button.textContent = text
    button.setAttribute('aria-label', label)
    button.addEventListener('click', this.act(work))
    return button
  }

  async toggleWords() {
    if (this.showWords.checked && this.review.doc !== null) await this.review.readWords()
    this.draw()
    this.drawList()
  }

  // ---- the draft

  edit(box, isNew = false) {
    const { left, top, width, height } = box
    this.draft = { ...box, isNew, doc: this.review.doc.doc, from: box.from ?? { left, top, width, height } }
    this.basis.value = box.basis
    this.draw()
  }

  cancel() {
    this.refresh()
  }

  freeNumber() {
    return freeNumber(this.review.doc.boxes)
  }

  start(rect) {
    this.edit({ ...rect, num: this.freeNumber(), page: this.review.page, basis: this.basis.value }, true)
  }

  change(rect) {
    Object.assign(this.draft, rect)
    this.draw()
  }

  async send(what, members) {
    this.isSending = true
    try {
      await this.review.edit(what, members)
    } finally {
      this.isSending = false
    }
  }

  async put() {
    const { draft } = this
    if (draft === null) return null
    const { num, page, left, top, width, height, basis } = draft
    try {
      await this.send('box', { num, page, left, top, width, height, basis })
    } catch (why) {
      if (why instanceof Changed) this.keep(draft, why)
      throw why
    }
    return `Box ${num} stands.`
  }

  // a box that wasn't put, as the document was changed meanwhile, stands as a draft until it is put again
  keep(draft, why) {
    if (this.review.doc.doc !== draft.doc) return
    const isTaken = draft.isNew && this.review.doc.boxes.some((box) => box.num === draft.num)
    this.edit({ ...draft, num: isTaken ? this.freeNumber() : draft.num }, draft.isNew)
    why.message += ' Enter puts the box.'
  }

  async drop(num) {
    await this.send('unbox', { num })
    return `Box ${num} is dropped.`
  }

  async choose(box) {
    if (box.page !== this.review.page) await this.review.turn(box.page)
    this.edit(box)
    this.paper.reveal(box)
    this.paper.sheet.focus() // which has the arrows and Enter
    return `Box ${box.num} is chosen: the arrows move it, Shift and the arrows size it, Enter puts it.`
  }

  // a chosen box gets another basis; it is put at once where it stands already
  async rebase(basis) {
    this.basis.value = basis
    if (this.draft === null) return null
    this.change({ basis })
    return this.draft.isNew || this.isMoved() ? null : this.put()
  }

  isUnsent() {
    return this.draft !== null && (this.draft.isNew || this.isMoved())
  }

  isMoved() {
    return !sameRectangle(this.draft.from, this.draft)
  }

  // ---- the pointer

  press(event) {
    if (event.button !== 0 || this.review.image?.rows === undefined || !this.review.isShown || !this.paper.isWhole()) return
    this.paper.over.setPointerCapture(event.pointerId)
    const from = this.paper.placeOf(event)
    const { corner, num } = event.target.dataset
    const box = num === undefined ? undefined : this.onPage().find((it) => it.num === Number(num)) ?? this.draft
    if (corner !== undefined) {
      this.drag = { fixed: opposite(this.draft, corner) }
    } else if (box !== undefined) {
      if (this.draft?.num !== box.num) this.edit(box)
      this.drag = { from, box: { ...this.draft }, start: event }
    } else {
      this.draft = null
      this.draw()
      this.drag = { fixed: from, starts: true }
    }
  }

  pull(event) {
    if (this.drag === null) return
    const to = this.paper.placeOf(event)
    const { fixed, from, box, starts, start } = this.drag
    if (start !== undefined) {
      if (Math.hypot(event.clientX - start.clientX, event.clientY - start.clientY) < STILL) return
      delete this.drag.start
    }
    if (starts && this.draft === null) this.start(between(fixed, to))
    else if (fixed !== undefined) this.change(between(fixed, to))
    else this.change(moved(box, to.x - from.x, to.y - from.y, this.review.image))
  }

  async release(event) {
    if (this.drag === null) return null
    this.pull(event)
    const { starts } = this.drag
    this.drag = null
    const isSmall = this.draft.width < LEAST || this.draft.height < LEAST
    if (isSmall && starts) {
      this.cancel()
      return null
    }
    if (!this.draft.isNew && !this.isMoved()) return `Box ${this.draft.num} is chosen: move it, or press Delete to drop it.`
    return this.putOrCancel()
  }

  async putOrCancel() {
    try {
      return await this.put()
    } catch (why) {
      if (!(why instanceof Changed)) this.cancel()
      throw why
    }
  }

  // ---- keys

  // a new box in the middle of what is in sight
  startByKeys() {
    const page = this.review.image
    if (page?.rows === undefined || !this.review.isShown) return null
    const { x, y } = this.paper.middle()
    const width = Math.min(NEW_BOX.width, page.width)
    const height = Math.min(NEW_BOX.height, page.height)
    this.start(moved({ left: 0, top: 0, width, height }, x - (width >> 1), y - (height >> 1), page))
    this.paper.sheet.focus()
    return 'A new box: the arrows move it, Shift and the arrows size it, 1 to 4 set its basis, Enter puts it, ' +
      'Escape leaves it.'
  }

  // the next box of the page
  chooseNext() {
    const boxes = this.onPage()
    if (boxes.length === 0) return 'This page has no box.'
    const at = boxes.findIndex((box) => box.num === this.draft?.num)
    return this.choose(boxes[(at + 1) % boxes.length])
  }

  // Moves or sizes the draft; whether there was one.
  nudge(right, down, isSize) {
    if (this.draft === null) return false
    const by = this.paper.alongPage(right, down, isSize)
    this.change((isSize ? sized : moved)(this.draft, by.x, by.y, this.review.image))
    this.paper.reveal(this.draft)
    return true
  }

  async dropChosen() {
    if (this.draft === null) return null
    const { num, isNew } = this.draft
    if (!isNew) return this.drop(num)
    this.cancel()
    return null
  }
}
