// Words chosen on the page, to make boxes of: by the mouse where words are shown, by a drag or by a click and one with Shift; or
// by keys. What lies between the first and the last of them is chosen, in the order in which the page is read.
import { say } from './messages.js'
import { rectangle } from './paper.js'
import { sameRectangle } from './rectangles.js'
import { NotNow } from './review.js'
import { boxesAround } from './term_boxes.js'

const isOver = (word, { x, y }) =>
  x >= word.left && x < word.left + word.width && y >= word.top && y < word.top + word.height

// how far a place is from a word; lines count more, so that a drag in the space between words stays in its line
function distance(word, { x, y }) {
  const off = (at, from, size) => Math.max(from - at, at - from - size, 0)
  return off(x, word.left, word.width) + 4 * off(y, word.top, word.height)
}

export class ChosenWords {
  constructor(review, boxes, paper, { showWords, sheet, act }) {
    Object.assign(this, { review, boxes, paper, showWords, sheet, first: null, last: null, isDragged: false })
    boxes.layers.push(() => this.chosen().map((word) => rectangle(word, 'word chosen')))
    review.addEventListener('page', () => this.clear())
    showWords.addEventListener('change', () => { if (!showWords.checked) this.clear() })
    const { over } = paper
    over.addEventListener('pointerdown', (event) => this.press(event), true)
    over.addEventListener('pointermove', (event) => this.pull(event), true)
    over.addEventListener('pointerup', act((event) => this.release(event)), true)
  }

  words() {
    return (this.showWords.checked && this.review.doc !== null && this.review.knownWords()) || []
  }

  isChosen() {
    return this.first !== null
  }

  chosen() {
    if (this.first === null) return []
    return this.words().slice(Math.min(this.first, this.last), Math.max(this.first, this.last) + 1)
  }

  choose(first, last) {
    Object.assign(this, { first, last })
    this.boxes.draw()
  }

  clear() {
    this.isDragged = false
    if (this.first !== null) this.choose(null, null)
  }

  said() {
    const chosen = this.chosen()
    const text = chosen.map(({ text: word }) => word).join(' ')
    const shown = text.length > 80 ? `${text.slice(0, 40)} .. ${text.slice(-30)}` : text
    return `${chosen.length === 1 ? '1 word is' : `${chosen.length} words are`} chosen: “${shown}”. Enter makes boxes of `
      + `${chosen.length === 1 ? 'it' : 'them'}, for ${this.boxes.basis.value}.`
  }

  // ---- the pointer

  press(event) {
    const { num, corner, proposed } = event.target.dataset
    if (event.button !== 0 || [num, corner, proposed].some((it) => it !== undefined)) return
    if (!this.review.isShown || !this.paper.isWhole()) return
    const place = this.paper.placeOf(event)
    const at = this.words().findIndex((word) => isOver(word, place))
    if (at < 0) {
      this.clear()
      return
    }
    event.stopPropagation()
    this.paper.over.setPointerCapture(event.pointerId)
    this.boxes.cancel()
    this.isDragged = true
    this.choose(event.shiftKey ? this.first ?? at : at, at)
  }

  pull(event) {
    if (!this.isDragged) return
    event.stopPropagation()
    const place = this.paper.placeOf(event)
    const far = this.words().map((word) => distance(word, place))
    this.choose(this.first, far.indexOf(Math.min(...far)))
  }

  release(event) {
    if (!this.isDragged) return null
    event.stopPropagation()
    this.isDragged = false
    return this.said()
  }

  // ---- keys

  // shows the words, and chooses the one in the middle of what is in sight
  async start() {
    if (!this.review.isShown || this.review.image?.rows === undefined) return null
    const words = await this.review.readWords()
    if (words.length === 0) return 'This page has no words.'
    if (!this.showWords.checked) this.showWords.click()
    this.boxes.cancel()
    const middle = this.paper.middle()
    const far = words.map((word) => distance(word, middle))
    const at = far.indexOf(Math.min(...far))
    this.choose(at, at)
    this.sheet.focus()
    return `${this.said()} The arrows go to other words, Shift and the arrows choose more, Escape leaves them.`
  }

  // goes to another word, or chooses up to it; whether a word was chosen
  nudge(right, down, isMore) {
    if (this.first === null) return false
    const by = this.paper.alongPage(right, down, false)
    const at = by.y === 0 ? this.last + Math.sign(by.x) : this.inLine(Math.sign(by.y))
    if (this.words()[at] === undefined) return true
    this.choose(isMore ? this.first : at, at)
    this.paper.reveal(this.words()[at])
    say(this.said())
    return true
  }

  // the word of the next line, or of the one before, that is nearest across
  inLine(by) {
    const words = this.words()
    const lineOf = (at) => words[at]?.line
    let at = this.last
    while (lineOf(at) === lineOf(this.last)) at += by
    const line = lineOf(at)
    if (line === undefined) return -1
    const { left, width } = words[this.last]
    const off = (k) => Math.abs(words[k].left + words[k].width / 2 - left - width / 2)
    let best = at
    for (; lineOf(at) === line; at += by) if (off(at) < off(best)) best = at
    return best
  }

  // puts boxes around the chosen words, one a line
  async put() {
    const { image, page } = this.review
    const standing = this.boxes.onPage()
    const isNew = (box) => !standing.some((it) => sameRectangle(it, box))
    const around = boxesAround(this.chosen(), this.words(), image).filter(isNew)
    if (around.length === 0) throw new NotNow('Boxes stand around these words already.')
    const stands = []
    for (const { left, top, width, height } of around) {
      const num = this.boxes.freeNumber()
      try {
        await this.boxes.send('box', { num, page, left, top, width, height, basis: this.boxes.basis.value })
      } catch (why) {
        if (stands.length > 0) why.message += ` Of ${around.length} boxes ${stands.length} stand.`
        throw why
      }
      stands.push(num)
    }
    this.clear()
    return stands.length === 1 ? `Box ${stands[0]} stands.` : `Boxes ${stands.join(', ')} stand.`
  }
}
