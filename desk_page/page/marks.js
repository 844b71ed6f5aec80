// The hits of a search on the open page, over its image and under its boxes: each line of a hit is one mark, with round ends and
// a line below, so that it is told from a box without its colour.
import { wordsOf } from './hit_text.js'
import { shape } from './paper.js'

const ROOM = 3 // points of the screen around the words, so that no line of a mark goes through a letter

// the words of a hit as rectangles with some room around, one for each line
function rectanglesOf(hit, words, room) {
  const lines = new Map()
  for (const word of wordsOf(hit, words)) {
    const before = lines.get(word.line)
    const left = Math.min(before?.left ?? Infinity, word.left - room)
    const top = Math.min(before?.top ?? Infinity, word.top - room)
    const right = Math.max(before?.right ?? 0, word.left + word.width + room)
    const bottom = Math.max(before?.bottom ?? 0, word.top + word.height + room)
    lines.set(word.line, { left, top, right, bottom })
  }
  return [...lines.values()].map(({ left, top, right, bottom }) => ({ left, top, width: right - left, height: bottom - top }))
}

const markOf = ({ left, top, width, height }, kind) => [
  shape('rect', { x: left, y: top, width, height, rx: height / 3, class: `hit ${kind}` }),
  shape('line', { x1: left, x2: left + width, y1: top + height, y2: top + height, class: `hit_line ${kind}` }),
]

export class Marks {
  constructor(review, paper, boxes, search, { behind }) {
    Object.assign(this, { review, paper, boxes, search, current: null })
    boxes.layers.push((scale) => this.shapes(ROOM / scale))
    const readSoon = behind(() => this.read())
    review.addEventListener('page', () => readSoon())
    for (const kind of ['begun', 'hits']) search.addEventListener(kind, () => readSoon())
  }

  onPage() {
    const { doc, page } = this.review
    return doc === null ? [] : this.search.of(doc.doc, page)
  }

  shapes(room) {
    const words = this.onPage().length === 0 ? null : this.review.knownWords()
    if (words === null) return []
    return this.onPage().flatMap((hit) =>
      rectanglesOf(hit, words, room).flatMap((it) => markOf(it, hit === this.current ? 'current' : '')))
  }

  // the words of the open page, where there are hits
  async read() {
    if (this.onPage().length > 0 && this.review.knownWords() === null) await this.review.readWords(undefined, undefined, true)
    this.boxes.draw()
  }

  // a hit that somebody goes to is marked apart, and comes into sight
  async reveal(hit) {
    this.current = hit
    const words = hit.page === 0 ? null : await this.review.readWords(hit.doc, hit.page)
    this.boxes.draw()
    if (words === null || this.review.doc.doc !== hit.doc || this.review.page !== hit.page) return
    const [first] = rectanglesOf(hit, words, 0)
    if (first !== undefined) this.paper.reveal(first)
  }
}
