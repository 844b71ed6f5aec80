// The open page on the screen: its pixels on a canvas, and over it a drawing whose numbers are pixels of the page. Both may be
// viewed turned by quarter turns.
import { imageOf } from './ink.js'
import { growthOnPage, inView, isOnSide, onPage, stepOnPage, transformOf } from './turned.js'

const SVG = 'http://www.w3.org/2000/svg'

// More cells than this take too much memory, and a canvas has at most so many across or down.
const MOST_CELLS = 40e6
const MOST_SIDE = 16384

// what the choice of a size gives, in points of the screen for a pixel of the page
const STEPS = [0.125, 0.25, 0.33, 0.5, 0.67, 1, 1.5, 2, 3, 4]

// the largest scale of a canvas's cells to a page's pixels
export const mostScale = (width, height) => Math.min(1, MOST_SIDE / Math.max(width, height), Math.sqrt(MOST_CELLS / (width * height)))

export function shape(name, attributes, text) {
  const made = document.createElementNS(SVG, name)
  for (const [key, value] of Object.entries(attributes)) made.setAttribute(key, value)
  if (text !== undefined) made.textContent = text
  return made
}

export const rectangle = ({ left, top, width, height }, kind) =>
  shape('rect', { x: left, y: top, width, height, class: kind })

export class Paper {
  constructor(review, greys, { sheet, paper, turned, ink, over, size }) {
    Object.assign(this, { review, greys, sheet, paper, turned, ink, over, size })
    this.image = null
    this.scale = 1 // points of the screen for a pixel of the page
    this.turns = 0
    this.turnsOf = new Map() // of the pages that were turned
    this.kept = null // the pixel that stays in the middle
    size.addEventListener('change', () => this.repaint())
    new ResizeObserver(() => this.fit()).observe(sheet)
    review.addEventListener('page', ({ detail }) => this.show(detail))
  }

  nameOfPage(doc = this.review.doc.doc, page = this.review.page) {
    return `${doc}/${page}`
  }

  show(image) {
    this.image = image.fault === undefined ? image : null
    this.paper.hidden = this.image === null
    this.turns = this.turnsOf.get(this.nameOfPage()) ?? 0
    this.kept = null
    this.paint()
    this.sheet.scrollTo(0, 0)
  }

  // has a page ready, so that it is painted at once when it is shown
  async prepare(image, doc, page) {
    if (image.fault !== undefined || this.sheet.clientWidth === 0) return
    const { across, down } = this.layoutOf(image, this.turnsOf.get(this.nameOfPage(doc, page)) ?? 0)
    await this.greys.make(image, across, down)
  }

  // on a window of another size only a page that fits it is painted anew
  fit() {
    if (Number.isNaN(Number(this.size.value))) this.repaint()
  }

  // the same page at another size or turn, its middle where it was
  repaint() {
    if (this.image === null || this.sheet.clientWidth === 0) return
    this.kept ??= this.middle()
    this.paint()
  }

  // a quarter turn of the view, clockwise
  turn() {
    if (this.image === null) return null
    const kept = this.middle()
    this.turns = (this.turns + 1) % 4
    this.turnsOf.set(this.nameOfPage(), this.turns)
    this.kept = kept
    this.paint()
    return this.turns === 0
      ? 'The page is viewed upright again.'
      : `The view is turned by ${90 * this.turns} degrees: the page goes out as it was scanned.`
  }

  wantedScale({ width, height }, turns) {
    const fixed = Number(this.size.value)
    if (!Number.isNaN(fixed)) return fixed / window.devicePixelRatio
    const [wide, high] = isOnSide(turns) ? [height, width] : [width, height]
    // the page has a margin of 12 at each side, and one of 12 for the bar that scrolls
    const across = (this.sheet.clientWidth - 36) / wide
    const scale = this.size.value === 'page' ? Math.min(across, (this.sheet.clientHeight - 24) / high) : across
    return Math.max(Math.min(scale, 1 / window.devicePixelRatio), 1 / Math.max(width, height))
  }

  // How a page stands on the screen: a cell of the canvas is a point of the screen, and never less than a pixel of the page.
  layoutOf(image, turns) {
    const { width, height } = image
    const points = window.devicePixelRatio
    const most = mostScale(width, height)
    const wanted = this.wantedScale(image, turns)
    const fine = Math.min(wanted * points, most)
    const across = Math.max(1, Math.round(width * fine))
    const down = Math.max(1, Math.round(height * fine))
    const isExact = wanted * points <= most
    return {
      across, down, key: `${across} ${down}`, scale: isExact ? across / width / points : wanted,
      // a cell is a point of the screen exactly, so that the browser has nothing to shrink
      wide: isExact ? across / points : width * wanted, high: isExact ? down / points : height * wanted,
    }
  }

  paint() {
    const { image } = this
    if (image === null || this.sheet.clientWidth === 0) return
    const layout = this.layoutOf(image, this.turns)
    const grey = this.greys.known(image, layout.key)
    if (grey !== undefined || (this.painted === image && this.paintedKey === layout.key)) {
      this.put(layout, grey)
      return
    }
    this.ink.dataset.state = this.painted === image ? 'changes' : 'waits'
    this.greys.make(image, layout.across, layout.down).then(() => { if (this.image === image) this.paint() })
  }

  put({ across, down, key, scale, wide, high }, grey) {
    if (this.painted !== this.image || this.paintedKey !== key) {
      if (this.ink.width !== across || this.ink.height !== down) Object.assign(this.ink, { width: across, height: down })
      this.ink.getContext('2d').putImageData(imageOf(grey, across, down), 0, 0)
      Object.assign(this, { painted: this.image, paintedKey: key })
    }
    this.scale = scale
    const [left, top] = isOnSide(this.turns) ? [high, wide] : [wide, high]
    Object.assign(this.paper.style, { width: `${left}px`, height: `${top}px` })
    const transform = transformOf(this.turns, wide, high)
    Object.assign(this.turned.style, { width: `${wide}px`, height: `${high}px`, transform })
    this.over.setAttribute('viewBox', `0 0 ${this.image.width} ${this.image.height}`)
    // lines and letters of the drawing are as thick on the screen at each size
    this.over.style.setProperty('--point', `${1 / scale}px`)
    this.ink.dataset.state = 'whole'
    if (this.kept !== null) this.center(this.kept)
    this.kept = null
  }

  // whether the page stands as it is to stand
  isWhole() {
    return this.ink.dataset.state === 'whole'
  }

  // the next larger or smaller size
  step(by) {
    const now = this.scale * window.devicePixelRatio
    const next = by > 0 ? STEPS.find((it) => it > now * 1.01) : STEPS.findLast((it) => it < now / 1.01)
    if (next !== undefined) this.fitAs(String(next))
  }

  fitAs(what) {
    this.size.value = what
    this.repaint()
  }

  // a step on the screen along the page's own sides: of a box, or of its lower right corner
  alongPage(right, down, isSize) {
    return (isSize ? growthOnPage : stepOnPage)(this.turns, right, down)
  }

  // the pixel of the page under the pointer, or the nearest one
  placeOf(event) {
    const on = this.paper.getBoundingClientRect()
    const [x, y] = onPage(this.turns, (event.clientX - on.left) / on.width, (event.clientY - on.top) / on.height)
    const along = (share, pixels) => Math.min(Math.max(Math.floor(share * pixels), 0), pixels - 1)
    return { x: along(x, this.image.width), y: along(y, this.image.height) }
  }

  // the middle of what is in sight, as a pixel of the page
  middle() {
    const on = this.paper.getBoundingClientRect()
    const sheet = this.sheet.getBoundingClientRect()
    const clientX = (Math.max(on.left, sheet.left) + Math.min(on.right, sheet.right)) / 2
    const clientY = (Math.max(on.top, sheet.top) + Math.min(on.bottom, sheet.bottom)) / 2
    return this.placeOf({ clientX, clientY })
  }

  // where a pixel of the page stands, in points from the upper left corner of the view
  viewOf(x, y) {
    const [right, down] = inView(this.turns, x / this.image.width, y / this.image.height)
    return { x: right * this.paper.clientWidth, y: down * this.paper.clientHeight }
  }

  // scrolls so that a pixel of the page is in the middle, as far as that goes
  center({ x, y }) {
    const on = this.paper.getBoundingClientRect()
    const sheet = this.sheet.getBoundingClientRect()
    const at = this.viewOf(x + 0.5, y + 0.5)
    const right = on.left + at.x - sheet.left - this.sheet.clientWidth / 2
    this.sheet.scrollBy(right, on.top + at.y - sheet.top - this.sheet.clientHeight / 2)
  }

  // scrolls so that a rectangle of the page is in sight
  reveal({ left, top, width, height }) {
    const margin = 24
    const one = this.viewOf(left, top)
    const other = this.viewOf(left + width, top + height)
    const { scrollLeft, scrollTop, clientWidth, clientHeight } = this.sheet
    const near = (a, b, from, room) => {
      const [at, end] = [Math.min(a, b), Math.max(a, b)]
      return at - margin < from ? at - margin : end + margin > from + room ? end + margin - room : from
    }
    this.sheet.scrollTo(near(one.x, other.x, scrollLeft, clientWidth), near(one.y, other.y, scrollTop, clientHeight))
  }
}
