// What stands of all documents, told by blocks: of all once at the beginning, and then of one block after another anew, so that
// the list shows what others did. Each look takes a place of the desks' journal: there is one in ten seconds, and none while
// the tab is hidden or nobody is at it.

export const BLOCK = 500 // documents that one answer tells of
const EACH = 10_000 // milliseconds from one look to the next
const IDLE = 600_000 // milliseconds after the last key or mouse in which somebody is still there

export class Overview extends EventTarget {
  constructor(review) {
    super()
    this.review = review
    this.times = new Map() // when each block was told last, by its first document
    this.inSight = () => [] // the documents that are listed in sight
    this.fault = null // why the last look failed
    this.isOfSight = false
  }

  // All of them, which tells how many there are. `far` is told how many were.
  async tellAll(far) {
    let from = 1
    while ((await this.tell(from)) === BLOCK) {
      from += BLOCK
      far(from - 1)
    }
  }

  // how many rows came
  async tell(from, isBehind = false) {
    const rows = await this.rowsFrom(from, isBehind)
    this.times.set(from, performance.now())
    this.review.noteStates(rows)
    return rows.length
  }

  async rowsFrom(from, isBehind) {
    try {
      return await this.review.looks.states(from, isBehind)
    } catch (why) {
      if (why.rule === 'NoDocument') return []
      throw why
    }
  }

  // the blocks, by the first document of each
  get blocks() {
    return Array.from({ length: Math.ceil(this.review.count / BLOCK) }, (_, k) => k * BLOCK + 1)
  }

  // ---- from then on

  begin() {
    this.touched = performance.now()
    this.asked = this.touched
    const touch = () => this.touch()
    for (const kind of ['keydown', 'pointerdown', 'wheel']) document.addEventListener(kind, touch, { capture: true, passive: true })
    document.addEventListener('visibilitychange', () => this.goOn())
    this.goOn()
  }

  isIdle() {
    return performance.now() - this.touched > IDLE
  }

  // somebody is at the page
  touch() {
    const wasIdle = this.isIdle()
    this.touched = performance.now()
    if (wasIdle) this.goOn()
  }

  goOn() {
    clearTimeout(this.timer)
    if (document.hidden || this.isIdle()) return
    this.timer = setTimeout(() => this.tellNext(), Math.max(0, this.asked + EACH - performance.now()))
  }

  async tellNext() {
    this.asked = performance.now()
    const before = this.fault
    try {
      if (this.review.count > 0) await this.tell(this.next(), true)
      this.fault = null
    } catch (why) {
      this.fault = why
    }
    if (this.fault !== before) this.dispatchEvent(new CustomEvent('fault'))
    this.goOn()
  }

  // By turns the block that was told longest ago of all, and of those in sight: so these are the freshest.
  next() {
    this.isOfSight = !this.isOfSight
    const inSight = new Set(this.inSight().map((number) => number - ((number - 1) % BLOCK)))
    const blocks = this.isOfSight && inSight.size > 0 ? [...inSight] : this.blocks
    const told = (from) => this.times.get(from) ?? 0
    return blocks.reduce((a, b) => (told(b) < told(a) ? b : a))
  }
}
