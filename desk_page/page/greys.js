// The grey of the pages that were shown last or come next, each for one size of the canvas, made by the worker.

const KEPT = 4

export class Greys {
  constructor(decoder) {
    Object.assign(this, { decoder, kept: new Map() }) // by page, the latest last
  }

  // the bytes where they are made
  known(image, key) {
    const it = this.kept.get(image)
    return it?.key === key ? it.grey : undefined
  }

  // has them made; the promise holds once they are
  async make(image, across, down) {
    const key = `${across} ${down}`
    let it = this.kept.get(image)
    if (it?.key !== key) it = { key, grey: undefined, promise: this.decoder.grey(image, across, down) }
    this.kept.delete(image)
    this.kept.set(image, it)
    if (this.kept.size > KEPT) this.kept.delete(this.kept.keys().next().value)
    it.grey = await it.promise
  }
}
